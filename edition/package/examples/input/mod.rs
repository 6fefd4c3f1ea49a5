//! What the examples read.

use dwframe::{AddressSize, Endian};
use std::error::Error;
use std::fs;
use std::process::ExitCode;

/// The bytes of a raw section, and how its numbers are read: `4|8 little|big FILE`.
pub fn read(words: &[String]) -> Result<(Vec<u8>, AddressSize, Endian), Box<dyn Error>> {
    let [size, order, path, ..] = words else {
        return Err("4|8 little|big FILE".into());
    };
    let size = if size == "4" { AddressSize::Four } else { AddressSize::Eight };
    let order = if order == "big" { Endian::Big } else { Endian::Little };
    Ok((fs::read(path)?, size, order))
}

/// A number behind `0x`.
pub fn number(text: &str) -> Result<u64, Box<dyn Error>> {
    let digits = text.strip_prefix("0x").ok_or("a number begins with 0x")?;
    Ok(u64::from_str_radix(digits, 16)?)
}

/// Ends as the command does: with 2, and a line that says why.
pub fn end(answer: Result<(), Box<dyn Error>>) -> ExitCode {
    let Err(error) = answer else {
        return ExitCode::SUCCESS;
    };
    eprintln!("{error}");
    ExitCode::from(2)
}
