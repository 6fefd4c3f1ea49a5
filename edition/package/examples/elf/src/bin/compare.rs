//! Tells whether the `.debug_frame` sections of two ELF files mean the same: `compare FILE FILE`.
//! So one sees whether another compiler, linker or strip has changed how stacks are walked.

use dwframe::{AddressSize, Endian, Section};
use object::elf::{FileHeader32, FileHeader64};
use object::read::elf::{FileHeader, SectionHeader};
use object::{Endianness, FileKind};
use std::error::Error;
use std::process::ExitCode;
use std::{env, fs};

/// The section of a file, and how its numbers are read.
fn section<Elf: FileHeader<Endian = Endianness>>(
    bytes: &[u8],
) -> object::read::Result<Section<'_>> {
    let header = Elf::parse(bytes)?;
    let endian = header.endian()?;
    let sections = header.sections(endian, bytes)?;
    let found = match sections.section_by_name(endian, b".debug_frame") {
        Some((_, found)) => found.data(endian, bytes)?,
        None => &[],
    };
    let size = if header.is_type_64() { AddressSize::Eight } else { AddressSize::Four };
    let order = if endian == Endianness::Little { Endian::Little } else { Endian::Big };
    Ok(Section::new(found, size, order))
}

fn section_in(bytes: &[u8]) -> object::read::Result<Section<'_>> {
    match FileKind::parse(bytes)? {
        FileKind::Elf32 => section::<FileHeader32<Endianness>>(bytes),
        _ => section::<FileHeader64<Endianness>>(bytes),
    }
}

fn main() -> Result<ExitCode, Box<dyn Error>> {
    let paths: Vec<_> = env::args_os().skip(1).collect();
    let [first, second] = &paths[..] else {
        return Err("compare FILE FILE".into());
    };
    let (first, second) = (fs::read(first)?, fs::read(second)?);
    let (first, second) = (section_in(&first)?, section_in(&second)?);
    if (first.address_size, first.endian) != (second.address_size, second.endian) {
        return Err("the files are for different machines".into());
    }
    let same = first.means_the_same(second.bytes)?;
    println!("{}", if same { "same" } else { "different" });
    Ok(ExitCode::from(u8::from(!same)))
}
