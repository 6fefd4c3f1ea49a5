//! Prints the rows of a raw section: `rows 4|8 little|big FILE [ADDRESS..]`, those at the
//! addresses, or those of each FDE.

mod input;

use dwframe::{CfaRule, RegisterRule, Row, Section, UnwindExpression};
use std::error::Error;
use std::fmt::Write;
use std::process::ExitCode;

fn hex(expression: &UnwindExpression) -> Result<String, dwframe::Error> {
    let block = expression.decode()?.to_bytes()?;
    Ok(block.iter().map(|byte| format!("{byte:02x}")).collect())
}

fn text(row: &Row) -> Result<String, dwframe::Error> {
    let mut text = match &row.cfa {
        CfaRule::RegisterAndOffset { register, offset } => format!(" cfa={register}{offset:+}"),
        CfaRule::Expression(expression) => format!(" cfa=expr({})", hex(expression)?),
    };
    for (register, rule) in row.registers() {
        let rule = match rule {
            RegisterRule::Unspecified => continue,
            RegisterRule::Undefined => "u".to_string(),
            RegisterRule::SameValue => "s".to_string(),
            RegisterRule::Offset(offset) => format!("[cfa{offset:+}]"),
            RegisterRule::ValOffset(offset) => format!("cfa{offset:+}"),
            RegisterRule::Register(other) => other.to_string(),
            RegisterRule::Expression(expression) => format!("[expr({})]", hex(expression)?),
            RegisterRule::ValExpression(expression) => format!("expr({})", hex(expression)?),
        };
        let _ = write!(text, " {register}={rule}");
    }
    Ok(text)
}

fn print_all(section: Section) -> Result<(), dwframe::Error> {
    let table = section.check()?;
    for fde in table.fdes() {
        let (addresses, register) = (fde.addresses(), fde.return_register());
        println!(
            "fde {:#x} {:#x} ra={register}",
            addresses.start(),
            u128::from(*addresses.end()) + 1
        );
        for row in fde.rows() {
            let (addresses, row) = row?;
            println!(" {:#x}{}", addresses.start(), text(&row)?);
        }
    }
    Ok(())
}

fn run(words: &[String]) -> Result<(), Box<dyn Error>> {
    let (bytes, size, endian) = input::read(words)?;
    let section = Section::new(&bytes, size, endian);
    if words.len() == 3 {
        return Ok(print_all(section)?);
    }
    let index = section.index()?;
    for word in &words[3..] {
        match index.row_at(input::number(word)?)? {
            Some(row) => println!("{word}{}", text(&row)?),
            None => println!("{word} no FDE"),
        }
    }
    Ok(())
}

fn main() -> ExitCode {
    let words: Vec<String> = std::env::args().skip(1).collect();
    input::end(run(&words))
}
