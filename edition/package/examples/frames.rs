//! Walks a stack by a raw section: `frames 4|8 little|big FILE DUMP STACK-POINTER`, where the dump
//! has lines `pc 0x..`, `r6 0x..` and `mem 0x.. DIGITS`. Without the number of the stack pointer it
//! prints the registers of the caller.

mod input;

use dwframe::{
    Frame, Index, Memory, MemoryError, Register, Registers, Section, UnwindOptions, Window,
};
use std::error::Error;
use std::process::ExitCode;

/// A machine that stopped.
struct Dump {
    pc: u64,
    registers: Registers,
    memory: Vec<(u64, Vec<u8>)>,
}

impl Dump {
    fn read(text: &str) -> Result<Dump, Box<dyn Error>> {
        let (mut pc, mut registers, mut memory) = (None, Registers::default(), Vec::new());
        for line in text.lines().filter(|line| !line.is_empty() && !line.starts_with('#')) {
            match line.split(' ').collect::<Vec<_>>()[..] {
                ["pc", value] => pc = Some(input::number(value)?),
                ["mem", address, digits] => {
                    let pairs = (0..digits.len()).step_by(2).map(|at| digits.get(at..at + 2));
                    let byte = |pair: Option<&str>| u8::from_str_radix(pair.unwrap_or(""), 16);
                    let bytes = pairs.map(byte).collect::<Result<_, _>>()?;
                    memory.push((input::number(address)?, bytes));
                }
                [name, value] => {
                    let register = name.strip_prefix('r').ok_or("an unknown line")?.parse()?;
                    registers.set(Register(register), input::number(value)?)?;
                }
                _ => return Err("an unknown line".into()),
            }
        }
        Ok(Dump { pc: pc.ok_or("fault: NoPc")?, registers, memory })
    }
}

/// What a debugger does by reading the memory of a process.
impl Memory for Dump {
    fn read(&mut self, address: u64, buffer: &mut [u8]) -> Result<(), MemoryError> {
        for (place, byte) in (0..).zip(buffer) {
            let address = address.checked_add(place).ok_or(MemoryError::Unreadable)?;
            let mut windows =
                self.memory.iter().map(|(address, bytes)| Window { address: *address, bytes });
            let mut own = [0];
            windows
                .find_map(|mut window| window.read(address, &mut own).ok())
                .ok_or(MemoryError::Unreadable)?;
            *byte = own[0];
        }
        Ok(())
    }
}

fn print(frame: &Frame) {
    println!("cfa {:#x}\nra {}", frame.cfa, frame.return_register);
    for (register, value) in frame.registers() {
        match value {
            Some(value) => println!("{register} {value:#x}"),
            None => println!("{register} undefined"),
        }
    }
}

fn walk(index: &Index, mut dump: Dump, stack_pointer: Register) -> Result<(), Box<dyn Error>> {
    let (mut registers, mut address) = (std::mem::take(&mut dump.registers), dump.pc);
    let (mut number, mut last, options) = (0, None, UnwindOptions::default());
    println!("#0 {:#x}", dump.pc);
    while let Some(frame) = index.unwind(address, &registers, &mut dump, options)?
        && let Some(caller) = frame.return_address()
    {
        if last.replace(frame.cfa).is_some_and(|last| frame.cfa <= last) {
            return Err("a frame does not stand above the one before".into());
        }
        number += 1;
        println!("#{number} {caller:#x}");
        // The call is before the return address.
        address = caller.wrapping_sub(1);
        registers = frame.caller(stack_pointer)?;
    }
    Ok(())
}

fn run(words: &[String]) -> Result<(), Box<dyn Error>> {
    let (bytes, size, endian) = input::read(words)?;
    let index = Section::new(&bytes, size, endian).index()?;
    let mut dump = Dump::read(&std::fs::read_to_string(words.get(3).ok_or("a dump")?)?)?;
    if let Some(number) = words.get(4) {
        return walk(&index, dump, Register(number.parse()?));
    }
    let registers = std::mem::take(&mut dump.registers);
    let frame = index.unwind(dump.pc, &registers, &mut dump, UnwindOptions::default())?;
    print(&frame.ok_or("fault: NoFde")?);
    Ok(())
}

fn main() -> ExitCode {
    let words: Vec<String> = std::env::args().skip(1).collect();
    input::end(run(&words))
}
