//! Prints the stack of each thread of a program that stopped, from its core file, on x86-64 or
//! AArch64:
//!
//!     core [--time] PROGRAM CORE
//!
//! `file` reads the files. Here the index of each `.debug_frame` is made, once, and stacks are
//! walked. The memory is that of the core file, and of the files that were mapped.

mod file;

use dwframe::{
    AddressSize, Endian, Error, FrameError, Index, MemoryError, Register, Registers, Section,
    UnwindOptions,
};
use file::{Core, Module, Stop, Thread, module_at, u64_at};
use std::ffi::OsString;
use std::io::{self, BufWriter, Write, stdout};
use std::os::unix::ffi::OsStrExt;
use std::path::Path;
use std::process::ExitCode;
use std::time::{Duration, Instant};

/// The most frames of a stack.
const FRAMES: usize = 1 << 20;

/// What the ABI of a processor says.
struct Processor {
    machine: u16,
    stack_pointer: Register,
    pc: Register,
    /// The register that has the return address when a function is entered; else the stack has it.
    link: Option<Register>,
    /// Where the registers from number 0 on stand among the words of pr_reg.
    words: &'static [u8],
}

const PROCESSORS: [Processor; 2] = [
    // System V ABI for AMD64, 3.6.2: rax, rdx, rcx, rbx, rsi, rdi, rbp, rsp, r8 to r15, rip.
    Processor {
        machine: object::elf::EM_X86_64,
        stack_pointer: Register(7),
        pc: Register(16),
        link: None,
        words: &[10, 12, 11, 5, 13, 14, 4, 19, 9, 8, 7, 6, 3, 2, 1, 0, 16],
    },
    // DWARF for the Arm 64-bit Architecture, 4.1: x0 to x30, sp, pc.
    Processor {
        machine: object::elf::EM_AARCH64,
        stack_pointer: Register(31),
        pc: Register(32),
        link: Some(Register(30)),
        words: &[
            0, 1, 2, 3, 4, 5, 6, 7, 8, 9, 10, 11, 12, 13, 14, 15, 16, 17, 18, 19, 20, 21, 22, 23,
            24, 25, 26, 27, 28, 29, 30, 31, 32,
        ],
    },
];

/// Why a file has no index, or a stack no more frames.
type End = String;

/// The index of a file's table, or why it has none.
fn index_of(module: &Module) -> Result<Index<'_>, End> {
    let section = Section::new(module.table()?, AddressSize::Eight, Endian::Little);
    section.index().map_err(|error| match error {
        Error::Refused(_) => format!("the file's .debug_frame is {error}"),
        error => why(&error).into(),
    })
}

fn why(error: &Error) -> &'static str {
    match error {
        Error::Frame(FrameError::Eval { .. }) => "an expression has no value",
        Error::Frame(FrameError::Unreadable { .. }) => {
            "a register is saved in memory that the core file does not have"
        }
        Error::Frame(FrameError::NoRegister { .. }) => "a register is needed that is not known",
        Error::OutOfMemory => "out of memory",
        _ => "the file's .debug_frame is refused",
    }
}

/// A subroutine that was active: its pc, the address that is looked up for it, the CFA of the one
/// that it has called, or 0, and its registers.
struct Activation {
    pc: u64,
    looked_up: u64,
    callee_cfa: u64,
    registers: Registers,
}

impl Activation {
    /// The one where a thread stopped.
    fn innermost(processor: &Processor, thread: &Thread) -> Result<Activation, Error> {
        let numbered = (0..).map(Register).zip(processor.words);
        let word = |(register, &at): (Register, &u8)| {
            Some((register, u64_at(&thread.registers, u64::from(at) * 8)?))
        };
        let registers = Registers::from_values(numbered.filter_map(word))?;
        let pc = registers.get(processor.pc).unwrap_or(0);
        Ok(Activation { pc, looked_up: pc, callee_cfa: 0, registers })
    }
}

/// A program that stopped, and all that a walk needs of it.
struct Stopped<'a> {
    core: &'a Core,
    modules: &'a [Module],
    indexes: &'a [Result<Index<'a>, End>],
    processor: &'static Processor,
}

impl Stopped<'_> {
    /// Goes to the caller, whose CFA and return address are known. The ABI says the rest: the pc is
    /// the return address, without the bits that sign it (PAC), and 0 where nobody has called. The
    /// address that is looked up is one less, and so in the call: a call that never returns may be
    /// the last instruction of its function. Of the innermost frame it is the pc itself, and so it
    /// is of a frame that a signal has interrupted. That one is never reached here: what the
    /// handler returns to is a trampoline of the C library or of the kernel, and these have no
    /// `.debug_frame`.
    fn enter_caller(&self, frame: &mut Activation, cfa: u64, address: u64) -> Result<(), End> {
        let pc = address & !self.core.signature;
        if pc == 0 {
            return Err("the return address is 0".into());
        }
        if cfa <= frame.callee_cfa {
            return Err("the frame does not stand above the one before".into());
        }
        for (register, value) in [(self.processor.stack_pointer, cfa), (self.processor.pc, pc)] {
            frame.registers.set(register, value).map_err(|error| why(&error))?;
        }
        (frame.pc, frame.looked_up, frame.callee_cfa) = (pc, pc - 1, cfa);
        Ok(())
    }

    /// A call of an address where there is no memory, as of 0, has only kept its return address.
    fn leave_nowhere(&self, frame: &mut Activation) -> Result<(), End> {
        const NOWHERE: &str = "no file was mapped there";
        if frame.callee_cfa != 0 || self.core.was_mapped(frame.pc) {
            return Err(NOWHERE.into());
        }
        let top = frame.registers.get(self.processor.stack_pointer).unwrap_or(0);
        if let Some(link) = self.processor.link {
            let address = frame.registers.get(link).ok_or("the return address has no value")?;
            return self.enter_caller(frame, top, address);
        }
        let address = u64_at(self.core.memory_at(top, 8), 0).ok_or(NOWHERE)?;
        self.enter_caller(frame, top.wrapping_add(8), address)
    }

    /// Goes from a frame to its caller's, or tells why there is none.
    fn go_up(&self, frame: &mut Activation) -> Result<(), End> {
        let has_address = |module: &Module| module.addresses.contains(&frame.looked_up);
        let Some(number) = self.modules.iter().position(has_address) else {
            return self.leave_nowhere(frame);
        };
        let index = self.indexes[number].as_ref().map_err(Clone::clone)?;
        let pc = frame.looked_up.wrapping_sub(self.modules[number].bias);
        let mut memory = |address: u64, buffer: &mut [u8]| {
            let filled = self.core.fill(self.modules, address, buffer);
            filled.then_some(()).ok_or(MemoryError::Unreadable)
        };
        let found = index.unwind(pc, &frame.registers, &mut memory, UnwindOptions::default());
        let caller = found.map_err(|error| why(&error))?;
        let caller = caller.ok_or("no entry of the file's .debug_frame covers the address")?;
        let registers = caller.caller(self.processor.stack_pointer);
        frame.registers = registers.map_err(|error| why(&error))?;
        let address = caller.return_address().ok_or("the return address has no value")?;
        self.enter_caller(frame, caller.cfa, address)
    }

    /// The pc of each frame of a thread, the innermost first, and why there are no more.
    fn walk(&self, thread: &Thread) -> (Vec<u64>, End) {
        let mut frame = match Activation::innermost(self.processor, thread) {
            Ok(frame) => frame,
            Err(error) => return (Vec::new(), why(&error).into()),
        };
        let mut pcs = vec![frame.pc];
        while pcs.len() < FRAMES {
            if let Err(end) = self.go_up(&mut frame) {
                return (pcs, end);
            }
            pcs.push(frame.pc);
        }
        (pcs, "there are too many frames".into())
    }
}

/// The last part of a path, without what a terminal would obey.
fn name_of(path: &Path) -> String {
    let name = path.as_os_str().as_bytes().rsplit(|&byte| byte == b'/').next().unwrap_or_default();
    name.iter().map(|&byte| if byte.is_ascii_graphic() { char::from(byte) } else { '?' }).collect()
}

fn print_stack(out: &mut impl Write, modules: &[Module], pcs: &[u64]) -> io::Result<()> {
    for (number, &pc) in pcs.iter().enumerate() {
        write!(out, "#{number} {pc:#x}")?;
        let looked_up = if number == 0 { pc } else { pc - 1 };
        if let Some(module) = module_at(modules, looked_up) {
            write!(out, " {}+{:#x}", name_of(&module.path), pc.wrapping_sub(module.bias))?;
        }
        writeln!(out)?;
    }
    Ok(())
}

fn milliseconds(time: Duration) -> f64 {
    time.as_secs_f64() * 1e3
}

fn run(is_timed: bool, program: &Path, path: &Path) -> Result<(), Stop> {
    let begun = Instant::now();
    let (core, modules) = file::read(program, path)?;
    let processor = PROCESSORS.iter().find(|processor| processor.machine == core.machine);
    let processor = processor.ok_or_else(|| {
        Stop::wrong("the core file is of a processor other than x86-64 and AArch64".into())
    })?;
    let read = begun.elapsed();
    let indexes: Vec<_> = modules.iter().map(index_of).collect();
    let indexing = begun.elapsed() - read;
    let stopped = Stopped { core: &core, modules: &modules, indexes: &indexes, processor };
    let (mut walking, mut frames) = (Duration::ZERO, 0);
    let mut out = BufWriter::new(stdout().lock());
    for thread in &core.threads {
        let before = Instant::now();
        let (pcs, end) = stopped.walk(thread);
        walking += before.elapsed();
        frames += pcs.len();
        let printed = writeln!(out, "thread {}", thread.id)
            .and_then(|()| print_stack(&mut out, &modules, &pcs))
            .and_then(|()| writeln!(out, "the walk ends: {end}"));
        printed.map_err(|error| Stop { status: 4, text: error.to_string() })?;
    }
    if is_timed {
        let [read, indexing, walking] = [read, indexing, walking].map(milliseconds);
        eprintln!("files {read:.3} ms, indexes {indexing:.3} ms, {frames} frames {walking:.3} ms");
    }
    Ok(())
}

fn main() -> ExitCode {
    let words: Vec<OsString> = std::env::args_os().skip(1).collect();
    let done = match words.as_slice() {
        [time, program, path] if time == "--time" => run(true, program.as_ref(), path.as_ref()),
        [program, path] => run(false, program.as_ref(), path.as_ref()),
        _ => Err(Stop { status: 3, text: "usage: core [--time] PROGRAM CORE".into() }),
    };
    match done {
        Ok(()) => ExitCode::SUCCESS,
        Err(Stop { status, text }) => {
            eprintln!("{text}");
            ExitCode::from(status)
        }
    }
}
