//! The system, which Rattle's programs are passed as a value.

use super::alloc::Global;
use super::io::{Read, Result, Write};
use std::fs::File;
use std::io::{self, Stderr, Stdin};
#[cfg(not(windows))]
use std::os::fd::AsFd;
#[cfg(windows)]
use std::os::windows::io::AsHandle;

/// The system that the program runs on.
#[derive(Clone, Copy, Debug)]
pub struct HostRuntime;

/// Leads to the allocator.
pub trait AllocGlobal {
    /// The allocator.
    fn alloc(&self) -> Global;
}

/// Leads to files.
pub trait Files {}

/// Leads to standard input.
pub trait Input {
    /// Standard input.
    fn reader(&self) -> StandardInput;
}

impl AllocGlobal for HostRuntime {
    fn alloc(&self) -> Global {
        Global
    }
}

impl Files for HostRuntime {}

impl Input for HostRuntime {
    fn reader(&self) -> StandardInput {
        StandardInput(io::stdin())
    }
}

impl HostRuntime {
    /// The allocator.
    pub fn alloc(&self) -> Global {
        Global
    }

    /// Standard output.
    pub fn stdout(&self) -> Output {
        Output::standard()
    }

    /// Standard error.
    pub fn stderr(&self) -> Stderr {
        io::stderr()
    }
}

/// Standard input.
pub struct StandardInput(Stdin);

impl Read for StandardInput {
    fn read(&mut self, buffer: &mut [u8]) -> Result<usize> {
        io::Read::read(&mut self.0, buffer)
    }
}

/// Standard output without a buffer, since the command has its own. Rust's standard output writes
/// up to each last line feed.
pub struct Output(Result<File>);

impl Output {
    fn standard() -> Output {
        #[cfg(not(windows))]
        let own = io::stdout().as_fd().try_clone_to_owned();
        #[cfg(windows)]
        let own = io::stdout().as_handle().try_clone_to_owned();
        Output(own.map(File::from))
    }

    fn inner(&mut self) -> Result<&mut File> {
        self.0.as_mut().map_err(|error| error.kind().into())
    }
}

impl Write for Output {
    fn write(&mut self, bytes: &[u8]) -> Result<usize> {
        self.inner()?.write(bytes)
    }

    fn flush(&mut self) -> Result<()> {
        self.inner()?.flush()
    }
}
