//! The command `dwframe`.
#![forbid(unsafe_code)]

use dwframe::proved::program;
use dwframe::proved::support::HostRuntime;
use std::process::ExitCode;

fn main() -> ExitCode {
    program::main(HostRuntime)
}
