//! The command `judge`: see `judge --help`.

use std::env;
use std::process::ExitCode;

fn main() -> ExitCode {
    judge::words::run(env::args_os().skip(1).collect()).into()
}
