//! What the programs share: the input and output, and how they end.
//! Status 0: done; 1: a check failed; 2: the work could not be done, told on standard error.

use std::fs::File;
use std::io::{self, Read, Write};
use std::mem::ManuallyDrop;
use std::os::fd::FromRawFd;
use std::process::exit;

/// Standard input (0) or output (1) as a file. Rust's own `stdin` and `stdout` take one that is not
/// open for reading or writing for an empty one, and tell no error.
fn standard(descriptor: i32) -> ManuallyDrop<File> {
    // Safe: Rust has both open before `main`, and this file is never closed.
    ManuallyDrop::new(unsafe { File::from_raw_fd(descriptor) })
}

/// Standard input up to so many bytes: more is not waited for. A read that fails ends the program.
pub fn input(most: usize) -> Vec<u8> {
    let mut input = Vec::new();
    if let Err(error) = (&*standard(0)).take(most as u64).read_to_end(&mut input) {
        trouble(&format!("cannot read the text: {error}"));
    }
    input
}

/// Writes to standard output at once. A write that fails ends the program.
pub fn print(text: &str) {
    if let Err(error) = standard(1).write_all(text.as_bytes()) {
        trouble(&format!("cannot write the output: {error}"));
    }
}

/// Ends the program where what it checks does not hold.
pub fn fail(text: &str) -> ! {
    print(&format!("{text}\n"));
    exit(1)
}

pub fn mismatch(text: &str) -> ! {
    fail(&format!("MISMATCH: {text}"))
}

/// Ends the program where the work could not be done.
pub fn trouble(text: &str) -> ! {
    // Where this write fails too, the status alone can tell.
    _ = writeln!(io::stderr(), "{text}");
    exit(2)
}
