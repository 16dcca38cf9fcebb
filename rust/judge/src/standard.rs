//! Standard input and output by their descriptors. Rust's own take one that cannot be read or written
//! for an empty one, and tell no error.

use std::ffi::OsStr;
use std::fs::{self, File, Metadata};
use std::io::{self, BufWriter, Error, Write};
use std::mem::ManuallyDrop;
use std::os::fd::FromRawFd;
use std::os::unix::fs::MetadataExt;
use std::sync::atomic::{AtomicBool, Ordering::Relaxed};

/// The name that stands for standard input.
pub const STANDARD_INPUT: &str = "-";

const INPUT: i32 = 0;
const OUTPUT: i32 = 1;

/// Which of the two were closed when the program was started. By `main` that cannot be seen any more:
/// Rust's runtime has put /dev/null in the place of one that is closed, open as many a program opens
/// the /dev/null that it hands on.
static CLOSED: [AtomicBool; 2] = [const { AtomicBool::new(false) }; 2];

/// What the system's loader finds in this section it calls before Rust's runtime begins.
#[used]
#[link_section = ".init_array"]
static LOOK: extern "C" fn() = look;

extern "C" fn look() {
    for (descriptor, closed) in (INPUT..).zip(&CLOSED) {
        // Safe: this command takes no argument and changes nothing.
        closed.store(unsafe { fcntl(descriptor, F_GETFD) } == -1, Relaxed);
    }
}

extern "C" {
    fn fcntl(descriptor: i32, command: i32, ...) -> i32;
}

/// Asks for a descriptor's flags, and fails where it is closed.
const F_GETFD: i32 = 1;

/// What stands at a descriptor, which is /dev/null where that was closed.
fn standing(descriptor: i32) -> ManuallyDrop<File> {
    // Safe: Rust has both open before `main`, and this file is never closed.
    ManuallyDrop::new(unsafe { File::from_raw_fd(descriptor) })
}

fn was_closed(descriptor: i32) -> bool {
    CLOSED[descriptor as usize].load(Relaxed)
}

fn standard(descriptor: i32) -> io::Result<ManuallyDrop<File>> {
    if was_closed(descriptor) {
        return Err(Error::other("it is closed"));
    }
    Ok(standing(descriptor))
}

/// As much of a file as `start` takes, or why it cannot be read.
pub fn read(file: &OsStr, start: fn(&File) -> io::Result<Vec<u8>>) -> Result<Vec<u8>, String> {
    let bytes = if file == STANDARD_INPUT {
        standard(INPUT).and_then(|input| start(&input))
    } else {
        open(file).and_then(|file| start(&file))
    };
    bytes.map_err(|error| format!("cannot be read: {}", fault(&error)))
}

/// Opens a file. One that leads to a standard input that is closed, as /dev/stdin does, is closed
/// too.
fn open(path: &OsStr) -> io::Result<File> {
    if was_closed(INPUT) && leads_to(path, INPUT).is_some() {
        return Err(Error::other("standard input is closed"));
    }
    File::open(path)
}

/// Whether what is read from the path is gone from standard input: the path leads there, and it is
/// no file that is read from its start again.
pub fn shares_input(path: &OsStr) -> bool {
    leads_to(path, INPUT).is_some_and(|data| !data.is_file())
}

/// Whether the path leads to where standard output goes.
pub fn is_output(path: &OsStr) -> bool {
    leads_to(path, OUTPUT).is_some()
}

/// What a path leads to, if that stands at the descriptor.
fn leads_to(path: &OsStr, descriptor: i32) -> Option<Metadata> {
    let (there, here) = (fs::metadata(path).ok()?, standing(descriptor).metadata().ok()?);
    is_same(&there, &here).then_some(there)
}

/// Whether two files are one.
pub fn is_same(one: &Metadata, other: &Metadata) -> bool {
    (one.dev(), one.ino()) == (other.dev(), other.ino())
}

/// Writes to standard output at once.
pub fn print(text: &str) -> io::Result<()> {
    standard(OUTPUT)?.write_all(text.as_bytes())
}

/// Writes to standard output what is made piece by piece.
pub fn print_pieces(write: impl FnOnce(&mut dyn Write) -> io::Result<()>) -> io::Result<()> {
    let output = standard(OUTPUT)?;
    let mut pieces = BufWriter::new(&*output);
    write(&mut pieces)?;
    pieces.flush()
}

/// Tells something on standard error. Where that fails too, the status alone can tell.
pub fn complain(text: &str) {
    _ = io::stderr().write_all(format!("judge: {text}\n").as_bytes());
}

/// What went wrong, without the system's number for it.
pub fn fault(error: &Error) -> String {
    let told = error.to_string();
    match told.split_once(" (os error") {
        Some((words, _)) => words.to_string(),
        None => told,
    }
}
