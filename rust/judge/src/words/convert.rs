//! `convert`: brings a stored trace over.

use super::{name, unread, Failure, Status, Word, HELP, JSON};
use crate::arguments::{Arguments, Options};
use crate::recording::Recording;
use crate::standard::{fault, is_same, print, STANDARD_INPUT};
use crate::study::Converted;
use crate::{explain, objects};
use racejudge::{Conversion, Trace};
use std::ffi::OsStr;
use std::fs::{self, File};
use std::io::{self, ErrorKind, Write};

pub const WORD: Word = Word {
    name: "convert",
    usage: "[--json] OLD NEW",
    about: "Brings a stored trace over: its halts then name the task that resumes.",
    help: "
OLD is a trace in the binary form, stored when the operand of every halt was 0. - is standard input.
It stays as it is. What comes of it is written to NEW, which must not be there yet.

  --json   prints one JSON object, in place of words
  --       ends the options: what follows is a file, whatever its name

The operand of each halt is set to the task that resumes, up to the first event that breaks a rule;
a halt is still held to the operand 0. Nothing else changes. What was clean or a race is so
afterwards, at the same events. A text needs no conversion: its halts are put in.

The first line of the answer is that of the proved library: converted or refused ROW POSITION. What
follows it says how many halts were set, and where and why that ended. Of a trace that is refused
nothing is written.
",
    statuses: "
Status: 0 the whole trace is converted, 1 it is converted up to an event that breaks a rule, 2
refused, 3 OLD could not be read, or NEW is there already or could not be written, or the command
line is wrong, or the output could not be written.
",
    options: Options { alone: &[JSON, HELP], valued: &[] },
    run,
};

fn run(arguments: Arguments) -> Result<Status, Failure> {
    let json = arguments.has(JSON);
    let [old, new] = arguments.operands.as_slice() else {
        return Err(Failure::Usage("an old file and a new one are needed".to_string()));
    };
    check(old, new).map_err(Failure::Usage)?;
    let converted = match Recording::read(old).and_then(stored) {
        Ok(recording) => Converted::new(recording),
        Err(wrong) => return unread(old, &wrong, json),
    };
    if let (Ok(trace), Ok(_)) = (&converted.recording.trace, &converted.answer) {
        if let Err(error) = write(new, trace) {
            return unread(new, &unwritten(&error), json);
        }
    }
    print(&if json {
        objects::converted(old, &converted, new)
    } else {
        explain::converted(&converted) + &place(&converted, new)
    })?;
    Ok(match converted.answer {
        Ok(Conversion { stopped: None, .. }) => Status::Good,
        Ok(_) => Status::Bad,
        Err(_) => Status::Refused,
    })
}

/// What the words say of the new file.
fn place(converted: &Converted, new: &OsStr) -> String {
    match converted.answer {
        Ok(_) => format!("\nThe trace is in {}.\n", name(new)),
        Err(_) => "\nNothing is written.\n".to_string(),
    }
}

/// What is converted goes to a file of its own.
fn check(old: &OsStr, new: &OsStr) -> Result<(), String> {
    if new == STANDARD_INPUT {
        return Err("what is converted goes to a file, and not to -".to_string());
    }
    let both = fs::metadata(old).ok().zip(fs::metadata(new).ok());
    if both.is_some_and(|(old, new)| is_same(&old, &new)) {
        return Err("the old file and the new one are the same".to_string());
    }
    Ok(())
}

/// A recording that is no text.
fn stored(recording: Recording) -> Result<Recording, String> {
    match recording.text {
        Some(_) => {
            Err("is no binary trace; a text needs no conversion, its halts are put in".into())
        }
        None => Ok(recording),
    }
}

/// Writes a file that is not there yet, or leaves none.
fn write(path: &OsStr, trace: &Trace) -> io::Result<()> {
    let bytes = trace.to_binary().ok_or(ErrorKind::InvalidInput)?;
    let mut file = File::create_new(path)?;
    // The old file may be thrown away as soon as the words are there.
    let written = file.write_all(&bytes).and_then(|()| file.sync_all());
    written.inspect_err(|_| _ = fs::remove_file(path))
}

fn unwritten(error: &io::Error) -> String {
    match error.kind() {
        ErrorKind::AlreadyExists => "is there already, and is not written over".to_string(),
        _ => format!("cannot be written: {}", fault(error)),
    }
}
