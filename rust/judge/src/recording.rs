//! What a file holds: a trace as text or in the binary form.

use crate::phrases::grouped;
use crate::standard;
use racejudge::{Refusal, Trace, TEXT_BYTES};
use std::ffi::OsStr;
use std::fs::File;
use std::io::{self, Read};

/// A 0 byte among so many at the start tells the binary form: no text has one, and the number of
/// events that stands there is small.
const SIGN_BYTES: usize = 4;

/// A binary file may have so many bytes: several times what the longest trace that is judged takes.
const BINARY_BYTES: usize = 1 << 20;

/// How the file of a text begins that was saved in two bytes a letter.
const WIDE_MARKS: [&[u8]; 2] = [b"\xff\xfe", b"\xfe\xff"];

pub struct Recording {
    /// The text, if it is one, as far as it decides.
    pub text: Option<Vec<u8>>,
    /// The trace, or why the text makes none.
    pub trace: Result<Trace, Refusal>,
}

impl Recording {
    /// Reads a file, or says why it cannot be judged.
    pub fn read(file: &OsStr) -> Result<Recording, String> {
        Recording::of(standard::read(file, start)?)
    }

    /// The recording of what `start` gives of a file.
    pub fn of(bytes: Vec<u8>) -> Result<Recording, String> {
        if !is_binary(&bytes) {
            let trace = Trace::from_text(&bytes);
            return Ok(Recording { text: Some(bytes), trace });
        }
        match Trace::from_binary(&bytes) {
            Ok(trace) => Ok(Recording { text: None, trace: Ok(trace) }),
            Err(_) if WIDE_MARKS.iter().any(|mark| bytes.starts_with(mark)) => {
                Err("is a text of two bytes a letter (UTF-16): save it as plain text".into())
            }
            Err(_) if bytes.len() > BINARY_BYTES => {
                let most = grouped(BINARY_BYTES);
                Err(format!("is too long for a binary trace: more than {most} bytes"))
            }
            Err(damage) => Err(format!("is a damaged binary trace: {damage}")),
        }
    }

    /// Line `number` of the text, counted from 0, without its line feed, and whether it has one.
    pub fn line(&self, number: usize) -> Option<(&[u8], bool)> {
        let mut lines = self.text.as_ref()?.split_inclusive(|&byte| byte == b'\n');
        let line = lines.nth(number)?;
        Some(line.strip_suffix(b"\n").map_or((line, false), |line| (line, true)))
    }
}

/// As much of a file as decides: an endless one is not waited for.
fn start(mut file: &File) -> io::Result<Vec<u8>> {
    let mut bytes = Vec::new();
    file.by_ref().take(SIGN_BYTES as u64).read_to_end(&mut bytes)?;
    let most = if is_binary(&bytes) { BINARY_BYTES + 1 } else { TEXT_BYTES };
    file.take((most - bytes.len()) as u64).read_to_end(&mut bytes)?;
    Ok(bytes)
}

fn is_binary(bytes: &[u8]) -> bool {
    bytes.iter().take(SIGN_BYTES).any(|&byte| byte == 0)
}
