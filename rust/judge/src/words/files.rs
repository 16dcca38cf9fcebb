//! The files that a word is given, told of one after the other.

use super::{name, unread, Failure, Status};
use crate::standard::{shares_input, STANDARD_INPUT};
use std::ffi::{OsStr, OsString};

/// There is one at least, and standard input is among them once at most.
pub struct Files(Vec<OsString>);

impl Files {
    pub fn of(operands: Vec<OsString>) -> Result<Files, Failure> {
        let is_input = |file: &&OsString| *file == STANDARD_INPUT || shares_input(file);
        if operands.is_empty() {
            return Err(Failure::Usage("no file is given".to_string()));
        }
        if operands.iter().filter(is_input).count() > 1 {
            let twice = "standard input is given twice, and can be read once";
            return Err(Failure::Usage(twice.to_string()));
        }
        Ok(Files(operands))
    }

    /// The file, if there is no other.
    pub fn only(&self) -> Option<&OsStr> {
        match self.0.as_slice() {
            [file] => Some(file),
            _ => None,
        }
    }

    /// Reads each file and has what it holds told, with what stands above its words. The highest
    /// status counts.
    pub fn each<Held>(
        &self,
        json: bool,
        read: fn(&OsStr) -> Result<Held, String>,
        tell: impl Fn(&OsStr, String, &Held) -> Result<Status, Failure>,
    ) -> Result<Status, Failure> {
        let (mut worst, mut begun) = (Status::Good, false);
        for file in &self.0 {
            let status = match read(file) {
                Ok(held) => {
                    let above = self.above(file, begun);
                    begun = true;
                    tell(file, above, &held)?
                }
                Err(wrong) => unread(file, &wrong, json)?,
            };
            worst = worst.max(status);
        }
        Ok(worst)
    }

    /// Where there are several files, the words for each are set apart, with its name above them.
    fn above(&self, file: &OsStr, begun: bool) -> String {
        let gap = if begun { "\n" } else { "" };
        match self.only() {
            Some(_) => String::new(),
            None => format!("{gap}{}:\n", name(file)),
        }
    }
}
