//! The picture that is wanted of a file: where it may go, and what comes of it.

use super::files::Files;
use super::{name, Failure, Status, SVG};
use crate::answer::Answer;
use crate::phrases::printable;
use crate::standard::{complain, fault, is_output, is_same, STANDARD_INPUT};
use std::ffi::{OsStr, OsString};
use std::fs;
use std::io::Read;

/// Where a picture goes, if one is wanted.
pub struct Place(Option<OsString>);

impl Place {
    pub fn of(picture: Option<OsString>, files: &Files) -> Result<Place, Failure> {
        if let Some(picture) = &picture {
            check(files, picture).map_err(Failure::Usage)?;
        }
        Ok(Place(picture))
    }

    /// Draws there; there is no drawing where the file makes no trace.
    pub fn draw(&self, drawing: impl FnOnce() -> Option<String>) -> Picture {
        let Some(path) = &self.0 else {
            return Picture::Unwanted;
        };
        let Some(drawing) = drawing() else {
            return Picture::Nothing;
        };
        match fs::write(path, drawing) {
            Ok(()) => Picture::Drawn(path.clone()),
            Err(error) => {
                let failed = format!("{} cannot be written: {}", name(path), fault(&error));
                complain(&failed);
                Picture::Failed(failed)
            }
        }
    }
}

/// What came of the picture.
pub enum Picture {
    Unwanted,
    /// It is in this file.
    Drawn(OsString),
    /// The file makes no trace.
    Nothing,
    /// It could not be written, and why.
    Failed(String),
}

impl Picture {
    /// What the words say of it.
    pub fn told(&self) -> String {
        match self {
            Picture::Unwanted => String::new(),
            Picture::Drawn(path) => format!("\nThe picture is in {}.\n", name(path)),
            Picture::Nothing => "\nThere is no picture: the file makes no trace.\n".to_string(),
            Picture::Failed(failed) => format!("\nThere is no picture: {failed}.\n"),
        }
    }

    /// The status of a file with this answer and this picture.
    pub fn status(&self, answer: &Answer) -> Status {
        match self {
            Picture::Failed(_) => Status::Unjudged,
            _ => Status::of(answer),
        }
    }
}

/// A picture goes to a file of its own, and is written over nothing but an older one.
fn check(files: &Files, picture: &OsStr) -> Result<(), String> {
    let file = files.only().ok_or(format!("{SVG} draws one file, and more are given"))?;
    let name = printable(picture);
    if file == STANDARD_INPUT || picture == STANDARD_INPUT {
        return Err(format!("{SVG} draws from a file into a file, and takes no -"));
    }
    if picture.as_encoded_bytes().starts_with(b"-") {
        return Err(format!("{SVG} needs a file behind it; one of this name is given as ./{name}"));
    }
    let both = fs::metadata(file).ok().zip(fs::metadata(picture).ok());
    if both.is_some_and(|(file, picture)| is_same(&file, &picture)) {
        return Err(format!("{SVG} would write over the file that is to be judged"));
    }
    if is_output(picture) {
        return Err(format!("{SVG} would write over what is printed"));
    }
    if holds_else(picture) {
        return Err(format!("{SVG} would write over {name}, which is there and is no picture"));
    }
    Ok(())
}

/// Whether a file has something in it that is no picture, or that cannot be seen.
fn holds_else(path: &OsStr) -> bool {
    if !fs::metadata(path).is_ok_and(|data| data.is_file()) {
        return false;
    }
    let mut start = Vec::new();
    let read = fs::File::open(path).and_then(|file| file.take(5).read_to_end(&mut start));
    read.is_err() || !(start.is_empty() || start == b"<?xml" || start.starts_with(b"<svg"))
}
