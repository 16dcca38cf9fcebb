//! What stands on the command line behind a word.

use crate::phrases::printable;
use std::ffi::OsString;

/// Ends the options: what follows are operands, whatever they look like.
const END: &str = "--";

/// The options that a word takes: those that stand alone, and those that the next argument belongs
/// to.
pub struct Options {
    pub alone: &'static [&'static str],
    pub valued: &'static [&'static str],
}

/// What was given.
#[derive(Default)]
pub struct Arguments {
    alone: Vec<&'static str>,
    valued: Vec<(&'static str, OsString)>,
    pub operands: Vec<OsString>,
}

impl Arguments {
    /// Tells options from operands, or says what is wrong.
    pub fn parse(given: Vec<OsString>, options: &Options) -> Result<Arguments, String> {
        let mut arguments = Arguments::default();
        let mut rest = given.into_iter();
        while let Some(argument) = rest.next() {
            if argument == END {
                arguments.operands.extend(rest);
                break;
            }
            if let Some(name) = options.alone.iter().find(|&name| argument == *name) {
                arguments.alone.push(name);
            } else if let Some(name) = options.valued.iter().find(|&name| argument == *name) {
                let value = rest.next().ok_or(format!("{name} needs a value behind it"))?;
                if arguments.value(name).is_some() {
                    return Err(format!("{name} is given twice"));
                }
                arguments.valued.push((name, value));
            } else if argument.as_encoded_bytes().starts_with(b"-") && argument != "-" {
                return Err(format!("there is no option {}", printable(&argument)));
            } else {
                arguments.operands.push(argument);
            }
        }
        Ok(arguments)
    }

    /// Whether an option that stands alone was given.
    pub fn has(&self, name: &str) -> bool {
        self.alone.contains(&name)
    }

    /// The value of an option that has one.
    pub fn value(&self, name: &str) -> Option<&OsString> {
        self.valued.iter().find(|(given, _)| *given == name).map(|(_, value)| value)
    }
}
