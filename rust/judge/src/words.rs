//! The words of the command line: the table of them, and how one is run.

mod cards;
mod convert;
mod files;
mod judge;
mod order;
mod pairs;
mod picture;
mod plan;

pub use picture::Picture;

use crate::answer::Answer;
use crate::arguments::{Arguments, Options};
use crate::objects;
use crate::phrases::printable;
use crate::standard::{complain, fault, print, STANDARD_INPUT};
use racejudge::Verdict;
use std::ffi::{OsStr, OsString};
use std::io;

/// How a run ended, as its exit status. Of several files the highest counts.
#[derive(Clone, Copy, PartialEq, Eq, PartialOrd, Ord)]
#[must_use = "a race or a refusal is told by the exit status"]
pub enum Status {
    /// All is clean, or the answer is yes, or a trace is converted whole.
    Good = 0,
    /// There is a race, or the answer is no, or a trace is converted in part.
    Bad = 1,
    Refused = 2,
    /// Something could not be judged, or what was said of it could not be written.
    Unjudged = 3,
}

impl Status {
    fn of(answer: &Answer) -> Status {
        match answer {
            Ok(Verdict::Clean { .. }) => Status::Good,
            Ok(Verdict::Race { .. }) => Status::Bad,
            Err(_) => Status::Refused,
        }
    }
}

impl From<Status> for std::process::ExitCode {
    fn from(status: Status) -> Self {
        (status as u8).into()
    }
}

/// Why a word did not come to its end.
enum Failure {
    /// The command line is wrong, and how.
    Usage(String),
    /// Standard output does not take what is written.
    Output(io::Error),
}

impl From<io::Error> for Failure {
    fn from(error: io::Error) -> Self {
        Failure::Output(error)
    }
}

struct Word {
    /// Its first argument; empty for the one that stands for no word.
    name: &'static str,
    /// What follows it on the command line.
    usage: &'static str,
    /// What it does, in one line.
    about: &'static str,
    /// What its own help says besides.
    help: &'static str,
    /// What its exit statuses mean.
    statuses: &'static str,
    options: Options,
    run: fn(Arguments) -> Result<Status, Failure>,
}

/// The first is run where no word is given.
const WORDS: [Word; 6] =
    [judge::WORD, order::WORD, cards::WORD, pairs::WORD, plan::WORD, convert::WORD];

const JSON: &str = "--json";
const SVG: &str = "--svg";
const ORDERS: &str = "--orders";
const HELP: &str = "--help";
const VERSION: &str = "--version";

/// The statuses of a word that judges files.
const JUDGED: &str = "
Status: 0 all clean, 1 a race, 2 a refusal, 3 something could not be judged, or the command line is
wrong, or the output could not be written. Of several files the highest counts.
";

/// Runs the command with these arguments, and tells on standard error what goes wrong.
pub fn run(mut given: Vec<OsString>) -> Status {
    let named = WORDS.iter().skip(1).find(|word| given.first().is_some_and(|it| it == word.name));
    let word = match named {
        Some(word) => {
            given.remove(0);
            word
        }
        None => &WORDS[0],
    };
    word.start(given).unwrap_or_else(|failure| {
        complain(&match failure {
            Failure::Usage(wrong) => {
                format!("{wrong}\nusage: {}\nmore: {} {HELP}", word.line(), word.called())
            }
            Failure::Output(error) => {
                format!("cannot write to standard output: {}", fault(&error))
            }
        });
        Status::Unjudged
    })
}

impl Word {
    fn start(&self, given: Vec<OsString>) -> Result<Status, Failure> {
        let arguments = Arguments::parse(given, &self.options).map_err(Failure::Usage)?;
        if arguments.has(HELP) {
            print(&self.page())?;
        } else if arguments.has(VERSION) {
            print(&format!("judge {}\n", env!("CARGO_PKG_VERSION")))?;
        } else {
            return (self.run)(arguments);
        }
        Ok(Status::Good)
    }

    /// How it is called, without what follows.
    fn called(&self) -> String {
        format!("judge {}", self.name).trim_end().to_string()
    }

    fn line(&self) -> String {
        format!("{} {}", self.called(), self.usage)
    }

    /// Its help; that of the first has the lines of the others.
    fn page(&self) -> String {
        let mut page = format!("{}\n\n{}\n", self.about, self.line());
        if self.name.is_empty() {
            for other in WORDS.iter().skip(1) {
                page += &format!("{}\n    {}\n", other.line(), other.about);
            }
            page += &format!("judge WORD {HELP}\njudge {VERSION}\n");
        }
        page + self.help + self.statuses
    }
}

/// A file's name as it may go to a terminal.
fn name(file: &OsStr) -> String {
    if file == STANDARD_INPUT {
        return "standard input".to_string();
    }
    printable(file)
}

/// Says why a file cannot be judged or written: on standard error, or in an object.
fn unread(file: &OsStr, wrong: &str, json: bool) -> Result<Status, Failure> {
    if json {
        print(&objects::unread(file, wrong))?;
    } else {
        complain(&format!("{} {wrong}", name(file)));
    }
    Ok(Status::Unjudged)
}
