//! `order`: does one event always come before another?

use super::{name, unread, Failure, Status, Word, HELP, JSON};
use crate::arguments::{Arguments, Options};
use crate::recording::Recording;
use crate::standard::print;
use crate::study::Question;
use crate::{explain, objects};
use std::ffi::OsString;

pub const WORD: Word = Word {
    name: "order",
    usage: "[--json] FILE P Q",
    about: "Says whether event P of a trace always comes before event Q.",
    help: "
FILE is a trace, as text or in the binary form. - is standard input. Events count from 0, with the
halts that are put in, as `judge FILE` names them.

  --json   prints one JSON object, in place of words
  --       ends the options: what follows is a file, whatever its name

The first line of the answer is that of the proved library: yes, no or refused ROW POSITION. What
follows it explains it. The answer is yes also where P and Q are one event. Races do not matter
here, but the whole trace must keep the rules.
",
    statuses: "
Status: 0 yes, 1 no, 2 refused, 3 the file could not be read, or the command line is wrong, or the
output could not be written.
",
    options: Options { alone: &[JSON, HELP], valued: &[] },
    run,
};

fn run(arguments: Arguments) -> Result<Status, Failure> {
    let json = arguments.has(JSON);
    let [file, p, q] = arguments.operands.as_slice() else {
        return Err(Failure::Usage("a file and two event numbers are needed".to_string()));
    };
    let (p, q) = (number(p)?, number(q)?);
    let recording = match Recording::read(file) {
        Ok(recording) => recording,
        Err(wrong) => return unread(file, &wrong, json),
    };
    let question = Question::new(&recording, p, q);
    print(&if json { objects::asked(file, &question) } else { explain::asked(&question) })?;
    Ok(match question.answer {
        Ok(true) => Status::Good,
        Ok(false) => Status::Bad,
        Err(_) => Status::Refused,
    })
}

/// An event's number. One that is too large for the machine is past every event, as is the largest.
fn number(given: &OsString) -> Result<usize, Failure> {
    let digits =
        given.to_str().filter(|it| !it.is_empty() && it.bytes().all(|b| b.is_ascii_digit()));
    match digits {
        Some(digits) => Ok(digits.parse().unwrap_or(usize::MAX)),
        None => Err(Failure::Usage(format!("{} is no event number", name(given)))),
    }
}
