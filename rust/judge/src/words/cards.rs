//! `cards`: how busy was each location?

use super::files::Files;
use super::{Failure, Status, Word, HELP, JSON, JUDGED};
use crate::arguments::{Arguments, Options};
use crate::recording::Recording;
use crate::standard::print;
use crate::study::Study;
use crate::{explain, objects};

const BUSIEST: &str = "--busiest";

pub const WORD: Word = Word {
    name: "cards",
    usage: "[--busiest] [--json] FILE...",
    about: "Says how busy each location of a clean trace was.",
    help: "
Each FILE is a trace, as text or in the binary form. - is standard input.

  --busiest   puts the busiest location first, in place of the lowest
  --json      prints one JSON object a line for each file, in place of words
  --          ends the options: what follows is a file, whatever its name

The first line of the answer is that of `judge FILE`. Where it is clean, each location that was
touched has a row: how many reads, writes and sums it had, the first and the last event that touched
it, and a bar that shows its accesses beside those of the busiest. The counts and the events are the
proved library's own. Events count from 0, lines of a file from 1.

Where it is not clean there are no cards, and the race or the refusal is explained.
",
    statuses: JUDGED,
    options: Options { alone: &[BUSIEST, JSON, HELP], valued: &[] },
    run,
};

fn run(arguments: Arguments) -> Result<Status, Failure> {
    let (busiest, json) = (arguments.has(BUSIEST), arguments.has(JSON));
    Files::of(arguments.operands)?.each(json, Recording::read, |file, above, recording| {
        let study = Study::new(recording);
        print(&if json {
            objects::counted(file, &study, busiest)
        } else {
            above + &explain::counted(&study, busiest)
        })?;
        Ok(Status::of(&study.answer))
    })
}
