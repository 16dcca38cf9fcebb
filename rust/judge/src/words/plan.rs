//! `plan`: may what a plan puts side by side run so?

use super::files::Files;
use super::picture::Place;
use super::{name, Failure, Status, Word, HELP, JSON, JUDGED, ORDERS, SVG};
use crate::arguments::{Arguments, Options};
use crate::schedule::Schedule;
use crate::standard::print;
use crate::study::Planned;
use crate::{explain, objects, svg};
use std::ffi::OsStr;

const DRAW: &str = "--draw";

pub const WORD: Word = Word {
    name: "plan",
    usage: "[--json] [--draw] [--svg FILE] [--orders] FILE...",
    about: "Judges plans in series and parallel, and says which two leaves race.",
    help: "
Each FILE is a plan, with or without a line feed at its end. - is standard input. A plan is

  rL, wL or sL    a leaf, which reads, writes or adds to location L, 0 to 1,023
  S(plan,plan)    the one plan, then the other
  P(plan,plan)    the one plan beside the other: P forks a task for the first, goes on with the
                  second, and joins it

with no blanks and no leading zeros, as in S(w3,P(r3,r3)). At most 64 of S and P may be open.

  --json       prints one JSON object a line for each file, in place of words
  --draw       prints the plan as a tree and its task graph behind the words; not with --json
  --svg FILE   draws the plan and its trace as a picture into FILE, of the one file that is given,
               and writes over nothing there but an older picture
  --orders     prints both orders of a race whole, however long they are
  --           ends the options: what follows is a file, whatever its name

The first line of an answer is the proved library's own:

  clean N                 the plan makes N events, and has no race
  race S T                events S and T race; it is the first race, and what follows is not judged
  refused ROW POSITION    the byte there cannot continue a plan (17), or opens level 65 (18), or the
                          plan is too large (19)

What follows it explains it, and is not proved. Bytes of a plan and events count from 0.
",
    statuses: JUDGED,
    options: Options { alone: &[JSON, DRAW, ORDERS, HELP], valued: &[SVG] },
    run,
};

/// What is wanted of each file.
struct Job {
    json: bool,
    drawing: bool,
    whole_orders: bool,
    picture: Place,
}

fn run(arguments: Arguments) -> Result<Status, Failure> {
    let [json, drawing, whole_orders] = [JSON, DRAW, ORDERS].map(|option| arguments.has(option));
    if json && drawing {
        let wrong = format!("{DRAW} draws behind the words, and with {JSON} there are none");
        return Err(Failure::Usage(wrong));
    }
    let picture = arguments.value(SVG).cloned();
    let files = Files::of(arguments.operands)?;
    let job = Job { json, drawing, whole_orders, picture: Place::of(picture, &files)? };
    files.each(json, Schedule::read, |file, above, schedule| job.file(file, above, schedule))
}

impl Job {
    /// Judges a plan and prints what comes of it.
    fn file(&self, file: &OsStr, above: String, schedule: &Schedule) -> Result<Status, Failure> {
        let planned = Planned::new(schedule);
        if !self.json {
            let drawn = if self.drawing { explain::drawn(&planned) } else { String::new() };
            print(&(above + &explain::planned(&planned, self.whole_orders) + &drawn))?;
        }
        let picture = self.picture.draw(|| svg::draw_plan(&planned, &name(file)));
        print(&if self.json {
            objects::planned(file, &planned, &picture)
        } else {
            picture.told()
        })?;
        Ok(picture.status(&planned.study.answer))
    }
}
