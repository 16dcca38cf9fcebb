//! The word for no word: judges files.

use super::files::Files;
use super::picture::Place;
use super::{name, Failure, Status, Word, HELP, JSON, JUDGED, ORDERS, SVG, VERSION};
use crate::arguments::{Arguments, Options};
use crate::recording::Recording;
use crate::standard::print;
use crate::study::Study;
use crate::{explain, objects, svg};
use std::ffi::OsStr;

const LINKS: &str = "--links";

pub const WORD: Word = Word {
    name: "",
    usage: "[--json] [--svg FILE] [--orders] [--links] FILE...",
    about: "Judges traces of fork-join runs for data races, and says in words why.",
    help: "
Each FILE is a trace, as text or in the binary form. - is standard input.

  --json       prints one JSON object a line for each file, in place of words
  --svg FILE   draws the trace of the one file that is given as a picture into FILE, and writes over
               nothing there but an older picture
  --orders     prints both orders of a race whole, however long they are
  --links      says how many links lead from a task to the top of its tree in the table of joins, at
               the most, by the proved judge; with --json that is always told
  --           ends the options: what follows is a file, whatever its name

A file that has the name of a word is given as ./WORD.

The first line of an answer is the proved judge's own:

  clean N                 N events, and no race
  race S T                events S and T race; it is the first race, and what follows is not judged
  refused ROW POSITION    the file breaks a rule there, with no race before

What follows it explains it, and is not proved. Events count from 0, lines of a file from 1.
",
    statuses: JUDGED,
    options: Options { alone: &[JSON, ORDERS, LINKS, HELP, VERSION], valued: &[SVG] },
    run,
};

/// What is wanted of each file.
struct Job {
    json: bool,
    whole_orders: bool,
    links: bool,
    picture: Place,
}

fn run(arguments: Arguments) -> Result<Status, Failure> {
    let (json, whole_orders) = (arguments.has(JSON), arguments.has(ORDERS));
    let (links, picture) = (arguments.has(LINKS), arguments.value(SVG).cloned());
    let files = Files::of(arguments.operands)?;
    let job = Job { json, whole_orders, links, picture: Place::of(picture, &files)? };
    files.each(json, Recording::read, |file, above, recording| job.file(file, above, recording))
}

impl Job {
    /// Judges a file and prints what comes of it.
    fn file(&self, file: &OsStr, above: String, recording: &Recording) -> Result<Status, Failure> {
        let study = Study::new(recording);
        if !self.json {
            let links = if self.links { explain::links(&study) } else { String::new() };
            print(&(above + &explain::judged(&study, self.whole_orders) + &links))?;
        }
        let picture = self.picture.draw(|| {
            let (scene, why) = (study.scene.as_ref()?, study.why.as_ref());
            Some(svg::draw(scene.trace, &scene.graph, &study.answer, why, &name(file)))
        });
        print(&if self.json { objects::judged(file, &study, &picture) } else { picture.told() })?;
        Ok(picture.status(&study.answer))
    }
}
