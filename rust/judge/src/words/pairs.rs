//! `pairs`: which accesses race that stand close to each other?

use super::files::Files;
use super::picture::Place;
use super::{name, Failure, Status, Word, HELP, JSON, SVG};
use crate::arguments::{Arguments, Options};
use crate::recording::Recording;
use crate::standard::{print, print_pieces};
use crate::study::Listed;
use crate::{explain, objects, svg};
use std::ffi::OsStr;

const ALL: &str = "--all";

pub const WORD: Word = Word {
    name: "pairs",
    usage: "[--all] [--json] [--svg FILE] FILE...",
    about: "Lists every close pair of accesses that race, by the places that they come from.",
    help: "
Each FILE is a trace, as text or in the binary form. - is standard input.

  --all        prints every pair; else the first of each group, and how many are left out
  --json       prints one JSON object a line for each file, in place of words, with every pair
  --svg FILE   draws the trace of the one file that is given as a picture into FILE, and writes over
               nothing there but an older picture
  --           ends the options: what follows is a file, whatever its name

The first line of an answer is that of the proved library:

  pairs K                 K pairs of accesses race that are at most 256 events apart
  refused ROW POSITION    the file breaks a rule there

What follows it has the pairs in groups: by location, and within it by the source lines of the two
accesses, or where the file has no source lines by what the two do. Which pairs there are is the
proved library's own. Races behind the first count too, so the whole trace must keep the rules.
`judge FILE` explains the first race; where that is farther apart, it is told. Events count from 0,
lines of a file from 1.
",
    statuses: "
Status: 0 no race at all, 1 a race, of a close pair or farther apart, 2 a refusal, 3 something could
not be judged, or the command line is wrong, or the output could not be written. Of several files
the highest counts.
",
    options: Options { alone: &[ALL, JSON, HELP], valued: &[SVG] },
    run,
};

/// What is wanted of each file.
struct Job {
    json: bool,
    all: bool,
    picture: Place,
}

fn run(arguments: Arguments) -> Result<Status, Failure> {
    let (json, all) = (arguments.has(JSON), arguments.has(ALL));
    let picture = arguments.value(SVG).cloned();
    let files = Files::of(arguments.operands)?;
    let job = Job { json, all, picture: Place::of(picture, &files)? };
    files.each(json, Recording::read, |file, above, recording| job.file(file, above, recording))
}

impl Job {
    /// Lists the pairs of a file and prints what comes of it.
    fn file(&self, file: &OsStr, above: String, recording: &Recording) -> Result<Status, Failure> {
        let listed = Listed::new(recording);
        if !self.json {
            print(&above)?;
            print_pieces(|out| explain::listed(&listed, self.all, out))?;
        }
        let picture = self.picture.draw(|| svg::draw_pairs(&listed, &name(file)));
        if self.json {
            print_pieces(|out| objects::listed(file, &listed, &picture, out))?;
        } else {
            print(&picture.told())?;
        }
        Ok(picture.status(&listed.verdict))
    }
}
