//! What the command says of each trace and each plan of examples/, in words and as JSON, against
//! tests/expected; the close pairs of the traces, and the cards of the clean ones; the pictures that are
//! kept; and what the documents show of them.
//!
//! With JUDGE_EXPECTED=write in the environment the expected files and the pictures are written anew,
//! to be read through before they are kept.

mod common;

use common::json::Json;
use common::{finish, folder, judge, Said};
use std::collections::BTreeSet;
use std::env;
use std::fs;
use std::path::{Path, PathBuf};

fn examples() -> PathBuf {
    Path::new(env!("CARGO_MANIFEST_DIR")).join("../../examples")
}

fn expected(name: &str) -> PathBuf {
    Path::new(env!("CARGO_MANIFEST_DIR")).join("tests/expected").join(name)
}

/// The names of the files of a folder that end so, without that end.
fn names(folder: &Path, end: &str) -> BTreeSet<String> {
    let files = fs::read_dir(folder).expect("the folder can be read");
    let names = files.map(|file| file.expect("a file").file_name().into_string().expect("a name"));
    names.filter_map(|name| name.strip_suffix(end).map(str::to_string)).collect()
}

/// The examples of one kind: the end of their names, the word that judges them, and the folder of
/// what is expected of them.
struct Examples {
    end: &'static str,
    word: &'static [&'static str],
    folder: &'static str,
    least: usize,
}

const TRACES: Examples = Examples { end: ".std", word: &[], folder: "", least: 10 };
const PAIRS: Examples = Examples { word: &["pairs"], folder: "pairs", ..TRACES };
const PLANS: Examples = Examples { end: ".plan", word: &["plan"], folder: "plan", least: 6 };

impl Examples {
    fn names(&self) -> BTreeSet<String> {
        let names = names(&examples(), self.end);
        assert!(names.len() >= self.least, "{names:?}");
        names
    }

    /// What is judged and how, for a run in the folder of the examples, so that it says their short
    /// names.
    fn say(&self, name: &str, options: &[&str]) -> Said {
        let file = format!("{name}{}", self.end);
        let arguments = self.word.iter().chain(options).copied().chain([file.as_str()]);
        finish(judge(arguments).current_dir(examples()))
    }

    /// Each is told in one way, against the expected file of that end. There is none besides.
    fn each(&self, end: &str, options: &[&str], check: impl Fn(&str, &Said)) {
        for name in &self.names() {
            let said = self.say(name, options);
            hold(&expected(self.folder).join(format!("{name}{end}")), &said.out);
            assert_eq!(said.err, "");
            check(name, &said);
        }
        assert_eq!(names(&expected(self.folder), end), self.names(), "{end}");
    }
}

/// What is said of a trace.
fn say(name: &str, options: &[&str]) -> Said {
    TRACES.say(name, options)
}

#[track_caller]
fn hold(path: &Path, found: &str) {
    if env::var("JUDGE_EXPECTED").is_ok_and(|it| it == "write") {
        fs::write(path, found).expect("an expected file can be written");
    }
    let wanted = fs::read_to_string(path).unwrap_or_default();
    assert_eq!(found, wanted, "{} differs from what comes now", path.display());
}

/// The status that belongs to an answer's first line.
fn status(line: &str) -> i32 {
    match line.split(' ').next() {
        Some("clean") => 0,
        Some("pairs") => i32::from(line != "pairs 0"),
        Some("race") => 1,
        Some("refused") => 2,
        _ => panic!("no answer: {line}"),
    }
}

#[test]
fn each_example_is_told_in_words() {
    for examples in [TRACES, PLANS, PAIRS] {
        examples.each(".txt", &[], |name, said| {
            assert_eq!(said.status, status(said.out.lines().next().unwrap()), "{name}");
            let widest = said.out.lines().map(str::len).max();
            assert!(widest <= Some(100), "{name}: {widest:?} letters in a line");
            assert!(
                said.out.lines().all(|line| line == line.trim_end()),
                "{name}: blanks at a line's end"
            );
        });
    }
}

#[test]
fn each_plan_is_drawn() {
    PLANS.each(".drawing", &["--draw"], |name, said| {
        let words = PLANS.say(name, &[]);
        assert!(said.out.starts_with(&words.out), "{name}");
        assert_eq!(said.status, words.status, "{name}");
    });
}

#[test]
fn each_example_is_told_as_json() {
    for examples in [TRACES, PLANS, PAIRS] {
        examples.each(".json", &["--json"], |name, said| {
            let object = Json::parse(said.out.trim_end()).expect("it is JSON");
            assert_eq!(said.status, status(object.field("said").text()), "{name}");
            assert_eq!(object.field("file").text(), format!("{name}{}", examples.end));
        });
    }
}

/// The others have none: their answer is explained.
#[test]
fn each_clean_example_has_cards() {
    let is_clean = |name: &String| say(name, &[]).status == 0;
    let (clean, others): (BTreeSet<String>, BTreeSet<String>) =
        names(&examples(), ".std").into_iter().partition(is_clean);
    for (end, options) in [(".txt", &["cards"][..]), (".json", &["cards", "--json"])] {
        for name in &clean {
            let said = say(name, options);
            hold(&expected("cards").join(format!("{name}{end}")), &said.out);
            assert_eq!((said.status, said.err.as_str()), (0, ""), "{name}");
        }
        assert_eq!(names(&expected("cards"), end), clean, "{end}");
    }
    for name in &others {
        assert_eq!(say(name, &["cards"]), say(name, &[]));
    }
}

/// Those that are kept beside the examples, for the READMEs.
#[test]
fn the_pictures_are_those_that_are_kept() {
    for (set, name) in
        [(TRACES, "pipeline_race"), (PAIRS, "several_races"), (PLANS, "sampler_race")]
    {
        let folder = folder();
        let path = folder.join("picture.svg");
        let said = set.say(name, &["--svg", path.to_str().expect("a plain path")]);
        assert_eq!((said.status, said.err.as_str()), (1, ""));
        let drawn = fs::read_to_string(path).expect("the picture is there");
        hold(&examples().join(format!("{name}.svg")), &drawn);
    }
}

/// As a document shows it.
fn indented(text: &str) -> String {
    let line = |line: &str| if line.is_empty() { "\n".into() } else { format!("    {line}\n") };
    text.lines().map(line).collect()
}

fn read(path: PathBuf) -> String {
    fs::read_to_string(path).expect("it can be read")
}

/// The first thing that a newcomer reads is what the command says; so with the cards and the drawing.
#[test]
fn the_readmes_show_what_is_said() {
    let said = |name: &str| read(expected(name));
    let drawing = said("plan/sampler_race.drawing").replace(&said("plan/sampler_race.txt"), "");
    for (readme, said) in [
        ("README.md", said("pipeline_race.txt")),
        ("rust/README.md", said("cards/pipeline.txt")),
        ("rust/README.md", said("pairs/several_races.txt")),
        ("rust/README.md", drawing),
        ("examples/README.md", said("plan/sampler_race.txt")),
    ] {
        let shown = indented(&said);
        let text = read(examples().join("..").join(readme));
        assert!(text.contains(&shown), "{readme} does not show\n{shown}");
    }
}

/// The README of the examples has the first line of each.
#[test]
fn the_examples_say_what_their_table_says() {
    let table = read(examples().join("README.md"));
    for set in [TRACES, PLANS] {
        for name in set.names() {
            let file = format!("| `{name}{}`", set.end);
            let row = table.lines().find(|line| line.starts_with(&file));
            let row = row.unwrap_or_else(|| panic!("no row for {name}"));
            let first = set.say(&name, &[]).out.lines().next().unwrap().to_string();
            assert!(row.contains(&format!("`{first}`")), "{name} says {first}: {row}");
        }
    }
}

/// What is said of the pairs begins as it does of the races: a trace with none has none that are close,
/// and the examples are all short.
#[test]
fn an_example_has_pairs_where_it_has_a_race() {
    for name in TRACES.names() {
        let (race, pairs) = (say(&name, &[]), PAIRS.say(&name, &[]));
        assert_eq!(race.status, pairs.status, "{name}");
        if let Some(first) = race.out.lines().next().and_then(|line| line.strip_prefix("race ")) {
            let object = Json::parse(PAIRS.say(&name, &["--json"]).out.trim_end()).expect("JSON");
            let [s, t] = ["s", "t"].map(|end| object.field("pairs").items()[0].field(end).number());
            assert_eq!(first, format!("{s} {t}"), "{name}");
        }
    }
}

/// The table of the plans has their texts.
#[test]
fn the_examples_show_their_plans() {
    let table = read(examples().join("README.md"));
    for name in PLANS.names() {
        let plan = read(examples().join(format!("{name}.plan")));
        let row = format!("| `{name}.plan` | `{}` |", plan.trim_end());
        assert!(table.contains(&row), "no {row}");
    }
}
