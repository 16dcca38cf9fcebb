//! The links of the table of joins: the option's words and the objects' field, on known files and
//! against the slow table.

mod common;

use common::json::Json;
use common::{file, folder, proved, run, DOCUMENT};
use racejudge_bench::ancestors::Ancestors;
use racejudge_bench::builder::Builder;
use racejudge_bench::rng::Rng;
use racejudge_bench::samples;
use racejudge_bench::trace::{MAX_LINKS, WORKSPACE};
use racejudge_bench::workloads::join_equals;
use std::ffi::OsStr;
use std::fs;
use std::path::Path;

/// Task 0 and task 1 join one task each, and then task 0 joins task 1.
const TWO_LINKS: &str = "T0|fork(T1)|1\nT1|fork(T2)|2\nT1|join(T2)|3\nT0|fork(T3)|4\n\
                         T0|join(T3)|5\nT0|join(T1)|6\n";

/// What the option adds to the words, which are else as they are without it.
#[track_caller]
fn added(path: impl AsRef<OsStr>) -> String {
    let (plain, more) = (run([path.as_ref()]), run([OsStr::new("--links"), path.as_ref()]));
    assert_eq!((plain.status, &plain.err), (more.status, &more.err));
    let added = more.out.strip_prefix(&plain.out).expect("the words come first").to_string();
    assert!(added.lines().all(|line| line.len() <= 100), "{added}");
    added.replace('\n', " ").trim().to_string()
}

/// The field of an object.
#[track_caller]
fn field(path: impl AsRef<OsStr>) -> usize {
    let out = run([OsStr::new("--json"), path.as_ref()]).out;
    Json::parse(out.trim_end()).expect("it is JSON").field("links").number()
}

fn sentence(links: &str) -> String {
    format!(
        "Joins: at most {links} from a task to the top of its tree. A join hangs the smaller tree \
         under the larger, so there are never more than 10."
    )
}

#[test]
fn known_files() {
    let one = "T0|fork(T1)|1\nT0|join(T1)|2\n";
    let race = format!("{one}T0|fork(T2)|3\nT2|w(V5)|4\nT0|r(V5)|5\nT0|join(T2)|6\n");
    let none = "Joins: no task is joined, so each is the top of a tree of its own.";
    let refused = "Joins: no links are counted in a file that is refused.";
    for (text, links, words) in [
        ("", 0, none.to_string()),
        (DOCUMENT, 0, none.to_string()),
        (one, 1, sentence("1 link leads")),
        (&race, 1, sentence("1 link leads")),
        (TWO_LINKS, 2, sentence("2 links lead")),
        (&format!("{TWO_LINKS}T0|join(T1)|7\n"), 0, refused.to_string()),
        (&format!("{TWO_LINKS}T0|join(T1)\n"), 0, refused.to_string()),
    ] {
        let path = file(text);
        assert_eq!((added(&path), field(&path)), (words, links), "{text}");
    }
}

#[test]
fn the_longest_chain() {
    let mut b = Builder::default();
    join_equals(&mut b, 10, &mut |_, _| {});
    let path = file(proved(&b.trace).to_binary().expect("few events"));
    assert_eq!((added(&path), field(&path)), (sentence("10 links lead"), 10));
}

#[test]
fn the_readme_shows_what_is_said() {
    let rust = Path::new(env!("CARGO_MANIFEST_DIR")).join("..");
    let out = run(["--links".as_ref(), rust.join("../examples/pipeline.std").as_os_str()]).out;
    let (_, told) = out.split_once("\n\nJoins: ").expect("the links are told");
    let shown = format!("    Joins: {}\n", told.trim_end().replace('\n', "\n    "));
    let readme = fs::read_to_string(rust.join("README.md")).expect("it can be read");
    assert!(readme.contains(&shown), "it does not show\n{shown}");
}

/// The option goes with the others; an object has its field without it.
#[test]
fn beside_other_options() {
    let (text, folder) = (file(TWO_LINKS), folder());
    let picture = folder.join("picture.svg");
    let said = run(["--links".as_ref(), "--svg".as_ref(), picture.as_os_str(), text.as_os_str()]);
    let (words, told) = said.out.split_once("\nJoins: ").expect("the links are told");
    assert_eq!(words, run([&text]).out);
    assert!(told.contains("\n\nThe picture is in "), "{told}");
    let object = run(["--json".as_ref(), text.as_os_str()]);
    assert_eq!(run(["--json".as_ref(), "--links".as_ref(), text.as_os_str()]), object);
    let both = run(["--links".as_ref(), text.as_os_str(), text.as_os_str()]).out;
    assert_eq!(both.matches("\nJoins: at most 2 links lead").count(), 2, "{both}");
}

#[test]
fn at_random_those_of_the_slow_table() {
    let (mut rng, mut judge) = (Rng::new(17), Ancestors::default());
    let mut met = [0; MAX_LINKS + 1];
    for _ in 0..200 {
        let n = rng.below(300);
        let mut trace = samples::valid(&mut rng, n, 80);
        if rng.chance(1, 4) {
            trace = samples::damage(&mut rng, &trace);
        }
        let n = trace.len();
        let links = judge.judge(&trace, WORKSPACE + n, n, n).links;
        let path = file(proved(&trace).to_binary().expect("few events"));
        assert_eq!(field(&path), links, "{trace}");
        met[links] += 1;
    }
    assert!(met[..3].iter().all(|&count| count > 3), "{met:?}");
}
