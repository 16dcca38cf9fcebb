//! `judge pairs`: the close pairs in words and as JSON, in groups, in part or all of them; what is said
//! where none is close; and all of it against the library's list.

mod common;

use common::json::Json;
use common::{binary, file, finish, folder, judge, proved, run, Said, Temporary, DOCUMENT};
use racejudge::{Event, Kind, Pair, Trace, Verdict, MAX_EVENTS};
use racejudge_bench::rng::Rng;
use racejudge_bench::samples;
use std::collections::BTreeMap;
use std::ffi::OsStr;
use std::fs::{self, File};
use std::iter::repeat_n;

/// Two children write location 7 at source line 20, and one reads 9 at 25; task 0 reads 7 at line 15
/// before it joins them, and writes 9 at 30.
const PAIRS: &str = "T0|fork(T1)|11\nT1|w(V7)|20\nT1|r(V9)|25\nT0|fork(T2)|12\nT2|w(V7)|20\n\
                     T0|r(V7)|15\nT0|w(V9)|30\nT0|join(T2)|31\nT0|join(T1)|32\n";

const CLEAN: &str = "T0|w(V5)|1\n";

/// What stands behind the pairs of a short run.
const BEHIND: &str =
    "All of them are races of this run as it is, also those behind the first. A join that orders one \
     pair may order others as well: judge the run again once one is mended. `judge order FILE S T` says \
     why nothing orders the two events of a pair.";

/// Runs `pairs` with options on one file.
fn pairs(options: &[&str], path: impl AsRef<OsStr>) -> Said {
    let options = options.iter().map(OsStr::new);
    run([OsStr::new("pairs")].into_iter().chain(options).chain([path.as_ref()]))
}

/// The words for a file that is answered so.
#[track_caller]
fn words(options: &[&str], content: impl AsRef<[u8]>, status: i32) -> String {
    let said = pairs(options, file(content));
    assert_eq!((said.status, said.err.as_str()), (status, ""), "{}", said.out);
    assert!(said.out.lines().all(|line| line.len() <= 100), "too wide\n{}", said.out);
    assert!(said.out.lines().all(|line| line == line.trim_end()), "{}", said.out);
    said.out
}

/// The object for a file that is answered so.
#[track_caller]
fn object(content: impl AsRef<[u8]>, status: i32) -> Json {
    let said = pairs(&["--json"], file(content));
    assert_eq!((said.status, said.err.as_str()), (status, ""), "{}", said.out);
    Json::parse(said.out.trim_end()).expect("it is JSON")
}

/// With the breaks of long sentences taken out.
fn unbroken(words: &str) -> String {
    words.replace('\n', " ")
}

/// A child writes location 5; task 0 does so much with 6, and then reads 5, so that the two are so far
/// apart.
fn apart(distance: usize) -> Vec<Event> {
    let mut events = vec![Event::fork(0, 1), Event::write(1, 5), Event::halt(1, 0)];
    events.extend(repeat_n(Event::read(0, 6), distance - 2));
    events.push(Event::read(0, 5));
    events
}

/// Children that write one location so often, with nothing to order them.
fn children(number: u16, writes: usize) -> Vec<Event> {
    let child = |task| {
        let writes = repeat_n(Event::write(task, 5), writes);
        [Event::fork(0, task)].into_iter().chain(writes).chain([Event::halt(task, 0)])
    };
    (1..=number).flat_map(child).collect()
}

#[test]
fn a_text_has_its_pairs_by_location_and_source_lines() {
    let told = "pairs 4

4 pairs of accesses at most 256 events apart race: in each of them either can come first. They come
down to 2 locations and 4 source lines.

Location 7: 2 pairs, between source lines 15 and 20:

  event 1   line 2   task 1 writes location 7   source line 20   T1|w(V7)|20
  event 7   line 6   task 0 reads location 7    source line 15   T0|r(V7)|15

  event 5   line 5   task 2 writes location 7   source line 20   T2|w(V7)|20
  event 7   line 6   task 0 reads location 7    source line 15   T0|r(V7)|15

Location 7: 1 pair, at source line 20:

  event 1   line 2   task 1 writes location 7   source line 20   T1|w(V7)|20
  event 5   line 5   task 2 writes location 7   source line 20   T2|w(V7)|20

Location 9: 1 pair, between source lines 25 and 30:

  event 2   line 3   task 1 reads location 9    source line 25   T1|r(V9)|25
  event 8   line 7   task 0 writes location 9   source line 30   T0|w(V9)|30

All of them are races of this run as it is, also those behind the first. A join that orders one pair
may order others as well: judge the run again once one is mended.
`judge order FILE S T` says why nothing orders the two events of a pair.

There is no other race: no two events are more than 256 apart.

Events count from 0, lines from 1. Halts are put in: they are events with no line.
";
    assert_eq!(words(&[], PAIRS, 1), told);
    assert_eq!(words(&["--all"], PAIRS, 1), told);
}

#[test]
fn one_pair_is_told_as_one() {
    let told = "pairs 1

1 pair of accesses at most 256 events apart races: either can come first. It comes down to 1
location and 2 source lines.

Location 5: 1 pair, between source lines 20 and 30:

  event 1   line 2   task 1 writes location 5   source line 20   T1|w(V5)|20
  event 3   line 3   task 0 reads location 5    source line 30   T0|r(V5)|30

`judge order FILE S T` says why nothing orders the two events of a pair.

There is no other race: no two events are more than 256 apart.

Events count from 0, lines from 1. Halts are put in: they are events with no line.
";
    assert_eq!(words(&[], DOCUMENT, 1), told);
}

/// Which of two source lines comes first in the run does not matter: the places are the same.
#[test]
fn the_same_two_lines_are_one_group() {
    let text = "T0|fork(T1)|1\nT1|w(V7)|20\nT1|r(V7)|30\nT0|w(V7)|20\nT0|r(V7)|30\n";
    let object = object(text, 1);
    let groups = [
        r#"{"location":7,"sources":[20,20],"kinds":null,"tasks":[0,1],"count":1}"#,
        r#"{"location":7,"sources":[20,30],"kinds":null,"tasks":[0,1],"count":2}"#,
    ];
    assert_eq!(object.field("groups").items(), groups.map(|group| Json::parse(group).unwrap()));
}

/// In the binary form there are no source lines: what the two do, and who.
#[test]
fn a_binary_trace_has_its_pairs_by_location_and_kinds() {
    let events = [
        Event::fork(0, 1),
        Event::sum(1, 9),
        Event::write(1, 3),
        Event::halt(1, 0),
        Event::fork(0, 2),
        Event::write(2, 3),
        Event::sum(2, 9),
        Event::halt(2, 0),
        Event::read(0, 9),
        Event::sum(0, 3),
    ];
    let told = "pairs 5

5 pairs of accesses at most 256 events apart race: in each of them either can come first. They come
down to 2 locations and 3 tasks.

Location 3: 1 pair of two writes, by tasks 1 and 2:

  event 2   task 1 writes location 3
  event 5   task 2 writes location 3

Location 3: 2 pairs of a write and a sum, by tasks 0, 1 and 2:

  event 2   task 1 writes location 3
  event 9   task 0 adds to location 3

  event 5   task 2 writes location 3
  event 9   task 0 adds to location 3

Location 9: 2 pairs of a read and a sum, by tasks 0, 1 and 2:

  event 1   task 1 adds to location 9
  event 8   task 0 reads location 9

  event 6   task 2 adds to location 9
  event 8   task 0 reads location 9
";
    let words = words(&[], binary(events), 1);
    assert!(words.starts_with(told), "{words}");
    assert!(words.ends_with("\n\nEvents count from 0.\n"), "{words}");
    let object = object(binary(events), 1);
    let group =
        r#"{"location":3,"sources":null,"kinds":["write","sum"],"tasks":[0,1,2],"count":2}"#;
    assert_eq!(object.field("groups").items()[1], Json::parse(group).unwrap());
    assert_eq!(object.field("sources"), &Json::Null);
}

#[test]
fn an_object_has_all_pairs_their_number_and_their_groups() {
    let object = object(PAIRS, 1);
    let names = [
        "answer",
        "count",
        "events",
        "file",
        "groups",
        "locations",
        "pairs",
        "race",
        "said",
        "sources",
        "tasks",
    ];
    assert_eq!(object.names(), names);
    assert_eq!([object.field("answer").text(), object.field("said").text()], ["pairs", "pairs 4"]);
    let numbers = ["events", "tasks", "count", "locations", "sources"];
    assert_eq!(numbers.map(|name| object.field(name).number()), [11, 3, 4, 2, 4]);
    let pairs = [
        r#"{"s":1,"t":5,"location":7,"s_line":2,"t_line":5,"s_source":20,"t_source":20}"#,
        r#"{"s":1,"t":7,"location":7,"s_line":2,"t_line":6,"s_source":20,"t_source":15}"#,
        r#"{"s":5,"t":7,"location":7,"s_line":5,"t_line":6,"s_source":20,"t_source":15}"#,
        r#"{"s":2,"t":8,"location":9,"s_line":3,"t_line":7,"s_source":25,"t_source":30}"#,
    ];
    assert_eq!(object.field("pairs").items(), pairs.map(|pair| Json::parse(pair).unwrap()));
    let groups = [
        r#"{"location":7,"sources":[15,20],"kinds":null,"tasks":[0,1,2],"count":2}"#,
        r#"{"location":7,"sources":[20,20],"kinds":null,"tasks":[1,2],"count":1}"#,
        r#"{"location":9,"sources":[25,30],"kinds":null,"tasks":[0,1],"count":1}"#,
    ];
    assert_eq!(object.field("groups").items(), groups.map(|group| Json::parse(group).unwrap()));
    let race = object.field("race");
    assert_eq!(race.names(), ["close", "location", "s", "t"]);
    assert_eq!((race.field("close"), race.field("location").number()), (&Json::Truth(true), 7));
    let s = r#"{"event":1,"task":1,"kind":"write","operand":7,"line":2,"source":20,"text":"T1|w(V7)|20"}"#;
    assert_eq!(race.field("s"), &Json::parse(s).unwrap());
    assert_eq!(race.field("t").field("event").number(), 5);
}

#[test]
fn with_no_race_at_all_the_status_is_0() {
    let told =
        "pairs 0\n\nNo race: whatever order the cores take that the forks and joins allow, each";
    let clean = words(&[], CLEAN, 0);
    assert!(clean.starts_with(told), "{clean}");
    assert!(clean.ends_with("\n\nJudged: 1 event by 1 task.\n"), "{clean}");
    // But for the first line all is as the judge says it.
    let whole = run([&file(CLEAN)]).out;
    assert_eq!(clean, whole.replace("clean 1\n", "pairs 0\n"));
    for (content, sources) in [(Vec::new(), Json::Number(0)), (binary([]), Json::Null)] {
        let none = "pairs 0\n\nThere is no event in the file, so nothing can race.\n";
        assert_eq!(words(&[], &content, 0), none);
        let object = object(&content, 0);
        assert_eq!([object.field("count").number(), object.field("events").number()], [0, 0]);
        assert_eq!((object.field("pairs").items(), object.field("race")), (&[][..], &Json::Null));
        assert_eq!(object.field("groups"), &Json::List(Vec::new()));
        assert_eq!(object.field("sources"), &sources);
    }
}

/// With no pair a text has 0 source lines of pairs: only the binary form has none to count.
#[test]
fn a_text_with_no_pair_has_no_source_line_of_one() {
    assert_eq!(object(CLEAN, 0).field("sources"), &Json::Number(0));
    for events in [&[Event::write(0, 5)][..], &apart(257)] {
        let trace: Trace = events.iter().copied().collect();
        let status = i32::from(matches!(racejudge::judge(&trace), Ok(Verdict::Race { .. })));
        let object = object(binary(events.iter().copied()), status);
        assert_eq!((object.field("count").number(), object.field("sources")), (0, &Json::Null));
    }
    // So where the race of a text is too far apart.
    let far = format!("T0|fork(T1)|1\nT1|w(V5)|2\n{}T0|r(V5)|4\n", "T0|r(V6)|3\n".repeat(300));
    let object = object(far, 1);
    assert_eq!(["count", "sources"].map(|name| object.field(name).number()), [0, 0]);
    assert_eq!(object.field("race").field("t").field("source").number(), 4);
}

/// The judge's race is farther apart than the pairs that are listed.
#[test]
fn a_race_that_is_too_far_apart_is_told() {
    let told = "pairs 0

No two accesses race that are at most 256 events apart. But the trace has a race of two that are
farther apart:

  event 1     task 1 writes location 5
  event 258   task 0 reads location 5

They are 257 events apart. It is the first race of the trace: `judge FILE` explains it.

Events count from 0.
";
    assert_eq!(words(&[], binary(apart(257)), 1), told);
    let far = object(binary(apart(257)), 1);
    assert_eq!((far.field("said").text(), far.field("count").number()), ("pairs 0", 0));
    assert_eq!(far.field("race").field("close"), &Json::Truth(false));
    assert_eq!(far.field("race").field("t").field("event").number(), 258);
    // One event nearer it is listed.
    let near = words(&[], binary(apart(256)), 1);
    assert!(near.starts_with("pairs 1\n") && !near.contains("farther apart: events"), "{near}");
    assert_eq!(object(binary(apart(256)), 1).field("race").field("close"), &Json::Truth(true));
}

#[test]
fn the_first_race_may_be_farther_apart_than_those_that_are_listed() {
    let mut events = apart(300);
    events.extend([Event::fork(0, 2), Event::write(2, 9), Event::halt(2, 0), Event::read(0, 9)]);
    let told = words(&[], binary(events), 1);
    assert!(told.starts_with("pairs 1\n"), "{told}");
    let open = "Listed are the pairs at most 256 events apart. Accesses that are farther apart may race \
                as well. The first race of the trace is farther apart: events 1 and 301. `judge FILE` \
                explains it.";
    assert!(unbroken(&told).contains(open), "{told}");
    // Where it is listed, that is all that is left open.
    let mut events = apart(200);
    events.extend(repeat_n(Event::read(0, 6), 100));
    let told = words(&[], binary(events), 1);
    assert!(unbroken(&told).contains("may race as well.  Events count"), "{told}");
}

/// A run of 257 events has no two that are farther apart than 256.
#[test]
fn that_there_is_no_other_race_is_said_of_short_runs_alone() {
    for (more, whole) in [(1, true), (2, false)] {
        let mut events = apart(252);
        events.extend(repeat_n(Event::read(0, 6), 2 + more));
        assert_eq!(events.len(), 256 + more);
        let told = words(&[], binary(events), 1);
        assert_eq!(told.contains("There is no other race:"), whole, "{told}");
        assert_eq!(told.contains("Listed are the pairs"), !whole, "{told}");
    }
}

#[test]
fn a_refusal_is_told_as_by_the_judge() {
    let whole = binary([Event::read(0, 5)]);
    for content in [
        b"T0|r(V5)".to_vec(),
        b"T0|x(V5)|1\n".to_vec(),
        CLEAN.repeat(3_000).into_bytes(),
        b"T1|r(V5)|1\n".to_vec(),
        b"T0|fork(T1)|1\nT0|join(T9)|2\n".to_vec(),
        binary(repeat_n(Event::read(0, 5), MAX_EVENTS + 1)),
        binary([Event::halt(0, 3)]),
        whole[..whole.len() - 1].to_vec(),
    ] {
        let path = file(content);
        let (told, wanted) = (pairs(&[], &path), run([&path]));
        assert!(told.status >= 2 && told == wanted, "{told:?}");
    }
    let path = file("T1|r(V5)|1\n");
    let told = Json::parse(pairs(&["--json"], &path).out.trim_end()).unwrap();
    let wanted = Json::parse(run(["--json".as_ref(), path.as_os_str()]).out.trim_end()).unwrap();
    let names: Vec<&str> = wanted.names().into_iter().filter(|name| *name != "links").collect();
    let own: Vec<&str> = told.names().into_iter().filter(|name| *name != "race").collect();
    assert_eq!(own, names);
    assert!(names.iter().all(|name| told.field(name) == wanted.field(name)), "{told:?}");
    // No race is known, of a trace or of what is none.
    assert_eq!(told.field("race"), &Json::Null);
    assert_eq!(object("T0|r(V5)", 2).field("race"), &Json::Null);
}

/// The judge stops at the race; the list asks the rules of the whole trace.
#[test]
fn a_rule_that_is_broken_behind_a_race_is_refused() {
    let told = words(&[], format!("{DOCUMENT}T7|w(V1)|40\n"), 2);
    assert!(told.starts_with("refused 7 4\n\nEvent 4 breaks a rule: the actor is not the running"));
    let before =
        "Pairs are listed where the whole trace keeps the rules. Before event 4 there is a \
                  race, of events 1 and 3: `judge FILE` explains it.";
    assert!(unbroken(&told).contains(before) && !told.contains("No two accesses"), "{told}");
    let refused = object(format!("{DOCUMENT}T7|w(V1)|40\n"), 2);
    assert_eq!((refused.field("row").number(), refused.field("position").number()), (7, 4));
    // The race is that of the list where no rule is broken.
    assert_eq!(refused.field("race"), object(DOCUMENT, 1).field("race"));
    let far = apart(300).into_iter().chain([Event::join(0, 9)]);
    let race = object(binary(far), 2).field("race").clone();
    assert_eq!(["s", "t"].map(|end| race.field(end).field("event").number()), [1, 301]);
    assert_eq!((race.field("close"), race.field("location").number()), (&Json::Truth(false), 5));
}

/// Three pairs of a group are shown, and how many are left out.
#[test]
fn of_a_long_list_a_part_is_shown() {
    let events = || binary(children(6, 128));
    let list = racejudge::pairs(&children(6, 128).into_iter().collect()).unwrap();
    let number = list.len();
    assert!(number > 65_536, "{number}");
    let told = words(&[], events(), 1);
    assert!(told.starts_with(&format!("pairs {number}\n")), "{told}");
    assert_eq!(told.matches("\n\n  event ").count(), 3, "{told}");
    let left_out = |words: &str| left_out(words).iter().sum::<usize>();
    assert_eq!(left_out(&told), number - 3, "{told}");
    let all = words(&["--all"], events(), 1);
    assert_eq!(all.matches("\n\n  event ").count(), number);
    assert!(!all.contains("left out"));
    let object = object(events(), 1);
    let ends = |pair: &Json| [pair.field("s").number(), pair.field("t").number()];
    let wanted = list.map(|Pair { s, t }| [s, t]);
    assert!(object.field("pairs").items().iter().map(ends).eq(wanted));
    assert_eq!(object.field("count").number(), number);
}

/// The numbers of pairs that are told as left out.
fn left_out(words: &str) -> Vec<usize> {
    let notes = unbroken(words);
    let parts: Vec<&str> = notes.split(" left out; judge pairs --all has all)").collect();
    let (_, notes) = parts.split_last().expect("one part at least");
    let note = |part: &&str| {
        let note = part.rsplit('(').next().expect("a note");
        let words: Vec<&str> = note.split(' ').collect();
        let [.., number, pairs] = words[..] else { panic!("{note}") };
        assert!(pairs == "pair" || pairs == "pairs", "{note}");
        number.replace(',', "").parse::<usize>().expect("a number")
    };
    notes.iter().map(note).collect()
}

/// So many locations with a race each: 30 pairs are shown, then 30 headings alone.
#[test]
fn of_many_groups_a_part_is_shown() {
    for groups in [29, 30, 31, 60, 61, 200] {
        let events = || {
            let child = (0..groups).map(|location| Event::write(1, location));
            let own = (0..groups).map(|location| Event::write(0, location));
            let whole = [Event::fork(0, 1)].into_iter().chain(child);
            binary(whole.chain([Event::halt(1, 0)]).chain(own))
        };
        let told = words(&[], events(), 1);
        let groups = usize::from(groups);
        assert!(told.starts_with(&format!("pairs {groups}\n")), "{told}");
        assert_eq!(told.matches("\n\n  event ").count(), groups.min(30), "{told}");
        assert_eq!(told.matches("\nLocation ").count(), groups.min(60), "{told}");
        assert_eq!(left_out(&told).iter().sum::<usize>(), groups - groups.min(30), "{told}");
        let rest = match groups {
            61 => "(1 group with 1 pair left out; judge pairs --all has all)",
            200 => "(140 groups with 140 pairs left out; judge pairs --all has all)",
            _ => "\nAll of them",
        };
        assert!(told.contains(rest) && told.lines().count() < 400, "{told}");
        let all = words(&["--all"], events(), 1);
        assert_eq!(all.matches("\nLocation ").count(), groups);
        assert!(!all.contains("left out"));
    }
}

#[test]
fn several_files_have_their_names_above_and_the_highest_status_counts() {
    let (clean, race, missing) = (file(CLEAN), file(PAIRS), folder().join("missing"));
    let all = ["pairs".as_ref(), clean.as_os_str(), missing.as_os_str(), race.as_os_str()];
    let said = run(all);
    let block = |path: &Temporary| format!("{}:\n{}", path.display(), pairs(&[], path).out);
    assert_eq!((said.status, said.out), (3, [block(&clean), block(&race)].join("\n")));
    assert_eq!(said.err, pairs(&[], &missing).err);
    let said = run(all.into_iter().chain(["--json".as_ref()]));
    let objects: Vec<Json> = said.out.lines().map(|line| Json::parse(line).unwrap()).collect();
    let answers: Vec<&str> = objects.iter().map(|it| it.field("answer").text()).collect();
    assert_eq!((said.status, answers), (3, vec!["pairs", "error", "pairs"]));
    let far = file(binary(apart(257)));
    assert_eq!(run(["pairs".as_ref(), clean.as_os_str(), far.as_os_str()]).status, 1);
    assert_eq!(run(["pairs".as_ref(), clean.as_os_str(), clean.as_os_str()]).status, 0);
    let refused = file("T1|r(V5)|1\n");
    assert_eq!(run(["pairs".as_ref(), refused.as_os_str(), race.as_os_str()]).status, 2);
}

#[test]
fn standard_input_is_read_by_its_name() {
    for content in [PAIRS.as_bytes(), &binary(children(3, 2)), CLEAN.as_bytes(), b"x"] {
        let path = file(content);
        let from = |options: &[&str]| {
            let input = File::open(&*path).unwrap();
            finish(judge(["pairs", "-"].iter().chain(options)).stdin(input))
        };
        assert_eq!(from(&[]), pairs(&[], &path));
        assert_eq!(from(&["--all"]), pairs(&["--all"], &path));
        let told = pairs(&["--json"], &path);
        let name = format!("\"file\":\"{}\"", path.display());
        assert_eq!(from(&["--json"]).out, told.out.replace(&name, "\"file\":\"-\""));
    }
    assert_eq!(run(["pairs", "-"]).out, words(&[], "", 0));
}

#[test]
fn a_file_of_the_words_name_is_given_with_its_folder() {
    let folder = folder();
    fs::write(folder.join("pairs"), PAIRS).unwrap();
    let here = |arguments: &[&str]| finish(judge(arguments).current_dir(&*folder));
    assert_eq!(here(&["pairs"]).status, 3);
    assert!(here(&["pairs", "pairs"]).out.starts_with("pairs 4\n"));
    assert!(here(&["./pairs"]).out.starts_with("race 1 5\n"));
}

#[test]
fn the_picture_goes_to_its_file() {
    let (text, folder) = (file(PAIRS), folder());
    let picture = folder.join("picture.svg");
    let with = |path: &Temporary| pairs(&["--svg", picture.to_str().unwrap()], path);
    let said = with(&text);
    let place = format!("\nThe picture is in {}.\n", picture.display());
    assert_eq!((said.status, said.out), (1, pairs(&[], &text).out + &place));
    let drawn = fs::read_to_string(&picture).unwrap();
    assert_eq!(drawn.matches(" racing\">").count(), 5);
    assert!(drawn.starts_with("<?xml") && drawn.contains(">pairs 4</text>"), "{drawn}");
    // An older one is written over; where there is no trace it stays.
    assert_eq!(with(&file(CLEAN)).status, 0);
    let clean = fs::read_to_string(&picture).unwrap();
    assert!(clean.contains(">pairs 0</text>") && !clean.contains("racing"), "{clean}");
    let said = with(&file("x"));
    assert!(said.out.ends_with("\nThere is no picture: the file makes no trace.\n"), "{said:?}");
    assert_eq!((said.status, fs::read_to_string(&picture).unwrap()), (2, clean));
    let said = pairs(&["--json", "--svg", picture.to_str().unwrap()], &text);
    let object = Json::parse(said.out.trim_end()).unwrap();
    assert_eq!(object.field("picture").text(), picture.to_str().unwrap());
    assert_eq!(object.field("pairs").items().len(), 4);
    // One that cannot be written.
    let nowhere = folder.join("none/picture.svg");
    let said = pairs(&["--svg", nowhere.to_str().unwrap()], &text);
    assert!(said.status == 3 && said.out.contains("\nThere is no picture: "), "{said:?}");
}

#[test]
fn a_million_pairs_are_counted() {
    let mut events = children(160, 30);
    events.push(Event::read(0, 5));
    let trace: Trace = events.iter().copied().collect();
    let number = racejudge::pairs(&trace).expect("the rules are kept").len();
    assert!(number > 1_000_000, "{number}");
    let told = words(&[], binary(events), 1);
    assert!(told.starts_with(&format!("pairs {number}\n")), "{told}");
    assert_eq!(left_out(&told).iter().sum::<usize>() + 6, number, "{told}");
}

/// A group as the words have it: its heading and the events of its pairs.
struct Shown {
    heading: String,
    pairs: Vec<(usize, usize)>,
}

/// The groups of words with all pairs.
fn shown(words: &str) -> Vec<Shown> {
    let mut groups: Vec<Shown> = Vec::new();
    let mut open = None;
    // A long heading is broken: it ends with a colon.
    let joined = words.replace("..\nand ", ".. and ");
    for line in joined.lines() {
        if line.starts_with("Location ") {
            groups.push(Shown { heading: line.to_string(), pairs: Vec::new() });
        } else if let Some(row) = line.strip_prefix("  event ") {
            let event = row.split(' ').next().unwrap().parse().expect("an event");
            match open.take() {
                None => open = Some(event),
                Some(s) => groups.last_mut().expect("a heading").pairs.push((s, event)),
            }
        }
    }
    assert!(open.is_none(), "{words}");
    groups
}

/// The groups of a list, made here: by location and what else they go by, with the heading's beginning.
fn grouped(trace: &Trace, list: &[Pair]) -> Vec<Shown> {
    let mut groups: BTreeMap<(u16, u16, u16), Vec<(usize, usize)>> = BTreeMap::new();
    let source = |p: usize| trace.place(p).map(|place| place.source);
    for &Pair { s, t } in list {
        let event = |p| trace.event(p).unwrap();
        let [one, other] = [s, t].map(|p| source(p).unwrap_or(event(p).kind.into()));
        let key = (event(t).operand, one.min(other), one.max(other));
        groups.entry(key).or_default().push((s, t));
    }
    let is_text = list.first().is_some_and(|pair| source(pair.s).is_some());
    let shown = |((location, one, other), pairs): ((u16, u16, u16), Vec<(usize, usize)>)| {
        let plural = if pairs.len() == 1 { "" } else { "s" };
        let count = format!("Location {location}: {} pair{plural}", thousands(pairs.len()));
        let kind = |number: u16| Kind::try_from(number as u8).unwrap();
        let places = match (is_text, one == other) {
            (true, true) => format!(", at source line {one}:"),
            (true, false) => format!(", between source lines {one} and {other}:"),
            (false, true) => format!(" of two {}s, by tasks ", kind(one)),
            (false, false) => format!(" of a {} and a {}, by tasks ", kind(one), kind(other)),
        };
        Shown { heading: count + &places, pairs }
    };
    groups.into_iter().map(shown).collect()
}

fn thousands(number: usize) -> String {
    match number {
        0..1_000 => number.to_string(),
        _ => format!("{},{:03}", number / 1_000, number % 1_000),
    }
}

/// The words and the object of a file say what the library lists.
fn hold(path: &Temporary, trace: &Trace, list: &[Pair]) {
    let words = pairs(&["--all"], path).out;
    let (told, wanted) = (shown(&words), grouped(trace, list));
    assert_eq!(told.len(), wanted.len(), "{words}");
    for (told, wanted) in told.iter().zip(&wanted) {
        assert!(told.heading.starts_with(&wanted.heading), "{} in\n{words}", wanted.heading);
        assert_eq!(told.pairs, wanted.pairs, "{words}");
    }
    let object = Json::parse(pairs(&["--json"], path).out.trim_end()).expect("it is JSON");
    let ends = |pair: &Json| Pair { s: pair.field("s").number(), t: pair.field("t").number() };
    assert!(object.field("pairs").items().iter().map(ends).eq(list.iter().copied()));
    assert_eq!(object.field("count").number(), list.len());
    let counts = object.field("groups").items().iter().map(|group| group.field("count").number());
    assert!(counts.eq(wanted.iter().map(|group| group.pairs.len())));
    let part = pairs(&[], path).out;
    let whole = list.len() - left_out(&part).iter().sum::<usize>();
    assert_eq!(part.matches("\n\n  event ").count(), whole, "{part}");
}

/// The lines of a trace's events, of few source lines. Halts have none.
fn lines(rng: &mut Rng, trace: &Trace) -> String {
    let mut text = String::new();
    for Event { kind, task, operand } in trace.events() {
        let form = match Kind::try_from(kind) {
            Ok(Kind::Read) => "r(V",
            Ok(Kind::Write) => "w(V",
            Ok(Kind::Fork) => "fork(T",
            Ok(Kind::Join) => "join(T",
            _ => continue,
        };
        text += &format!("T{task}|{form}{operand})|{}\n", rng.below(4));
    }
    text
}

#[test]
fn at_random_the_words_and_the_objects_are_the_librarys() {
    let mut rng = Rng::new(71);
    let (mut met, mut far) = ([0; 3], 0);
    for i in 0..250 {
        let n = if i % 10 == 0 { 400 } else { rng.below(90) };
        let care = rng.one_of(&[0, 60, 98]);
        let mut slow = samples::valid(&mut rng, n, care);
        if rng.chance(1, 6) {
            slow = samples::damage(&mut rng, &slow);
        }
        let mut trace = proved(&slow);
        let text = lines(&mut rng, &trace);
        let path = if i % 2 == 0 {
            file(trace.to_binary().expect("few events"))
        } else {
            trace = Trace::from_text(&text).expect("lines of the form");
            file(text)
        };
        let list = racejudge::pairs(&trace).map(Vec::from_iter);
        let race = matches!(racejudge::judge(&trace), Ok(Verdict::Race { .. }));
        let (line, status) = match &list {
            Ok(list) => (format!("pairs {}", list.len()), usize::from(race)),
            Err(refusal) => (format!("refused {} {}", refusal.row, refusal.position), 2),
        };
        let said = pairs(&[], &path);
        assert_eq!((said.status, said.out.lines().next()), (status as i32, Some(line.as_str())));
        if let Ok(list) = list {
            hold(&path, &trace, &list);
            far += usize::from(race && list.is_empty());
        }
        met[status] += 1;
    }
    assert!(met.iter().all(|&met| met > 10), "{met:?} {far}");
}

#[test]
fn what_stands_behind_the_pairs_is_true_of_them() {
    let told = unbroken(&words(&[], PAIRS, 1));
    assert!(told.contains(BEHIND), "{told}");
    // Each of the pairs has no order by the ordering call, also behind the first.
    let path = file(PAIRS);
    for pair in object(PAIRS, 1).field("pairs").items() {
        let [s, t] = ["s", "t"].map(|end| pair.field(end).number().to_string());
        let said = run(["order".as_ref(), path.as_os_str(), s.as_ref(), t.as_ref()]);
        assert_eq!((said.status, said.out.lines().next()), (1, Some("no")));
        assert!(said.out.contains("Nor is it the other way round"), "{}", said.out);
    }
    // With the joins before the read three of four are ordered: it was one place.
    let joined = "T0|fork(T1)|11\nT1|w(V7)|20\nT1|r(V9)|25\nT0|fork(T2)|12\nT2|w(V7)|20\n\
                  T0|join(T2)|31\nT0|join(T1)|32\nT0|r(V7)|15\nT0|w(V9)|30\n";
    assert!(words(&[], joined, 1).starts_with("pairs 1\n"));
}
