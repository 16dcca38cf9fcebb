//! The cards: what the command says of the locations that a clean trace touches.

mod common;

use common::cards::{busiest_first, counted, hold, listed, Row};
use common::json::Json;
use common::{binary, file, finish, folder, judge, run, Said, DOCUMENT};
use racejudge::{Event, Trace, MAX_EVENTS};
use std::ffi::OsStr;
use std::fs::{self, File};
use std::iter::repeat_n;

/// A child writes location 7 twice; its parent joins it, reads 7 and uses 1,023 and 0. Its halt is
/// put in, so from there on events and lines part.
const CLEAN: &str = "T0|fork(T3)|1\nT3|w(V7)|2\nT3|w(V7)|3\nT0|w(V1023)|4\nT0|join(T3)|5\n\
                     T0|r(V7)|6\nT0|r(V0)|7\n";

/// Runs `cards` with options on one file.
fn cards(options: &[&str], path: impl AsRef<OsStr>) -> Said {
    let options = options.iter().map(OsStr::new);
    run([OsStr::new("cards")].into_iter().chain(options).chain([path.as_ref()]))
}

/// The words for a clean file.
#[track_caller]
fn words(options: &[&str], content: impl AsRef<[u8]>) -> String {
    let said = cards(options, file(content));
    assert_eq!((said.status, said.err.as_str()), (0, ""), "{}", said.out);
    said.out
}

/// The object for a clean file.
#[track_caller]
fn object(options: &[&str], content: impl AsRef<[u8]>) -> Json {
    let options = [options, &["--json"]].concat();
    Json::parse(words(&options, content).trim_end()).expect("it is JSON")
}

/// The locations in the order in which they stand.
fn locations(rows: &[Row]) -> Vec<usize> {
    rows.iter().map(|row| row.location).collect()
}

#[test]
fn a_clean_text_has_a_row_for_each_location_that_it_touches() {
    let wanted = "clean 8

How busy the locations were:

  location   reads   writes   sums   first event   line   last event   line   accesses
         0       1        0      0             7      7            7      7   #######
         7       1        2      0             1      2            6      6   ####################
      1023       0        1      0             4      4            4      4   #######

Touched: 3 of 1,024 locations, by 5 accesses.
The longest bar stands for 3 accesses.

Events count from 0, lines from 1. Halts are put in: they are events with no line.
";
    assert_eq!(words(&[], CLEAN), wanted);
}

#[test]
fn a_binary_trace_has_no_lines() {
    let wanted = "clean 2

How busy the locations were:

  location   reads   writes   sums   first event   last event   accesses
         5       1        1      0             0            1   ####################

Touched: 1 of 1,024 locations, by 2 accesses.
The longest bar stands for 2 accesses.

Events count from 0.
";
    let trace = binary([Event::write(0, 5), Event::read(0, 5)]);
    assert_eq!(words(&[], &trace), wanted);
    let object = object(&[], trace);
    let [card] = object.field("cards").items() else { panic!("{object:?}") };
    assert_eq!((card.field("first").number(), card.field("last").number()), (0, 1));
    assert_eq!([card.field("first_line"), card.field("last_line")], [&Json::Null; 2]);
}

/// Two tasks add to location 9 beside each other; the one writes 5 before it adds to that, and the
/// other reads 9 once it has joined.
#[test]
fn sums_are_counted_and_are_the_first_and_the_last() {
    let events = [
        Event::fork(0, 1),
        Event::sum(1, 9),
        Event::sum(1, 9),
        Event::write(1, 5),
        Event::sum(1, 5),
        Event::halt(1, 0),
        Event::sum(0, 9),
        Event::join(0, 1),
        Event::read(0, 9),
    ];
    let wanted = "clean 9

How busy the locations were:

  location   reads   writes   sums   first event   last event   accesses
         5       0        1      1             3            4   ##########
         9       1        0      3             1            8   ####################

Touched: 2 of 1,024 locations, by 6 accesses.
";
    let words = words(&[], binary(events));
    assert!(words.starts_with(wanted), "{words}");
    let object = object(&[], binary(events));
    let cards = [
        r#"{"location":5,"reads":0,"writes":1,"sums":1,"first":3,"last":4,"first_line":null,"last_line":null}"#,
        r#"{"location":9,"reads":1,"writes":0,"sums":3,"first":1,"last":8,"first_line":null,"last_line":null}"#,
    ];
    assert_eq!(object.field("cards").items(), cards.map(|card| Json::parse(card).unwrap()));
}

#[test]
fn a_clean_object_has_the_fields_of_the_judge_and_the_cards() {
    let object = object(&[], CLEAN);
    assert_eq!(object.names(), ["answer", "cards", "events", "file", "links", "said", "tasks"]);
    assert_eq!(object.field("said").text(), "clean 8");
    let numbers = ["events", "tasks", "links"].map(|name| object.field(name).number());
    assert_eq!(numbers, [8, 2, 1]);
    let cards = [
        r#"{"location":0,"reads":1,"writes":0,"sums":0,"first":7,"last":7,"first_line":7,"last_line":7}"#,
        r#"{"location":7,"reads":1,"writes":2,"sums":0,"first":1,"last":6,"first_line":2,"last_line":6}"#,
        r#"{"location":1023,"reads":0,"writes":1,"sums":0,"first":4,"last":4,"first_line":4,"last_line":4}"#,
    ];
    assert_eq!(object.field("cards").items(), cards.map(|card| Json::parse(card).unwrap()));
}

/// 3 and 8 are touched as often as each other, by writes and sums and by reads; so are 1 and 900.
#[test]
fn the_busiest_stands_first_and_ties_keep_the_order_of_the_locations() {
    let touches =
        [(1, [1, 0, 0]), (3, [0, 1, 1]), (8, [2, 0, 0]), (40, [1, 1, 1]), (900, [0, 0, 1])];
    let mut events = Vec::new();
    for (location, [reads, writes, sums]) in touches {
        events.extend(repeat_n(Event::read(0, location), reads));
        events.extend(repeat_n(Event::write(0, location), writes));
        events.extend(repeat_n(Event::sum(0, location), sums));
    }
    let rows = counted(&events.iter().copied().collect(), false);
    assert_eq!(locations(&rows), [1, 3, 8, 40, 900]);
    hold(&words(&[], binary(events.clone())), &rows);
    assert_eq!(listed(&object(&[], binary(events.clone()))), rows);
    let rows = busiest_first(rows);
    assert_eq!(locations(&rows), [40, 3, 8, 1, 900]);
    hold(&words(&["--busiest"], binary(events.clone())), &rows);
    assert_eq!(listed(&object(&["--busiest"], binary(events))), rows);
}

#[test]
fn a_location_that_is_hardly_touched_has_a_bar_beside_the_busiest() {
    let events = || repeat_n(Event::read(0, 7), MAX_EVENTS - 1).chain([Event::write(0, 9)]);
    let words = words(&[], binary(events()));
    hold(&words, &counted(&events().collect(), false));
    let (full, one) = ("#".repeat(20), "#");
    for row in [
        format!("\n         7   32,767        0      0             0        32766   {full}\n"),
        format!("\n         9        0        1      0         32767        32767   {one}\n"),
    ] {
        assert!(words.contains(&row), "no {row} in\n{words}");
    }
}

#[test]
fn one_location_may_have_all_events_and_all_locations_may_have_some() {
    for event in [Event::read(0, 0), Event::write(0, 1_023), Event::sum(0, 7)] {
        let trace: Trace = repeat_n(event, MAX_EVENTS).collect();
        let words = words(&[], trace.to_binary().unwrap());
        hold(&words, &counted(&trace, false));
        assert!(words.contains("by 32,768 accesses.\n"), "{words}");
    }
    let trace: Trace = (0..MAX_EVENTS).map(|p| Event::read(0, (p % 1_024) as u16)).collect();
    let words = words(&[], trace.to_binary().unwrap());
    hold(&words, &counted(&trace, false));
    assert!(
        words.contains("\nTouched: 1,024 of 1,024 locations, by 32,768 accesses.\n"),
        "{words}"
    );
}

#[test]
fn where_nothing_is_touched_there_is_no_table() {
    let fork = "T0|fork(T1)|1\nT0|join(T1)|2\n".as_bytes().to_vec();
    for (content, events) in [(Vec::new(), 0), (binary([]), 0), (fork, 3)] {
        let wanted = format!("clean {events}\n\nNo event of the trace touches a location.\n");
        assert_eq!(words(&[], &content), wanted);
        assert_eq!(object(&[], &content).field("cards"), &Json::List(Vec::new()));
    }
}

#[test]
fn what_is_not_clean_is_told_as_by_the_judge() {
    let long = format!("T0|fork(T1)|1\n{}T1|w(V5)|2\nT0|r(V5)|3\n", "T1|r(V9)|1\n".repeat(100));
    let whole = binary([Event::read(0, 5)]);
    let files = [
        (file(DOCUMENT), 1),
        (file(long), 1),
        (file(format!("{CLEAN}T3|r(V7)|8\n")), 2),
        (file(format!("{CLEAN}T0|r(V7)\n")), 2),
        (file(binary(repeat_n(Event::read(0, 5), MAX_EVENTS + 1))), 2),
        (file(&whole[..whole.len() - 1]), 3),
        (folder(), 3),
    ];
    for (path, status) in &files {
        let (words, json) = (cards(&["--busiest"], path), cards(&["--json"], path));
        assert_eq!((words.status, json.status), (*status, *status), "{words:?}");
        assert_eq!(words, run([path]));
        assert_eq!(json, run(["--json".as_ref(), path.as_os_str()]));
    }
    // What the words send a reader to is there.
    assert!(cards(&[], &files[1].0).out.contains("(judge --orders has all)"));
}

#[test]
fn several_files_have_their_names_above_and_the_highest_status_counts() {
    let (clean, race, missing) = (file(CLEAN), file(DOCUMENT), folder().join("missing"));
    let all = ["cards".as_ref(), clean.as_os_str(), missing.as_os_str(), race.as_os_str()];
    let said = run(all);
    let block = |path: &OsStr, words: String| format!("{}:\n{words}", path.to_str().unwrap());
    let (one, other) = (cards(&[], &clean).out, cards(&[], &race).out);
    let wanted = [block(clean.as_ref(), one), block(race.as_ref(), other)].join("\n");
    assert_eq!((said.status, said.out), (3, wanted));
    assert_eq!(said.err, cards(&[], &missing).err);
    let said = run(all.into_iter().chain(["--json".as_ref()]));
    let objects: Vec<Json> = said.out.lines().map(|line| Json::parse(line).unwrap()).collect();
    let answers: Vec<&str> = objects.iter().map(|it| it.field("answer").text()).collect();
    assert_eq!((said.status, answers), (3, vec!["clean", "error", "race"]));
    let has_cards: Vec<bool> = objects.iter().map(|it| it.names().contains(&"cards")).collect();
    assert_eq!(has_cards, [true, false, false]);
    assert_eq!(run(["cards".as_ref(), clean.as_os_str(), race.as_os_str()]).status, 1);
    assert_eq!(run(["cards".as_ref(), clean.as_os_str(), clean.as_os_str()]).status, 0);
}

#[test]
fn standard_input_is_read_by_its_name() {
    for content in [CLEAN.as_bytes(), &binary([Event::read(0, 5)]), DOCUMENT.as_bytes()] {
        let path = file(content);
        let from = |options: &[&str]| {
            let input = File::open(&*path).unwrap();
            finish(judge(["cards", "-"].iter().chain(options)).stdin(input))
        };
        assert_eq!(from(&[]), cards(&[], &path));
        let told = cards(&["--json"], &path);
        let name = format!("\"file\":\"{}\"", path.display());
        assert_eq!(from(&["--json"]).out, told.out.replace(&name, "\"file\":\"-\""));
    }
    assert_eq!(run(["cards", "-"]).out, words(&[], ""));
}

#[test]
fn a_file_of_the_words_name_is_given_with_its_folder() {
    let folder = folder();
    fs::write(folder.join("cards"), CLEAN).unwrap();
    let here = |arguments: &[&str]| finish(judge(arguments).current_dir(&*folder));
    assert_eq!(here(&["cards"]).status, 3);
    assert!(here(&["cards", "cards"]).out.contains("How busy"));
    assert!(here(&["./cards"]).out.starts_with("clean 8\n\nNo race:"));
}
