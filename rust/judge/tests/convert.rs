//! `judge convert`: what it writes and what it leaves, what it says of where it ended, its statuses.

mod common;

use common::json::Json;
use common::{binary, file, finish, folder, judge, proved, run, Said, Temporary, DOCUMENT};
use racejudge::{Event, Refusal, Trace, MAX_EVENTS};
use racejudge_bench::rng::Rng;
use racejudge_bench::{samples, trace as slow};
use std::ffi::OsStr;
use std::fs::{self, File};
use std::os::unix::fs::symlink;
use std::path::{Path, PathBuf};
use std::process::{Command, Stdio};

/// Task 2, the child of task 1, writes; all halt and are joined. Stored with 0 in each halt.
const STORED: [Event; 8] = [
    Event::fork(0, 1),
    Event::fork(1, 2),
    Event::write(2, 5),
    Event::halt(2, 0),
    Event::join(1, 2),
    Event::halt(1, 0),
    Event::join(0, 1),
    Event::halt(0, 0),
];

/// The same with one event in place of another.
fn with(p: usize, event: Event) -> Vec<Event> {
    let mut events = STORED.to_vec();
    events[p] = event;
    events
}

/// A file that is to be converted, and the name of one that is not there beside it.
struct Pair {
    old: Temporary,
    new: PathBuf,
}

impl Pair {
    fn of(content: impl AsRef<[u8]>) -> Self {
        let old = file(content);
        let new = old.with_file_name("new");
        Pair { old, new }
    }

    fn convert(&self, options: &[&str]) -> Said {
        run(self.arguments(options))
    }

    fn arguments<'a>(&'a self, options: &'a [&str]) -> impl Iterator<Item = &'a OsStr> {
        let files = [self.old.as_os_str(), self.new.as_os_str()];
        [OsStr::new("convert")].into_iter().chain(options.iter().map(OsStr::new)).chain(files)
    }

    fn written(&self) -> Vec<u8> {
        fs::read(&self.new).expect("it is written")
    }

    /// What is said where the new file is written, without its last paragraph, which names it.
    #[track_caller]
    fn told(&self, status: i32) -> String {
        let said = self.convert(&[]);
        assert_eq!((said.status, said.err.as_str()), (status, ""), "{}", said.out);
        let end = format!("\nThe trace is in {}.\n", self.new.display());
        said.out.strip_suffix(&end).unwrap_or_else(|| panic!("{}", said.out)).to_string()
    }
}

#[test]
fn a_whole_trace_is_converted_to_a_new_file() {
    let content = binary(STORED);
    let pair = Pair::of(&content);
    let words = "converted\n\n3 halts were set: each names the task that resumes. \
                 The whole trace is converted: 8 events.\n";
    assert_eq!(pair.told(0), words);
    assert_eq!(pair.written(), binary(with(3, Event::halt(2, 1))));
    assert_eq!(fs::read(&*pair.old).unwrap(), content);
    let judged = |path: &Path| {
        let said = run([path]);
        (said.status, said.out.lines().next().unwrap_or_default().to_string())
    };
    assert_eq!(judged(&pair.old), (2, "refused 12 3".into()));
    assert_eq!(judged(&pair.new), (0, "clean 8".into()));
}

#[test]
fn the_readme_shows_what_is_said() {
    let readme = Path::new(env!("CARGO_MANIFEST_DIR")).join("../README.md");
    let readme = fs::read_to_string(readme).expect("it can be read");
    let folder = folder();
    fs::write(folder.join("stored.bin"), binary(STORED)).unwrap();
    for arguments in [&["stored.bin"][..], &["convert", "stored.bin", "new.bin"]] {
        let said = finish(judge(arguments).current_dir(&*folder)).out;
        let command = format!("    $ judge {}\n", arguments.join(" "));
        let (_, shown) = readme.split_once(&command).expect("it is shown");
        let lines = shown.lines().take_while(|line| line.is_empty() || line.starts_with("    "));
        let lines = lines.map(str::trim).take_while(|line| !line.starts_with('$'));
        let lines: Vec<&str> = lines.filter(|line| !line.is_empty() && *line != "..").collect();
        assert!(lines.len() > 2 && lines.iter().all(|line| said.contains(line)), "{lines:?}");
    }
}

/// It is named as it may go to a terminal, and whole.
#[test]
fn any_new_file_is_named() {
    let folder = folder();
    fs::write(folder.join("old"), binary(STORED)).unwrap();
    let long = format!("a  b{}", "c".repeat(120));
    for (new, named) in [("two\nlines", "two\\nlines"), (&long, &long), ("--json", "--json")] {
        let said = finish(judge(["convert", "--", "old", new]).current_dir(&*folder));
        assert_eq!((said.status, said.err.as_str()), (0, ""));
        assert!(said.out.ends_with(&format!("\n\nThe trace is in {named}.\n")), "{}", said.out);
        assert!(fs::exists(folder.join(new)).unwrap());
    }
}

#[test]
fn traces_with_few_halts_or_none() {
    let one = Pair::of(binary([Event::fork(0, 1), Event::halt(1, 0)]));
    let words = "converted\n\n1 halt was set: it names the task that resumes. \
                 The whole trace is converted: 2 events.\n";
    assert_eq!(one.told(0), words);
    for (events, count) in [(vec![], "0 events"), (vec![Event::read(0, 5)], "1 event")] {
        let none = Pair::of(binary(events.clone()));
        let words = "There is no halt to be set. The whole trace is converted:";
        assert_eq!(none.told(0), format!("converted\n\n{words} {count}.\n"));
        assert_eq!(none.written(), binary(events));
    }
}

#[test]
fn an_event_that_breaks_a_rule_ends_it() {
    let events = with(4, Event::join(1, 0));
    let pair = Pair::of(binary(events.clone()));
    let words = "converted

1 halt before event 4 was set: it names the task that resumes. There the conversion ended.

Event 4 breaks a rule: the joined task is not the left neighbour of the actor.

  event 4   task 1 joins task 0

A left neighbour is the last task to halt of those that are not joined. Here that is task 2.
Task 0 is paused until its child has halted.

Likely cause: the number of the joined task is wrong.

From event 4 on the trace is as it was.

Events count from 0.
";
    assert_eq!(pair.told(1), words);
    let mut wanted = events;
    wanted[3] = Event::halt(2, 1);
    assert_eq!(pair.written(), binary(wanted));
}

/// Converted once more, a trace stays as it is.
#[test]
fn a_trace_that_was_converted_before_is_known() {
    let content = binary(with(3, Event::halt(2, 1)));
    let pair = Pair::of(&content);
    let words = "converted

There is no halt before event 3 to be set. There the conversion ended.

Event 3 is a halt that names the task that resumes already:

  event 3   task 2 halts, task 1 resumes

A halt that names a task already is not set: the trace may have been converted before.
It keeps the rules as it is, and needs no conversion.

From event 3 on the trace is as it was.

Events count from 0.
";
    assert_eq!(pair.told(1), words);
    assert_eq!(pair.written(), content);
}

/// So is one of which only a part was.
#[test]
fn what_is_broken_behind_a_halt_that_names_its_task_is_told() {
    let nest = [Event::fork(1, 3), Event::halt(3, 0)];
    let half = [&STORED[..3], &[Event::halt(2, 1)], &nest].concat();
    let words = Pair::of(binary(half)).told(1);
    let later = "names the task that resumes already:";
    assert!(words.contains(later) && !words.contains("needs no conversion"), "{words}");
    assert!(words.contains("\nLater a rule is broken: refused 12 5 (the operand of"), "{words}");
}

#[test]
fn a_halt_that_names_a_wrong_task_ends_it() {
    let pair = Pair::of(binary(with(5, Event::halt(1, 7))));
    let words = pair.told(1).replace('\n', " ");
    for word in [
        "1 halt before event 5 was set: it names the task that resumes. There the",
        "Event 5 breaks a rule: the operand of the halt is not the task that resumes, or not 0 for",
        "Here that is task 0, but task 7 is named.",
        "A halt that names a task already is not set: the trace may have been converted before.",
        "From event 5 on the trace is as it was.",
    ] {
        assert!(words.contains(word), "no {word:?} in\n{words}");
    }
    // Where the event breaks another rule too, that is told.
    let words = Pair::of(binary(with(5, Event::halt(9, 7)))).told(1);
    assert!(words.contains("Event 5 breaks a rule: the actor is not the running task."), "{words}");
    assert!(!words.contains("converted before"), "{words}");
}

#[test]
fn a_trace_that_is_too_long_is_refused_and_nothing_is_written() {
    let pair = Pair::of(binary(std::iter::repeat_n(Event::read(0, 5), MAX_EVENTS + 1)));
    let said = pair.convert(&[]);
    assert_eq!((said.status, said.out.lines().next()), (2, Some("refused 2 0")));
    assert!(said.out.contains("The trace has 32,769 events, from 0 to 32768."), "{}", said.out);
    assert!(said.out.ends_with("\n\nNothing is written.\n"), "{}", said.out);
    assert!(!fs::exists(&pair.new).unwrap());
    let most = Pair::of(binary(std::iter::repeat_n(Event::read(0, 5), MAX_EVENTS)));
    assert!(most.told(0).ends_with("converted: 32,768 events.\n"));
}

/// The old file is as it was, and the new one is not there.
#[track_caller]
fn unconverted(content: &[u8], told: &str) {
    let pair = Pair::of(content);
    let said = pair.convert(&[]);
    let told = format!("judge: {} {told}\n", pair.old.display());
    assert_eq!((said.status, said.out.as_str(), said.err), (3, "", told));
    assert_eq!(fs::read(&*pair.old).unwrap(), content);
    assert!(!fs::exists(&pair.new).unwrap());
}

#[test]
fn what_is_no_binary_trace_is_told() {
    let text = "is no binary trace; a text needs no conversion, its halts are put in";
    for content in [DOCUMENT, "", "S(w3,P(r3,r3))\n", "no trace\n"] {
        unconverted(content.as_bytes(), text);
    }
    let whole = binary(STORED);
    let short = "is a damaged binary trace: too short: 8 events take 48 bytes, but there are 47";
    unconverted(&whole[..whole.len() - 1], short);
    let mut changed = whole;
    changed[4] ^= 1;
    let said = Pair::of(changed).convert(&[]);
    assert!(said.status == 3 && said.err.contains("binary trace: the checksum is"), "{said:?}");
}

#[test]
fn files_that_cannot_be_read_are_told() {
    let folder = folder();
    for (old, why) in [("missing", "No such file or directory"), (".", "Is a directory")] {
        let said = finish(judge(["convert", old, "new"]).current_dir(&*folder));
        let told = format!("judge: {old} cannot be read: {why}\n");
        assert_eq!((said.status, said.out.as_str(), said.err), (3, "", told));
        assert!(!fs::exists(folder.join("new")).unwrap());
    }
}

#[test]
fn nothing_is_written_over() {
    let pair = Pair::of(binary(STORED));
    let told = format!("judge: {} is there already, and is not written over\n", pair.new.display());
    let refused = |content: &[u8]| {
        let said = pair.convert(&[]);
        assert_eq!((said.status, said.out.as_str(), said.err.as_str()), (3, "", &told[..]));
        assert_eq!(fs::read(&pair.new).unwrap_or_default(), content);
    };
    for content in [&b""[..], b"something", &binary(STORED)] {
        fs::write(&pair.new, content).unwrap();
        refused(content);
    }
    fs::remove_file(&pair.new).unwrap();
    // A name that leads nowhere yet is there too.
    symlink("nowhere", &pair.new).unwrap();
    refused(b"");
    assert!(!fs::exists(pair.new.with_file_name("nowhere")).unwrap());
    fs::remove_file(&pair.new).unwrap();
    assert_eq!(pair.convert(&[]).status, 0);
    refused(&pair.written());
}

/// By whatever name.
#[test]
fn the_old_file_is_no_new_one() {
    let content = binary(STORED);
    let pair = Pair::of(&content);
    symlink(&*pair.old, &pair.new).unwrap();
    let said = pair.convert(&[]);
    let told =
        "judge: the old file and the new one are the same\nusage: judge convert [--json] OLD";
    assert!(said.status == 3 && said.err.starts_with(told), "{said:?}");
    fs::remove_file(&pair.new).unwrap();
    fs::hard_link(&*pair.old, &pair.new).unwrap();
    let said = pair.convert(&[]);
    assert!(said.status == 3 && said.err.starts_with(told), "{said:?}");
    assert_eq!(fs::read(&*pair.old).unwrap(), content);
}

#[test]
fn a_new_file_that_cannot_be_written_is_told() {
    let pair = Pair::of(binary(STORED));
    for (new, why) in
        [("/missing/new", "No such file or directory"), ("/dev/null/new", "Not a directory")]
    {
        let said = run(["convert".as_ref(), pair.old.as_os_str(), new.as_ref()]);
        let told = format!("judge: {new} cannot be written: {why}\n");
        assert_eq!((said.status, said.out.as_str(), said.err), (3, "", told));
    }
}

/// A part of a trace is none: where there is room for a part of the file alone, none is left.
#[test]
fn a_new_file_that_is_not_written_whole_is_taken_away() {
    let pair = Pair::of(binary(std::iter::repeat_n(Event::read(0, 5), MAX_EVENTS)));
    let mut shell = Command::new("sh");
    // The signal for a file that is too long is not to end the command: then the write fails.
    let command = "trap '' XFSZ; ulimit -f 8; exec \"$0\" \"$@\"";
    shell.args(["-c", command, env!("CARGO_BIN_EXE_judge")]).args(pair.arguments(&[]));
    let said = finish(&mut shell);
    let told = format!("judge: {} cannot be written: File too large\n", pair.new.display());
    assert_eq!((said.status, said.out.as_str(), said.err), (3, "", told));
    assert!(!fs::exists(&pair.new).unwrap());
}

/// What is said is lost, but not what is written.
#[test]
fn lost_output_is_told() {
    for options in [&[][..], &["--json"]] {
        let pair = Pair::of(binary(STORED));
        let full = File::options().write(true).open("/dev/full").unwrap();
        let said = finish(judge(pair.arguments(options)).stdout(full));
        let told = "judge: cannot write to standard output: No space left on device\n";
        assert_eq!((said.status, said.err.as_str()), (3, told));
        assert_eq!(pair.written(), binary(with(3, Event::halt(2, 1))));
    }
}

#[test]
fn standard_input_is_converted() {
    let pair = Pair::of(binary(STORED));
    let from = |arguments: [&OsStr; 3]| {
        let input = File::open(&*pair.old).unwrap();
        finish(judge(arguments).stdin(Stdio::from(input)))
    };
    let said = from(["convert".as_ref(), "-".as_ref(), pair.new.as_os_str()]);
    assert_eq!((said.status, said.err.as_str()), (0, ""));
    assert_eq!(pair.written(), binary(with(3, Event::halt(2, 1))));
    let said = run(["convert".as_ref(), "-".as_ref(), pair.new.as_os_str()]);
    let text = "is no binary trace; a text needs no conversion, its halts are put in";
    assert_eq!((said.status, said.err), (3, format!("judge: standard input {text}\n")));
}

/// The one object that is printed.
fn object(said: &Said) -> Json {
    assert_eq!(said.err, "");
    Json::parse(said.out.trim_end_matches('\n')).unwrap_or_else(|wrong| panic!("{wrong}: {said:?}"))
}

#[test]
fn an_object_has_it_all() {
    let names = ["answer", "broken", "events", "file", "halts", "new", "said", "stopped", "tasks"];
    let whole = Pair::of(binary(STORED));
    let said = whole.convert(&["--json"]);
    let told = object(&said);
    assert_eq!((said.status, told.names()), (0, names.to_vec()));
    assert_eq!(
        (told.field("answer").text(), told.field("said").text()),
        ("converted", "converted")
    );
    assert_eq!(told.field("file").text(), whole.old.to_str().unwrap());
    assert_eq!(told.field("new").text(), whole.new.to_str().unwrap());
    let numbers = ["events", "tasks", "halts"].map(|name| told.field(name).number());
    assert_eq!(numbers, [8, 3, 3]);
    assert_eq!([told.field("stopped"), told.field("broken")], [&Json::Null; 2]);
    assert_eq!(whole.written(), binary(with(3, Event::halt(2, 1))));

    let said = Pair::of(binary(with(4, Event::read(7, 5)))).convert(&["--json"]);
    let told = object(&said);
    assert_eq!((said.status, told.names()), (1, names.to_vec()));
    assert_eq!(told.field("halts").number(), 1);
    let stopped =
        r#"{"event":4,"task":7,"kind":"read","operand":5,"line":null,"source":null,"text":null}"#;
    assert_eq!(told.field("stopped"), &Json::parse(stopped).unwrap());
    let broken = r#"{"row":7,"position":4,"meaning":"the actor is not the running task"}"#;
    assert_eq!(told.field("broken"), &Json::parse(broken).unwrap());

    let said = Pair::of(binary(with(3, Event::halt(2, 1)))).convert(&["--json"]);
    let told = object(&said);
    assert_eq!((said.status, told.field("stopped").field("event").number()), (1, 3));
    assert_eq!(told.field("broken"), &Json::Null);
}

#[test]
fn what_is_not_converted_is_an_object_too() {
    let long = Pair::of(binary(std::iter::repeat_n(Event::read(0, 5), MAX_EVENTS + 1)));
    let said = long.convert(&["--json"]);
    let told = object(&said);
    assert_eq!((said.status, told.field("said").text()), (2, "refused 2 0"));
    assert_eq!((told.field("row").number(), told.names().contains(&"new")), (2, false));
    let pair = Pair::of(binary(STORED));
    fs::write(&pair.new, "something").unwrap();
    let text = Pair::of(DOCUMENT);
    for (pair, of, wrong) in [
        (&pair, pair.new.to_str(), "is there already, and is not written over"),
        (
            &text,
            text.old.to_str(),
            "is no binary trace; a text needs no conversion, its halts are put in",
        ),
    ] {
        let said = pair.convert(&["--json"]);
        let told = object(&said);
        assert_eq!((said.status, told.names()), (3, vec!["answer", "error", "file"]));
        assert_eq!((Some(told.field("file").text()), told.field("error").text()), (of, wrong));
    }
}

/// The words and the file are those of the library, whatever the trace.
#[test]
fn at_random_what_the_library_does() {
    let mut rng = Rng::new(51);
    let mut met = [0; 2];
    for _ in 0..200 {
        let n = 1 + rng.below(60);
        let mut stored = samples::valid(&mut rng, n, 50).stored();
        if rng.chance(1, 2) {
            stored = samples::damage(&mut rng, &stored);
        }
        let mut wanted = proved(&stored);
        let told = wanted.convert().expect("few events");
        let pair = Pair::of(proved(&stored).to_binary().expect("few events"));
        let status = i32::from(told.stopped.is_some());
        let words = pair.told(status);
        assert_eq!(Trace::from_binary(&pair.written()), Ok(wanted), "{stored}");
        hold_words(&words, told.halts, told.stopped, told.broken, &stored);
        assert!(words.lines().all(|line| line.len() <= 100), "{words}");
        met[status as usize] += 1;
    }
    assert!(met.iter().all(|&count| count > 30), "{met:?}");
}

fn hold_words(
    words: &str,
    halts: usize,
    stopped: Option<usize>,
    broken: Option<Refusal>,
    stored: &slow::Trace,
) {
    let words = words.replace('\n', " ");
    let set = match halts {
        0 => "There is no halt".to_string(),
        1 => "1 halt".to_string(),
        _ => format!("{halts} halts"),
    };
    assert!(words.starts_with(&format!("converted  {set} ")), "{words} of {stored}");
    let Some(stop) = stopped else {
        let whole = format!("The whole trace is converted: {} event", stored.len());
        return assert!(words.contains(&whole), "{words} of {stored}");
    };
    assert!(words.contains(&format!("From event {stop} on the trace is as it was.")), "{words}");
    let rule = broken.filter(|refusal| refusal.position == stop);
    let told = match rule {
        Some(refusal) => format!("Event {stop} breaks a rule: {}.", refusal.meaning()),
        None => format!("Event {stop} is a halt that names the task that resumes already:"),
    };
    assert!(words.contains(&told), "no {told} in {words} of {stored}");
}
