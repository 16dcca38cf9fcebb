//! The command line: words, options, statuses, several files, standard input.

mod common;

use common::{binary, file, finish, folder, judge, run, Said, Temporary, DOCUMENT};
use racejudge::Event;
use std::fs::{self, File};
use std::path::PathBuf;

const CLEAN: &str = "T0|w(V5)|1\n";
const REFUSED: &str = "T1|w(V5)|1\n";

/// A clean file, one with a race, a refused one, and one that is not there; and their folder.
fn files() -> ([PathBuf; 4], Temporary) {
    let folder = folder();
    let files = ["clean", "race", "refused", "missing"].map(|file| folder.join(file));
    for (file, text) in files.iter().zip([CLEAN, DOCUMENT, REFUSED]) {
        fs::write(file, text).unwrap();
    }
    (files, folder)
}

fn first_line(said: &Said) -> &str {
    said.out.lines().next().unwrap_or_default()
}

#[test]
fn the_status_tells_the_answer() {
    let ([clean, race, refused, missing], _folder) = files();
    assert_eq!((run([&clean]).status, first_line(&run([&clean]))), (0, "clean 1"));
    assert_eq!((run([&race]).status, first_line(&run([&race]))), (1, "race 1 3"));
    assert_eq!((run([&refused]).status, first_line(&run([&refused]))), (2, "refused 7 0"));
    let said = run([&missing]);
    assert_eq!((said.status, said.out.as_str()), (3, ""));
    let name = missing.display();
    assert_eq!(said.err, format!("judge: {name} cannot be read: No such file or directory\n"));
}

#[test]
fn of_several_files_the_highest_status_counts() {
    let ([clean, race, refused, missing], _folder) = files();
    let status = |files: &[&PathBuf]| run(files).status;
    assert_eq!(status(&[&clean, &clean]), 0);
    assert_eq!(status(&[&race, &clean]), 1);
    assert_eq!(status(&[&refused, &race, &clean]), 2);
    assert_eq!(status(&[&missing, &refused, &race, &clean]), 3);
    let said = run(["--json".as_ref(), missing.as_os_str(), race.as_os_str()]);
    assert_eq!((said.status, said.out.lines().count()), (3, 2));
}

#[test]
fn several_files_have_their_names_above_and_empty_lines_between() {
    let ([clean, race, _, missing], _folder) = files();
    let said = run([&clean, &missing, &race]);
    let wanted = format!(
        "{}:\n{}\n{}:\n{}",
        clean.display(),
        run([&clean]).out,
        race.display(),
        run([&race]).out
    );
    assert_eq!(said.out, wanted);
    assert_eq!(said.err, run([&missing]).err);
    // An unreadable file has no block: nothing stands before the first that has one.
    assert!(run([&missing, &clean]).out.starts_with(&format!("{}:\n", clean.display())));
}

#[test]
fn standard_input_is_read_by_its_name() {
    let text = file(DOCUMENT);
    let from = |path: &PathBuf| finish(judge(["-"]).stdin(File::open(path).unwrap()));
    assert_eq!(from(&text), run([&text]));
    let events = [Event::fork(0, 1), Event::write(1, 5), Event::halt(1, 0), Event::read(0, 5)];
    let packed = file(binary(events));
    assert_eq!(from(&packed), run([&packed]));
    assert_eq!(first_line(&from(&packed)), "race 1 3");
    // With another file it has a name of its own.
    let both = finish(judge(["-".as_ref(), text.as_os_str()]).stdin(File::open(&*text).unwrap()));
    assert!(both.out.starts_with("standard input:\nrace 1 3\n"));
}

#[test]
fn nothing_on_standard_input_is_no_event() {
    let said = run(["-"]);
    assert_eq!((said.status, first_line(&said)), (0, "clean 0"));
    assert!(said.out.contains("There is no event in the file, so nothing can race."));
}

#[track_caller]
fn wrong_usage(arguments: &[&str], told: &str) {
    let said = run(arguments);
    assert_eq!((said.status, said.out.as_str()), (3, ""), "{arguments:?}");
    assert!(
        said.err.starts_with(&format!("judge: {told}\nusage: judge ")),
        "{arguments:?}: {}",
        said.err
    );
    assert!(said.err.trim_end().ends_with("--help"));
}

#[test]
fn a_wrong_command_line_is_told() {
    let text = file(DOCUMENT);
    let text = text.to_str().unwrap();
    let picture = format!("{text}.svg");
    wrong_usage(&[], "no file is given");
    wrong_usage(&["--json"], "no file is given");
    wrong_usage(&["--"], "no file is given");
    wrong_usage(&["--fast", text], "there is no option --fast");
    wrong_usage(&["-j", text], "there is no option -j");
    let twice = "standard input is given twice, and can be read once";
    wrong_usage(&["-", "-"], twice);
    wrong_usage(&["-", "--", "-"], twice);
    wrong_usage(&["-", "/dev/stdin"], twice);
    wrong_usage(&[text, "--svg"], "--svg needs a value behind it");
    wrong_usage(&["--svg", &picture, "--svg", &picture, text], "--svg is given twice");
    wrong_usage(&["--svg", &picture, text, text], "--svg draws one file, and more are given");
    let no_input = "--svg draws from a file into a file, and takes no -";
    wrong_usage(&["--svg", &picture, "-"], no_input);
    wrong_usage(&["--svg", "-", text], no_input);
    let no_file = "--svg needs a file behind it; one of this name is given as ./--json";
    wrong_usage(&["--svg", "--json", text], no_file);
    wrong_usage(&["--svg", text, text], "--svg would write over the file that is to be judged");
    assert_eq!(fs::read_to_string(text).unwrap(), DOCUMENT);
    assert!(!fs::exists(&picture).unwrap());
    let needed = "a file and two event numbers are needed";
    wrong_usage(&["order"], needed);
    wrong_usage(&["order", text, "1"], needed);
    wrong_usage(&["order", text, "1", "2", "3"], needed);
    wrong_usage(&["order", text, "one", "2"], "one is no event number");
    wrong_usage(&["order", text, "1", ""], " is no event number");
    wrong_usage(&["order", text, "1", "+2"], "+2 is no event number");
    wrong_usage(&["order", text, "1", "-2"], "there is no option -2");
    wrong_usage(&["order", "--orders", text, "1", "2"], "there is no option --orders");
    wrong_usage(&["order", "--version"], "there is no option --version");
    wrong_usage(&["cards"], "no file is given");
    wrong_usage(&["cards", "--busiest", "--json"], "no file is given");
    wrong_usage(&["cards", "-", "/dev/stdin"], twice);
    wrong_usage(&["cards", "--busy", text], "there is no option --busy");
    wrong_usage(&["cards", "--orders", text], "there is no option --orders");
    wrong_usage(&["cards", "--links", text], "there is no option --links");
    wrong_usage(&["cards", "--svg", &picture, text], "there is no option --svg");
    wrong_usage(&["--busiest", text], "there is no option --busiest");
    wrong_usage(&["pairs"], "no file is given");
    wrong_usage(&["pairs", "--all", "--json"], "no file is given");
    wrong_usage(&["pairs", "-", "/dev/stdin"], twice);
    wrong_usage(&["pairs", "--orders", text], "there is no option --orders");
    wrong_usage(&["pairs", "--links", text], "there is no option --links");
    wrong_usage(&["pairs", text, "--svg"], "--svg needs a value behind it");
    wrong_usage(&["pairs", "--svg", &picture, "-"], no_input);
    wrong_usage(
        &["pairs", "--svg", &picture, text, text],
        "--svg draws one file, and more are given",
    );
    wrong_usage(&["--all", text], "there is no option --all");
    wrong_usage(&["plan"], "no file is given");
    wrong_usage(&["plan", "--links", text], "there is no option --links");
    wrong_usage(&["plan", "-", "/dev/stdin"], twice);
    wrong_usage(&["plan", text, "--svg"], "--svg needs a value behind it");
    wrong_usage(&["plan", "--svg", &picture, "-"], no_input);
    wrong_usage(
        &["plan", "--svg", &picture, text, text],
        "--svg draws one file, and more are given",
    );
    let over = "--svg would write over the file that is to be judged";
    wrong_usage(&["plan", "--svg", text, text], over);
    wrong_usage(&["pairs", "--svg", text, text], over);
    let needed = "an old file and a new one are needed";
    wrong_usage(&["convert"], needed);
    wrong_usage(&["convert", text], needed);
    wrong_usage(&["convert", text, &picture, &picture], needed);
    wrong_usage(&["convert", "--busiest", text, &picture], "there is no option --busiest");
    wrong_usage(&["convert", text, text], "the old file and the new one are the same");
    wrong_usage(&["convert", text, "-"], "what is converted goes to a file, and not to -");
    assert!(!fs::exists(&picture).unwrap());
    assert_eq!(fs::read_to_string(text).unwrap(), DOCUMENT);
}

#[test]
fn help_and_version_are_printed() {
    let said = run(["--version"]);
    let version = format!("judge {}\n", env!("CARGO_PKG_VERSION"));
    assert_eq!((said.status, said.out, said.err), (0, version, String::new()));
    let help = run(["--help"]);
    assert_eq!((help.status, help.err.as_str()), (0, ""));
    assert_eq!(
        help.out.lines().nth(2),
        Some("judge [--json] [--svg FILE] [--orders] [--links] FILE...")
    );
    for (word, usage) in [
        ("order", "[--json] FILE P Q"),
        ("cards", "[--busiest] [--json] FILE..."),
        ("pairs", "[--all] [--json] [--svg FILE] FILE..."),
        ("plan", "[--json] [--draw] [--svg FILE] [--orders] FILE..."),
        ("convert", "[--json] OLD NEW"),
    ] {
        let line = format!("judge {word} {usage}");
        assert!(help.out.lines().any(|it| it == line), "{line}");
        let own = run([word, "--help"]);
        assert_eq!((own.status, own.out.lines().nth(2)), (0, Some(line.as_str())));
        for page in [&help.out, &own.out] {
            assert!(page.lines().all(|line| line.len() <= 100), "{page}");
            assert!(page.contains("\n\nStatus: 0 ") && page.contains("\n  --json "), "{page}");
        }
    }
    // It is asked for wherever it stands among the options, and not behind their end.
    assert_eq!(run(["missing", "--help"]).out, run(["--help"]).out);
    assert_eq!(run(["--", "--help"]).status, 3);
}

#[test]
fn a_word_is_one_where_it_stands_first_only() {
    let folder = folder();
    for name in ["order", "--json", "-x"] {
        fs::write(folder.join(name), CLEAN).unwrap();
    }
    let here = |arguments: &[&str]| finish(judge(arguments).current_dir(&*folder));
    assert_eq!(here(&["order"]).status, 3);
    assert_eq!(first_line(&here(&["./order"])), "clean 1");
    assert_eq!(first_line(&here(&["--orders", "order"])), "clean 1");
    assert_eq!(first_line(&here(&["--", "order"])), "clean 1");
    assert_eq!(first_line(&here(&["--", "--json"])), "clean 1");
    assert_eq!(first_line(&here(&["--orders", "--", "-x"])), "clean 1");
}

#[test]
fn options_may_stand_behind_the_files() {
    let text = file(DOCUMENT);
    let said = run([text.as_os_str(), "--json".as_ref()]);
    assert_eq!(said, run(["--json".as_ref(), text.as_os_str()]));
    assert!(said.out.starts_with('{'));
}

/// The words for a text, with the breaks of long sentences taken out.
fn words(text: &str) -> String {
    run([&file(text)]).out.replace('\n', " ")
}

#[test]
fn a_race_says_which_joins_are_missing() {
    let one = words(DOCUMENT);
    assert!(one.contains("task 1 has halted, but is not joined when event 3 runs."), "{one}");
    let joined = "If task 0 joined task 1 before event 3 (line 3), the two would be ordered.";
    assert!(one.contains(joined) && !one.contains("too late"), "{one}");
    let late = words(&format!("{DOCUMENT}T0|join(T1)|40\n"));
    assert!(late.contains("Task 0 joins task 1 too late: event 4 (line 4)."), "{late}");
    // A rule that is broken behind the race changes nothing, and no join is seen behind that.
    let broken = words(&format!("{DOCUMENT}T0|join(T9)|40\nT0|join(T1)|50\n"));
    assert!(broken.starts_with("race 1 3 ") && broken.contains(joined), "{broken}");
    assert!(!broken.contains("too late"), "{broken}");
    let forks = "T0|fork(T1)|1\nT1|w(V5)|2\nT0|fork(T2)|3\nT0|fork(T3)|4\n";
    let several = words(&format!("{forks}T0|r(V5)|5\n"));
    let halted = "tasks 3, 2 and 1 have halted, but are not joined when event 7 runs.";
    let joined =
        "If task 0 joined tasks 3, 2 and 1, in this order, before event 7 (line 5), the two";
    assert!(several.contains(halted) && several.contains(joined), "{several}");
    // Task 2 has joined task 1, whose write races.
    let held = "T0|fork(T1)|1\nT1|w(V5)|2\nT0|fork(T2)|3\nT2|join(T1)|4\nT0|r(V5)|5\n";
    let holder =
        "event 1 comes before the halt of task 2; task 2 has halted, but is not joined when";
    assert!(words(held).contains(holder), "{}", words(held));
}

#[test]
fn a_race_says_who_reads_and_who_writes() {
    let race = |one: char, other: char| {
        words(&format!("T0|fork(T1)|1\nT1|{one}(V5)|2\nT0|{other}(V5)|3\n"))
    };
    let ends = "and nothing orders them:";
    assert!(
        race('w', 'r').contains(&format!("Event 1 writes location 5, event 3 reads it, {ends}"))
    );
    assert!(
        race('r', 'w').contains(&format!("Event 1 reads location 5, event 3 writes it, {ends}"))
    );
    assert!(race('w', 'w').contains(&format!("Events 1 and 3 both write location 5, {ends}")));
}

/// An access by a task, of a kind, to a location.
type Access = fn(u16, u16) -> Event;

/// The words for a child's access to location 5 and one by its parent beside it, and for the same
/// with the child joined between them.
fn beside(one: Access, other: Access) -> [String; 2] {
    let said = |joins: &[Event]| {
        let start = [Event::fork(0, 1), one(1, 5), Event::halt(1, 0)];
        let events = [&start[..], joins, &[other(0, 5)]].concat();
        run([&file(binary(events))]).out.replace('\n', " ")
    };
    [said(&[]), said(&[Event::join(0, 1)])]
}

#[test]
fn a_race_with_a_sum_says_what_becomes_of_it() {
    let [read, write, sum]: [Access; 3] = [Event::read, Event::write, Event::sum];
    let holds = "Right after the two, location 5 holds what event";
    let pairs: [(Access, Access, &str, String); 4] = [
        (
            sum,
            read,
            "Event 1 adds to location 5, event 3 reads it,",
            "In the first order event 3 sees what event 1 adds, in the second it does not.".into(),
        ),
        (
            read,
            sum,
            "Event 1 reads location 5, event 3 adds to it,",
            "In the second order event 1 sees what event 3 adds, in the first it does not.".into(),
        ),
        (
            sum,
            write,
            "Event 1 adds to location 5, event 3 writes it,",
            format!(
                "{holds} 3 writes: in the second order with what event 1 adds, in the first without."
            ),
        ),
        (
            write,
            sum,
            "Event 1 writes location 5, event 3 adds to it,",
            format!(
                "{holds} 1 writes: in the first order with what event 3 adds, in the second without."
            ),
        ),
    ];
    let clean = "each read sees the same write and the same sums after it, and each location ends \
                 with the same last write and the same sums after it.";
    for (one, other, head, difference) in pairs {
        let [race, joined] = beside(one, other);
        assert!(race.starts_with(&format!("race 1 3  {head} and nothing orders them:")), "{race}");
        let orders = "0 [1 3] 2   0 [3 1] 2  ";
        assert!(race.contains(&format!("{orders}{difference}  This is the first race")), "{race}");
        assert!(joined.starts_with("clean 5 ") && joined.contains(clean), "{joined}");
    }
    // Two sums never race. Where there is no sum, none is spoken of.
    let [sums, _] = beside(sum, sum);
    assert!(sums.starts_with("clean 4 ") && sums.contains(clean), "{sums}");
    for (one, other) in [(read, write), (write, read), (write, write)] {
        for words in beside(one, other) {
            assert!(!words.contains("sum") && !words.contains(" add"), "{words}");
            assert!(!words.contains("In the first") && !words.contains("Right after"), "{words}");
        }
    }
}

#[test]
fn a_race_of_a_binary_trace_is_told_without_lines() {
    let events = [Event::fork(0, 1), Event::write(1, 5), Event::halt(1, 0), Event::read(0, 5)];
    let said = run([&file(binary(events))]);
    assert!(said.out.contains("\n  event 1   task 1 writes location 5\n"), "{}", said.out);
    assert!(said.out.contains("If task 0 joined task 1 before event 3, the two"), "{}", said.out);
    assert!(!said.out.contains(" line"), "{}", said.out);
}

#[test]
fn long_ways_are_cut_in_the_middle() {
    let forks: String = (2..40).map(|k| format!("T{k}|fork(T{})|1\n", k + 1)).collect();
    let text = format!("T0|fork(T1)|1\nT1|w(V5)|1\nT0|fork(T2)|1\n{forks}T40|r(V5)|1\n");
    let said = run([&file(text)]);
    // 39 forks and the read, of which 6 stand at each end.
    let way = said.out.split("parent's side to event 42:\n\n").nth(1).unwrap();
    let rows: Vec<&str> = way.lines().take_while(|line| !line.is_empty()).map(str::trim).collect();
    assert_eq!(rows.len(), 13, "{}", said.out);
    assert_eq!(rows[0], "event 3    line 3    task 0 forks task 2");
    assert_eq!(rows[6], "(28 rows left out; --json has all)");
    assert_eq!(rows[12], "event 42   line 42   task 40 reads location 5");
}

#[test]
fn long_orders_are_cut_around_the_pair_or_printed_whole() {
    let reads = "T1|r(V9)|1\n".repeat(100);
    let text =
        format!("T0|fork(T1)|1\n{reads}T1|w(V5)|2\n{}T0|r(V5)|3\n", "T0|r(V8)|1\n".repeat(50));
    let text = file(text);
    let cut = run([&text]);
    assert_eq!(first_line(&cut), "race 101 153");
    let rows = |said: &Said| -> Vec<String> {
        said.out.lines().filter(|line| line.contains('[')).map(str::to_string).collect()
    };
    let [one, other] = &rows(&cut)[..] else { panic!("{}", cut.out) };
    for (row, pair) in [(one, "[101 153]"), (other, "[153 101]")] {
        assert!(row.len() <= 100, "{row}");
        let (before, after) = row.split_once(pair).expect("the pair");
        // What is left out and what is shown are all that stands on either side.
        assert_eq!((told(before), told(after)), (151, 1), "{row}");
    }
    assert!(cut.out.contains(" in brackets (judge --orders has all):\n"));
    let whole = run(["--orders".as_ref(), text.as_os_str()]);
    let [one, other] = &rows(&whole)[..] else { panic!("{}", whole.out) };
    let events: Vec<String> = (0..=100).chain(103..=152).map(|p| p.to_string()).collect();
    let order = |pair| format!("  {} {pair} 102", events.join(" "));
    assert_eq!((one, other), (&order("[101 153]"), &order("[153 101]")));
    assert!(!whole.out.contains("--orders"));
}

/// How many events a part of an order tells: those that it shows, and those that it says are left
/// out.
fn told(part: &str) -> usize {
    let (left_out, shown) = match part.trim().strip_prefix('(') {
        Some(rest) => rest.split_once(" left out)").expect("a count"),
        None => ("0", part),
    };
    left_out.parse::<usize>().unwrap() + shown.split_whitespace().count()
}

#[test]
fn a_question_is_answered_yes_no_or_refused() {
    let text = file(DOCUMENT);
    let ask = |p: &str, q: &str| {
        let said = run(["order".as_ref(), text.as_os_str(), p.as_ref(), q.as_ref()]);
        assert_eq!(said.err, "");
        (said.status, first_line(&said).to_string(), said.out)
    };
    let (status, line, words) = ask("0", "2");
    assert_eq!((status, line.as_str()), (0, "yes"));
    assert!(words.contains("\n  event 2            task 1 halts, task 0 resumes\n"), "{words}");
    assert_eq!(ask("2", "2").0, 0);
    let (status, line, words) = ask("1", "3");
    assert_eq!((status, line.as_str()), (1, "no"));
    assert!(words.contains("task 1 has halted, but is not joined when event 3 runs"), "{words}");
    let (status, line, words) = ask("3", "0");
    assert_eq!((status, line.as_str()), (1, "no"));
    assert!(words.contains("event 0 always comes before event 3"), "{words}");
    for beyond in ["4", "18446744073709551615", "18446744073709551616", "99999999999999999999999"] {
        let (status, line, words) = ask("0", beyond);
        assert_eq!((status, line.as_str()), (2, "refused 13 0"), "{beyond}");
        assert!(words.contains("The trace has 4 events, from 0 to 3."), "{words}");
        assert_eq!(ask(beyond, "0").0, 2);
    }
}

#[test]
fn a_question_about_a_join_names_the_tasks_that_it_does_not_join() {
    let text = file("T0|fork(T1)|1\nT1|w(V5)|2\nT0|fork(T2)|3\nT0|join(T2)|4\n");
    let said = run(["order".as_ref(), text.as_os_str(), "1".as_ref(), "5".as_ref()]);
    assert_eq!((said.status, first_line(&said)), (1, "no"));
    let missing =
        "The two sides do not meet: task 1 has halted, but is not joined when event 5 runs.";
    assert!(said.out.contains(missing), "{}", said.out);
}

#[test]
fn a_question_about_a_bad_file_is_refused() {
    let ([_, _, refused, missing], _folder) = files();
    let line = file("T0|r(V5)|1\nT0\n");
    let ask =
        |path: &PathBuf| run(["order".as_ref(), path.as_os_str(), "0".as_ref(), "0".as_ref()]);
    assert_eq!((ask(&refused).status, first_line(&ask(&refused))), (2, "refused 7 0"));
    assert_eq!((ask(&line).status, first_line(&ask(&line))), (2, "refused 14 1"));
    let said = ask(&missing);
    assert_eq!((said.status, said.out.as_str(), said.err), (3, "", run([&missing]).err));
}

#[test]
fn a_picture_is_drawn_where_there_is_a_trace() {
    let ([clean, race, refused, missing], _folder) = files();
    let drawn = folder();
    let picture = drawn.join("picture.svg");
    let draw = |path: &PathBuf, options: &[&str]| {
        _ = fs::remove_file(&picture);
        let file = [path.to_str().unwrap()];
        let svg = ["--svg", picture.to_str().unwrap()];
        run(svg.iter().chain(options).chain(&file))
    };
    for (path, status) in [(&clean, 0), (&race, 1), (&refused, 2)] {
        let said = draw(path, &[]);
        assert_eq!((said.status, said.err.as_str()), (status, ""));
        assert!(said.out.starts_with(&run([path]).out));
        assert!(said.out.ends_with(&format!("\nThe picture is in {}.\n", picture.display())));
        assert!(fs::read_to_string(&picture).unwrap().contains("<svg"));
    }
    let said = draw(&race, &["--json"]);
    assert!(said.out.contains(&format!("\"picture\":\"{}\"", picture.display())), "{}", said.out);
    let text = file("no trace\n");
    let said = draw(&text, &[]);
    assert_eq!((said.status, fs::exists(&picture).unwrap()), (2, false));
    assert!(said.out.ends_with("\nThere is no picture: the file makes no trace.\n"));
    assert!(draw(&text, &["--json"]).out.contains("\"picture\":null"));
    assert_eq!((draw(&missing, &[]).status, fs::exists(&picture).unwrap()), (3, false));
}

#[test]
fn a_picture_is_written_over_nothing_but_a_picture() {
    let ([clean, race, ..], _folder) = files();
    let (clean, race) = (clean.to_str().unwrap(), race.to_str().unwrap());
    let held = fs::read(race).unwrap();
    let told = format!("--svg would write over {race}, which is there and is no picture");
    wrong_usage(&["--svg", race, clean], &told);
    assert_eq!(fs::read(race).unwrap(), held);
    for older in ["", "<?xml version=\"1.0\"?><svg/>", "<svg/>"] {
        let picture = file(older);
        assert_eq!(run(["--svg", picture.to_str().unwrap(), clean]).status, 0, "{older:?}");
        assert!(fs::read_to_string(&*picture).unwrap().contains("clean 1"), "{older:?}");
    }
}

#[test]
fn a_picture_that_cannot_be_written_is_told() {
    let ([clean, ..], _folder) = files();
    for (place, why) in [("/dev/full", "No space left on device"), ("/", "Is a directory")] {
        let said = run(["--svg".as_ref(), place.as_ref(), clean.as_os_str()]);
        assert_eq!((said.status, first_line(&said)), (3, "clean 1"));
        assert_eq!(said.err, format!("judge: {place} cannot be written: {why}\n"));
        let said = run(["--json".as_ref(), "--svg".as_ref(), place.as_ref(), clean.as_os_str()]);
        assert_eq!(said.status, 3);
        assert!(said.out.contains(&format!("\"error\":\"{place} cannot be written: {why}\"")));
    }
}
