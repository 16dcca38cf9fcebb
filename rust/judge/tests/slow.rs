//! What the command says against the slow judge, which stores all ancestors of all events, and
//! against a plain count: on random texts and traces, in this process and through the command
//! itself.

mod common;

use common::cards::{busiest_first, counted, hold, listed};
use common::json::Json;
use common::{file, proved, run};
use judge::recording::Recording;
use judge::study::{Question, Study};
use judge::{explain, objects};
use racejudge_bench::ancestors::Ancestors;
use racejudge_bench::rng::Rng;
use racejudge_bench::trace::{Answer, Ordering, FORK, JOIN, MAX_EVENTS, READ, WORKSPACE, WRITE};
use racejudge_bench::workloads::WORKLOADS;
use racejudge_bench::{samples, text, trace as slow};
use std::collections::BTreeMap;

/// A trace that keeps the rules, one that is damaged, or noise.
fn trace(rng: &mut Rng, events: usize) -> slow::Trace {
    let n = 1 + rng.below(events);
    let care = rng.one_of(&[0, 50, 100]);
    match rng.below(4) {
        0 => samples::noise(rng, n),
        1 => {
            let whole = samples::valid(rng, n, care);
            samples::damage(rng, &whole)
        }
        _ => samples::valid(rng, n, care),
    }
}

/// The lines of a trace's events. Halts have none.
fn lines(rng: &mut Rng, trace: &slow::Trace) -> String {
    let mut text = String::new();
    for p in 0..trace.len() {
        let (task, kind, operand) = trace.event(p);
        let source = rng.cell(65_536);
        text += &match kind {
            READ => format!("T{task}|r(V{operand})|{source}\n"),
            WRITE => format!("T{task}|w(V{operand})|{source}\n"),
            FORK => format!("T{task}|fork(T{operand})|{source}\n"),
            JOIN => format!("T{task}|join(T{operand})|{source}\n"),
            _ => continue,
        };
    }
    text
}

/// Changes a byte, puts one in, takes one out, or cuts the text off.
fn change(rng: &mut Rng, text: &mut Vec<u8>) {
    let bytes = b"T0159|rwforkjoin(V)\n\r \0\xff";
    let byte = bytes[rng.below(bytes.len())];
    let at = rng.below(text.len());
    match rng.below(4) {
        0 => text[at] = byte,
        1 => text.insert(at, byte),
        2 => _ = text.remove(at),
        _ => text.truncate(at),
    }
}

fn random_text(rng: &mut Rng) -> Vec<u8> {
    let events = if rng.chance(1, 50) { 5_000 } else { 60 };
    let trace = trace(rng, events);
    let mut text = lines(rng, &trace).into_bytes();
    if !text.is_empty() && rng.chance(1, 5) {
        change(rng, &mut text);
    }
    // A 0 byte at the start would make it a binary file.
    text.iter_mut().take(4).filter(|byte| **byte == 0).for_each(|byte| *byte = b'0');
    text
}

/// The answer's line and the orders that stand in words, with no brackets.
fn answer_in(words: &str) -> String {
    let first = words.lines().take(1).map(str::to_string);
    let orders = words.lines().filter(|line| line.contains('['));
    let orders = orders.map(|line| line.trim().replace(['[', ']'], ""));
    let lines: Vec<String> = first.chain(orders).collect();
    lines.join("\n") + "\n"
}

/// The same from an object.
fn answer_of(object: &str) -> String {
    let object = Json::parse(object.trim_end()).expect("it is JSON");
    let mut answer = format!("{}\n", object.field("said").text());
    if object.field("answer").text() == "race" {
        for order in ["first", "second"] {
            let order = object.field(order).numbers();
            answer += &order.iter().map(usize::to_string).collect::<Vec<_>>().join(" ");
            answer.push('\n');
        }
    }
    answer
}

/// The slow judge's whole output for a trace.
fn slow_answer(trace: &slow::Trace) -> String {
    let n = trace.len();
    let outcome = Ancestors::default().judge(trace, WORKSPACE + n, n, n);
    let mut answer = match outcome.said {
        Answer::Clean => format!("clean {n}\n"),
        Answer::Race(s, t) => format!("race {s} {t}\n"),
        Answer::Refused(row, position) => format!("refused {row} {position}\n"),
    };
    for order in outcome.orders.into_iter().flat_map(|(first, second)| [first, second]) {
        answer += &order.iter().map(u16::to_string).collect::<Vec<_>>().join(" ");
        answer.push('\n');
    }
    answer
}

/// Counts answers by their word, refusals by their row.
#[derive(Default)]
struct Met(BTreeMap<String, usize>);

impl Met {
    fn count(&mut self, answer: &str) {
        let mut words = answer.split_whitespace();
        let word = words.next().unwrap_or_default();
        let key = if word == "refused" { words.next().unwrap_or_default() } else { word };
        *self.0.entry(key.to_string()).or_default() += 1;
    }

    #[track_caller]
    fn each(&self, keys: &[&str], least: usize) {
        println!("{:?}", self.0);
        for key in keys {
            let met = self.0.get(*key).copied().unwrap_or_default();
            assert!(met >= least, "{key}: {met} times");
        }
    }
}

/// The words for the bytes of a file, with whole orders.
fn words(bytes: &[u8]) -> String {
    let recording = Recording::of(bytes.to_vec()).expect("it can be judged");
    explain::judged(&Study::new(&recording), true)
}

#[test]
fn texts_are_judged_as_by_the_slow_judge() {
    let mut rng = Rng::new(11);
    let mut met = Met::default();
    for _ in 0..10_000 {
        let bytes = random_text(&mut rng);
        let wanted = text::answer(&bytes);
        assert_eq!(answer_in(&words(&bytes)), wanted, "{}", String::from_utf8_lossy(&bytes));
        met.count(&wanted);
    }
    met.each(&["clean", "race", "7", "8", "9", "10", "11", "14", "15"], 20);
}

#[test]
fn traces_are_judged_as_by_the_slow_judge() {
    let mut rng = Rng::new(12);
    let mut met = Met::default();
    for _ in 0..5_000 {
        let trace = trace(&mut rng, 80);
        let wanted = slow_answer(&trace);
        let bytes = proved(&trace).to_binary().expect("few events");
        assert_eq!(answer_in(&words(&bytes)), wanted, "{trace}");
        met.count(&wanted);
    }
    met.each(&["clean", "race", "5", "6", "7", "10", "11", "12"], 50);
    met.each(&["8", "9"], 5);
}

#[test]
fn questions_are_answered_as_by_the_slow_judge() {
    let mut rng = Rng::new(13);
    let mut met = Met::default();
    for _ in 0..3_000 {
        let trace = trace(&mut rng, 60);
        let n = trace.len();
        let (p, q) = (rng.below(n + 1), rng.below(n + 1));
        let wanted = match Ancestors::default().ordering(&trace, WORKSPACE + n, p, q).said {
            Ordering::Yes => "yes".to_string(),
            Ordering::No => "no".to_string(),
            Ordering::Refused(row, position) => format!("refused {row} {position}"),
        };
        let bytes = proved(&trace).to_binary().expect("few events");
        let recording = Recording::of(bytes).expect("it can be judged");
        let question = Question::new(&recording, p, q);
        assert_eq!(explain::asked(&question).lines().next(), Some(wanted.as_str()), "{trace}");
        // What explains the answer agrees with it.
        let graph = question.scene.as_ref().map(|scene| &scene.graph);
        let has_path = graph.is_some_and(|graph| !graph.path(p, q).is_empty());
        let is_unordered = question.answer == Ok(false) && question.reverse == Ok(false);
        if question.answer.is_ok() {
            assert_eq!(has_path, wanted == "yes", "{p} {q} in {trace}");
            assert_eq!(question.why.is_some(), is_unordered, "{p} {q} in {trace}");
        }
        met.count(&wanted);
    }
    met.each(&["yes", "no", "7", "13"], 20);
}

/// The cards of a recording that the slow judge has answered so: a plain count where it is clean,
/// else nothing but the answer.
fn hold_cards(recording: &Recording, answer: &str) {
    let study = Study::new(recording);
    let is_clean = answer.starts_with("clean ");
    let trace = recording.trace.as_ref().ok().filter(|_| is_clean);
    let rows = trace.map(|trace| counted(trace, recording.text.is_some()));
    for (busiest, rows) in [(false, rows.clone()), (true, rows.map(busiest_first))] {
        let words = explain::counted(&study, busiest);
        let object = objects::counted("-".as_ref(), &study, busiest);
        let object = Json::parse(object.trim_end()).expect("it is JSON");
        assert_eq!(object.names().contains(&"cards"), is_clean, "{words}");
        match rows {
            Some(rows) => {
                hold(&words, &rows);
                assert_eq!(listed(&object), rows, "{words}");
            }
            None => assert_eq!(words, explain::judged(&study, false)),
        }
    }
}

#[test]
fn cards_are_a_plain_count() {
    let mut rng = Rng::new(16);
    let mut met = Met::default();
    for _ in 0..4_000 {
        let (bytes, wanted) = if rng.chance(1, 2) {
            let bytes = random_text(&mut rng);
            let wanted = text::answer(&bytes);
            (bytes, wanted)
        } else {
            let trace = trace(&mut rng, 80);
            (proved(&trace).to_binary().expect("few events"), slow_answer(&trace))
        };
        hold_cards(&Recording::of(bytes).expect("it can be judged"), &wanted);
        met.count(&wanted);
    }
    met.each(&["clean", "race", "7", "14"], 100);
}

#[test]
fn the_command_says_the_same_of_texts() {
    let mut rng = Rng::new(14);
    let mut met = Met::default();
    for _ in 0..300 {
        let bytes = random_text(&mut rng);
        let path = file(&bytes);
        let wanted = text::answer(&bytes);
        let words = run(["--orders".as_ref(), path.as_os_str()]);
        let json = run(["--json".as_ref(), path.as_os_str()]);
        assert_eq!(answer_in(&words.out), wanted);
        assert_eq!(answer_of(&json.out), wanted);
        let status = match wanted.split(' ').next() {
            Some("clean") => 0,
            Some("race") => 1,
            _ => 2,
        };
        assert_eq!((words.status, json.status), (status, status));
        met.count(&wanted);
    }
    met.each(&["clean", "race", "7", "14"], 10);
}

/// The bench's workloads, as long as a trace may be, and random traces of up to that length.
#[test]
fn the_command_says_the_same_of_long_traces() {
    let mut rng = Rng::new(15);
    let mut met = Met::default();
    let workloads: Vec<_> = WORKLOADS.iter().map(|it| (it.make)(MAX_EVENTS, &mut rng)).collect();
    let random = [5_000, 10_000, 20_000, 30_000, 32_000].map(|n| samples::valid(&mut rng, n, 99));
    for trace in workloads.into_iter().chain(random) {
        let wanted = slow_answer(&trace);
        let path = file(proved(&trace).to_binary().expect("few events"));
        let words = run(["--orders".as_ref(), path.as_os_str()]);
        let json = run(["--json".as_ref(), path.as_os_str()]);
        assert_eq!(answer_in(&words.out), wanted);
        assert_eq!(answer_of(&json.out), wanted);
        let cards = run(["cards".as_ref(), path.as_os_str()]);
        match words.status {
            0 => hold(&cards.out, &counted(&proved(&trace), false)),
            _ => assert_eq!(cards, run([&path])),
        }
        met.count(&wanted);
    }
    met.each(&["clean", "race"], 3);
}
