//! Compares the linked judges with the all-ancestors judge, on document 01's runs, on every short
//! trace, at the limits, on chains of joins, on counters, on nests, on long traces and on random ones,
//! whole and damaged; on the same traces the lists of close pairs and the conversions with slow ones;
//! the library's translation of texts with the slow judge's own; and the plan readers with a slow one
//! and with what plans mean. Wrong expectations, rules and calls are planted, and each must be noticed.
//! The first difference is printed with its trace or text and ends the test with status 1. The last line
//! is `N passed, M failed`. `--seed N` draws others, `--times N` draws more.

mod buffer;
mod chains;
mod compare;
mod conversions;
mod document;
mod exchanged;
mod halts;
mod lengths;
mod limits;
mod meaning;
mod pairs;
mod plans;
mod plants;
mod reach;
mod reading;
mod recipes;
mod sums;
mod tally;
mod texts;
mod watch;

use compare::{known, Test};
use plans::PLANS;
use racejudge_bench::ffi;
use racejudge_bench::line::{names_resumed, Line};
use racejudge_bench::pairs::pairs;
use racejudge_bench::program::print;
use racejudge_bench::samples;
use racejudge_bench::trace::*;
use racejudge_bench::words;
use racejudge_bench::workloads::{Make, RACING, WORKLOADS};
use reading::Reading;
use tally::{fail, noticed, part};
use texts::TEXTS;

/// Every trace of up to `more` further events over two locations, of which the first to be touched is
/// 0, and each way to break a rule in the event after.
fn every_short(test: &mut Test, trace: &Trace, forked: u16, more: usize) {
    test.both(trace, 1);
    for task in 0..=forked + 1 {
        for (kind, operand) in short_events(trace, forked) {
            let mut line = Line::start(names_resumed);
            for p in 0..trace.len() {
                let (task, kind, operand) = trace.event(p);
                line.step(task, kind, operand).expect("only traces that keep the rules go on");
            }
            match line.step(task, kind, operand) {
                Ok(()) if more > 0 => {
                    let mut longer = trace.clone();
                    longer.push(task, kind, operand);
                    every_short(test, &longer, forked + u16::from(kind == FORK), more - 1);
                }
                Ok(()) => {}
                // A wrong actor is a wrong actor whatever it does; but it must not be taken to halt.
                Err(7) if !matches!((kind, operand), (READ | HALT, 0)) => {}
                Err(_) => broken(test, trace, (task, kind, operand), forked),
            }
        }
    }
}

/// An event that breaks a rule behind a trace that keeps them; and the same as it was stored, with
/// halts behind that event, which stay as they are where it broke a rule then too.
fn broken(test: &mut Test, trace: &Trace, event: Event, forked: u16) {
    let [mut longer, mut stored] = [trace.clone(), trace.stored()];
    longer.insert(trace.len(), event);
    test.judge(&longer);
    stored.insert(trace.len(), event);
    (0..=forked).rev().for_each(|task| stored.push(task, HALT, 0));
    test.conversions.whole(&stored);
}

fn short_events(trace: &Trace, forked: u16) -> Vec<(u8, u16)> {
    let mut events: Vec<(u8, u16)> = ACCESSES.iter().map(|&kind| (kind, 0)).collect();
    if trace.kinds.iter().any(|&kind| is_access(kind)) {
        events.extend(ACCESSES.iter().map(|&kind| (kind, 1)));
    }
    events.extend([(READ, 1_024), (SUM, 1_024)]);
    events.extend([(FORK, forked + 1), (FORK, forked), (FORK, 1_024)]);
    events.extend((0..=forked + 1).flat_map(|task| [(JOIN, task), (HALT, task)]));
    events.extend([(HALT, u16::MAX), (NO_KIND, 0)]);
    events
}

/// The workloads of the benchmark, whole and damaged, and long random traces.
fn long_traces(test: &mut Test) {
    for n in [1_024, 2_048, 8_192, MAX_EVENTS] {
        for workload in &WORKLOADS {
            let (trace, said) = whole_and_damaged(test, workload.make, n);
            known(said, (workload.expected)(n), format_args!("{}: {trace}", workload.name));
        }
        for racing in &RACING {
            let (trace, _) = whole_and_damaged(test, racing.make, n);
            let pairs = pairs(&mut test.slow, &trace).map(|pairs| pairs.len());
            let counted = pairs.is_ok_and(|pairs| (racing.pairs)(n).contains(&pairs));
            known(counted, true, format_args!("{}, {pairs:?} pairs: {trace}", racing.name));
        }
    }
    for care in [100, 100, 100, 97] {
        // As much below the limit as the halts at the end may need.
        let trace = samples::valid(&mut test.rng, MAX_EVENTS - TASKS, care);
        test.both(&trace, 2);
    }
}

/// A workload, and what is said of it.
fn whole_and_damaged(test: &mut Test, make: Make, n: usize) -> (Trace, Answer) {
    let trace = make(n, &mut test.rng);
    let said = test.both(&trace, 3);
    let damaged = samples::damage(&mut test.rng, &trace);
    test.both(&damaged, 1);
    (trace, said)
}

fn random_traces(test: &mut Test, times: usize) {
    for (count, length, pairs) in
        [(20_000, 12, 3), (6_000, 60, 4), (1_500, 600, 4), (150, 4_000, 4)]
    {
        for i in 0..count * times {
            let n = test.rng.below(length + 1);
            let care = [0, 0, 90, 100][i % 4];
            let trace = samples::valid(&mut test.rng, n, care);
            test.both(&trace, pairs);
            let damaged = samples::damage(&mut test.rng, &trace);
            test.both(&damaged, 1);
        }
    }
    for _ in 0..20_000 * times {
        let n = test.rng.below(8);
        let trace = samples::noise(&mut test.rng, n);
        test.both(&trace, 1);
    }
}

fn main() {
    let words::Test { seed, times } = words::test(words::given());
    print(&format!("judge: {}\n", ffi::LINKED));
    tally::start();
    watch::start();
    let (mut test, mut reach) = (Test::new(seed as u64), reach::Met::default());
    let [mut texts, mut plans] = [&TEXTS, &PLANS].map(|form| Reading::new(form, seed as u64));
    part("runs of document 01, and sums", || document::runs(&mut test));
    part("plans told by hand", || plans::runs(&mut plans));
    part("plans told by recipes", || recipes::all(&mut plans));
    noticed("wrong cells", plants::cells);
    noticed("wrong numbers", plants::numbers);
    noticed("wrong expectations", plants::all);
    noticed("wrong cards", document::wrong_cards);
    noticed("exchanged parameters", exchanged::all);
    part("the slow judge on texts", document::texts);
    part("every short trace", || every_short(&mut test, &Trace::default(), 0, 5));
    part("limits", || limits::all(&mut test));
    part("lengths of slices told by hand", || lengths::all(&mut test));
    part("chains of joins", || chains::all(&mut test));
    noticed("wrong tables of joins", chains::wrong_tables);
    part("sums", || sums::all(&mut test));
    noticed("wrong judges of sums", sums::wrong_judges);
    part("halts and stored traces", || halts::all(&mut test));
    noticed("wrong rules for halts", halts::wrong_rules);
    noticed("wrong conversions", halts::wrong_conversions);
    let lists = pairs::lists(&mut test);
    part("close pairs", || pairs::all(&mut test, &lists));
    noticed("wrong lists of pairs", || pairs::wrong_lists(&lists));
    part("long traces", || long_traces(&mut test));
    part("traces at random", || random_traces(&mut test, times));
    noticed("wrong traces of plans", || reach::wrong_traces(&mut test));
    noticed("wrong rules for leaves", || reach::wrong_rules(&mut test));
    noticed("wrong races of leaves", || reach::wrong_races(&mut test));
    part("what plans mean", || reach.all(&mut test, &mut plans, times));
    part("texts", || texts::all(&mut texts, times));
    part("every word over few letters", || plans::every_word(&mut plans));
    part("plans", || plans::all(&mut plans, times));
    part("every answer, row and limit met", || {
        print(&test.table());
        print(&test.conversions.table());
        print(&texts.table());
        print(&plans.table());
        print(&reach.line());
        let missing = test.missing().or(texts.missing()).or(plans.missing());
        if let Some(missing) = missing.or(reach.missing()) {
            fail(&format!("MISSING: never met: {missing}"));
        }
        print(&test.closing_line(texts.calls(), plans.calls()));
    });
    tally::end()
}
