//! Halts that name the task that resumes, and the conversion of traces that were stored before they
//! did: runs with what is said of them and what becomes of them, nests, sizes. Each way to get row 12
//! wrong must show in them, and each way to get the conversion wrong.

use crate::compare::{known, Test};
use crate::document::trace;
use crate::tally::fail;
use racejudge_bench::ancestors::{conflict, Ancestors};
use racejudge_bench::builder::Builder;
use racejudge_bench::convert::{convert, operands, operands_by, resumed, Way, WAY};
use racejudge_bench::joins::links;
use racejudge_bench::line::{names_nothing, names_resumed, Halts};
use racejudge_bench::trace::Answer::{Clean, Race, Refused};
use racejudge_bench::trace::*;

/// What a wrong halt may name, of the active tasks or by its number: row 12 must have met each.
pub const MISNAMED: [(&str, Halts); 7] = [
    ("0", |_, operand| operand == 0),
    ("the task that halts", |active, operand| active.last() == Some(&operand)),
    ("a paused task further down", |active, operand| {
        operand != 0 && active.iter().rev().skip(2).any(|&task| task == operand)
    }),
    ("a number next to the right one", |active, operand| operand.abs_diff(resumed(active)) == 1),
    ("1,024 more", |active, operand| operand == resumed(active) + TASKS as u16),
    ("any other above 1,023", |active, operand| {
        operand != u16::MAX && operand != resumed(active) + TASKS as u16 && operand >= TASKS as u16
    }),
    ("65,535", |_, operand| operand == u16::MAX),
];

/// Runs, and what is said of them.
const RUNS: [(&str, Answer); 36] = [
    ("0 halt", Clean),
    ("0 halt 1", Refused(12, 0)),
    ("0 halt 1024", Refused(12, 0)),
    ("0 halt 65535", Refused(12, 0)),
    ("0 fork 1, 1 halt, 0 halt", Clean),
    ("0 fork 1, 1 halt 1", Refused(12, 1)),
    ("0 fork 1, 1 halt 1024", Refused(12, 1)),
    ("0 fork 1, 1 halt 65535", Refused(12, 1)),
    ("0 fork 1, 1 halt, 0 halt 1", Refused(12, 2)),
    ("0 fork 1, 1 fork 2, 2 halt 1, 1 halt, 0 halt", Clean),
    ("0 fork 1, 1 fork 2, 2 halt", Refused(12, 2)),
    ("0 fork 1, 1 fork 2, 2 halt 2", Refused(12, 2)),
    ("0 fork 1, 1 fork 2, 2 halt 3", Refused(12, 2)),
    ("0 fork 1, 1 fork 2, 2 halt 1025", Refused(12, 2)),
    ("0 fork 1, 1 fork 2, 2 halt 1, 1 halt 1", Refused(12, 3)),
    // A nest of three, of which each halt is told wrong.
    ("0 fork 1, 1 fork 2, 2 fork 3, 3 halt 2, 2 halt 1, 1 halt, 0 halt", Clean),
    ("0 fork 1, 1 fork 2, 2 fork 3, 3 halt, 2 halt 1, 1 halt, 0 halt", Refused(12, 3)),
    ("0 fork 1, 1 fork 2, 2 fork 3, 3 halt 1, 2 halt 1, 1 halt, 0 halt", Refused(12, 3)),
    ("0 fork 1, 1 fork 2, 2 fork 3, 3 halt 3, 2 halt 1, 1 halt, 0 halt", Refused(12, 3)),
    ("0 fork 1, 1 fork 2, 2 fork 3, 3 halt 1026, 2 halt 1, 1 halt, 0 halt", Refused(12, 3)),
    ("0 fork 1, 1 fork 2, 2 fork 3, 3 halt 2, 2 halt, 1 halt, 0 halt", Refused(12, 4)),
    ("0 fork 1, 1 fork 2, 2 fork 3, 3 halt 2, 2 halt 1, 1 halt 1, 0 halt", Refused(12, 5)),
    ("0 fork 1, 1 fork 2, 2 fork 3, 3 halt 2, 2 halt 1, 1 halt, 0 halt 1", Refused(12, 6)),
    // The numbers fall.
    ("0 fork 1023, 1023 fork 7, 7 fork 3, 3 halt 7, 7 halt 1023, 1023 halt, 0 halt", Clean),
    ("0 fork 1023, 1023 fork 7, 7 fork 3, 3 halt 1023", Refused(12, 3)),
    ("0 fork 1023, 1023 fork 7, 7 fork 3, 3 halt", Refused(12, 3)),
    ("0 fork 9, 9 fork 8, 8 fork 7, 7 fork 6, 6 halt 9", Refused(12, 4)),
    ("0 fork 9, 9 fork 8, 8 fork 7, 7 fork 6, 6 halt 8", Refused(12, 4)),
    // Neither the task at the left resumes nor the one that forked last.
    ("0 fork 1, 1 fork 2, 2 halt 1, 1 fork 3, 3 halt 2", Refused(12, 4)),
    ("0 fork 1023, 1023 fork 2, 2 halt 1023, 1023 fork 1, 1 halt 1023, 1023 halt", Clean),
    ("0 fork 1, 1 fork 2, 2 fork 3, 3 halt 2, 2 halt 2", Refused(12, 4)),
    ("0 fork 1, 1 fork 2, 2 halt 1, 1 fork 3, 3 join 2, 3 halt 1, 1 join 3, 1 halt", Clean),
    // Races are found and rows asked in their order, whatever a halt names.
    ("0 fork 1, 1 fork 2, 2 write 5, 2 halt 1, 1 write 5, 1 halt 9", Race(2, 4)),
    ("0 fork 1, 1 fork 2, 1 halt 9", Refused(7, 2)),
    ("0 halt, 0 halt 9", Refused(6, 1)),
    ("0 fork 1, 1 fork 2, 2 6 9", Refused(5, 2)),
];

/// Stored runs, and what becomes of them.
const CONVERTED: [(&str, &str); 11] = [
    ("", ""),
    ("0 halt", "0 halt"),
    ("0 fork 1, 1 halt, 0 halt", "0 fork 1, 1 halt, 0 halt"),
    (
        "0 fork 7, 7 fork 3, 3 fork 9, 9 halt, 3 halt, 7 halt, 0 halt",
        "0 fork 7, 7 fork 3, 3 fork 9, 9 halt 3, 3 halt 7, 7 halt, 0 halt",
    ),
    // Joins stay as they are.
    (
        "0 fork 1, 1 fork 2, 2 halt, 1 fork 3, 3 join 2, 3 halt, 1 join 3, 1 halt, 0 join 1",
        "0 fork 1, 1 fork 2, 2 halt 1, 1 fork 3, 3 join 2, 3 halt 1, 1 join 3, 1 halt, 0 join 1",
    ),
    // A race stops nothing.
    (
        "0 fork 1, 1 fork 2, 2 write 5, 2 halt, 1 write 5, 1 fork 3, 3 halt",
        "0 fork 1, 1 fork 2, 2 write 5, 2 halt 1, 1 write 5, 1 fork 3, 3 halt 1",
    ),
    // A later event that breaks a rule does.
    (
        "0 fork 1, 1 fork 2, 2 sum 5, 2 halt, 1 read 5, 1 fork 3, 3 halt, 1 fork 1, 1 fork 4, 4 halt",
        "0 fork 1, 1 fork 2, 2 sum 5, 2 halt 1, 1 read 5, 1 fork 3, 3 halt 1, 1 fork 1, 1 fork 4, \
         4 halt",
    ),
    // A halt that names something is such an event, though it be the task that resumes.
    (
        "0 fork 1, 1 fork 2, 2 halt, 1 fork 3, 3 halt 1, 1 fork 4, 4 halt",
        "0 fork 1, 1 fork 2, 2 halt 1, 1 fork 3, 3 halt 1, 1 fork 4, 4 halt",
    ),
    ("0 fork 1, 1 fork 2, 2 halt 9", "0 fork 1, 1 fork 2, 2 halt 9"),
    // Of a task that does not run.
    ("0 fork 1, 1 fork 2, 1 halt, 2 halt", "0 fork 1, 1 fork 2, 1 halt, 2 halt"),
    ("0 halt, 0 fork 1, 1 fork 2, 2 halt", "0 halt, 0 fork 1, 1 fork 2, 2 halt"),
];

/// A stored run, what the judge with row 12 as it was says of it, with the links, and its operands once
/// it is converted.
const VERDICTS: [(&str, Answer, usize, &[u16]); 16] = [
    ("", Clean, 0, &[]),
    // A nest, and once more when it is converted.
    (
        "0 fork 9, 9 fork 7, 7 fork 3, 3 halt, 7 halt, 9 halt, 0 halt",
        Clean,
        0,
        &[9, 7, 3, 7, 9, 0, 0],
    ),
    (
        "0 fork 9, 9 fork 7, 7 fork 3, 3 halt 7, 7 halt 9, 9 halt, 0 halt",
        Refused(12, 3),
        0,
        &[9, 7, 3, 7, 9, 0, 0],
    ),
    // Joins and accesses in a nest.
    (
        "0 fork 1, 1 fork 2, 2 write 5, 2 halt, 1 fork 3, 3 join 2, 3 read 5, 3 halt, 1 join 3, \
         1 halt, 0 join 1",
        Clean,
        1,
        &[1, 2, 5, 1, 3, 2, 5, 1, 3, 0, 1],
    ),
    // A race stops nothing, but an event behind it does.
    (
        "0 fork 1, 1 fork 2, 2 sum 5, 2 halt, 1 read 5, 1 fork 3, 3 halt, 1 write 1024, 1 fork 4, \
         4 halt",
        Race(2, 4),
        0,
        &[1, 2, 5, 1, 5, 3, 1, 1_024, 4, 0],
    ),
    // Rows 5, 10 and 11.
    ("0 fork 1, 1 fork 2, 2 halt, 1 6 0, 1 fork 3, 3 halt", Refused(5, 3), 0, &[1, 2, 1, 0, 3, 0]),
    ("0 fork 1, 1 fork 2, 2 halt, 1 fork 2, 2 halt", Refused(10, 3), 0, &[1, 2, 1, 2, 0]),
    (
        "0 fork 1, 1 fork 2, 2 halt, 1 join 1, 1 fork 3, 3 halt",
        Refused(11, 3),
        0,
        &[1, 2, 1, 1, 3, 0],
    ),
    // A halt after the end; of a task that is paused, has halted, was never forked.
    ("0 fork 1, 1 fork 2, 2 halt, 1 halt, 0 halt, 2 halt", Refused(6, 5), 0, &[1, 2, 1, 0, 0, 0]),
    ("0 fork 1, 1 fork 2, 2 fork 3, 2 halt, 3 halt", Refused(7, 3), 0, &[1, 2, 3, 0, 0]),
    ("0 fork 1, 1 fork 2, 2 halt, 2 halt", Refused(7, 3), 0, &[1, 2, 1, 0]),
    ("0 fork 1, 1 fork 2, 3 halt, 2 halt", Refused(7, 2), 0, &[1, 2, 0, 0]),
    // One that names the task that resumes, another, itself.
    ("0 fork 1, 1 fork 2, 2 halt 1, 1 fork 3, 3 halt", Refused(12, 2), 0, &[1, 2, 1, 3, 0]),
    ("0 fork 1, 1 fork 2, 2 halt 3, 1 fork 3, 3 halt", Refused(12, 2), 0, &[1, 2, 3, 3, 0]),
    ("0 fork 1, 1 fork 2, 2 halt 2", Refused(12, 2), 0, &[1, 2, 2]),
    ("0 halt 1", Refused(12, 0), 0, &[1]),
];

/// What breaks each row behind a halt, where task 3 runs in a nest of four and task 4 has halted.
const BREAKS: [&str; 19] = [
    "3 6 0",
    "4 halt",
    "2 halt",
    "0 halt",
    "9 halt",
    "65535 halt",
    "2 read 1",
    "3 read 1024",
    "3 write 65535",
    "3 sum 1024",
    "3 fork 1024, 1024 halt",
    "3 fork 0, 0 halt",
    "3 fork 4, 4 halt",
    "3 join 2",
    "3 join 1024",
    "3 halt 2",
    "3 halt 3",
    "3 halt 1",
    "3 halt 65535",
];

/// A stored trace, and its operands once it is converted.
type Known = (Trace, Vec<u16>);

pub fn all(test: &mut Test) {
    for (run, said) in RUNS {
        known(test.both(&trace(run), 2), said, run);
    }
    let mut before = Ancestors::by(conflict, names_nothing);
    for (run, said, number, _) in VERDICTS {
        known(before.answer(&trace(run)), said, run);
        known(links(&trace(run), said), number, run);
    }
    for (trace, after) in &stored() {
        known(&operands(trace), after, trace);
        known(&test.conversions.whole(trace).operands, after, trace);
    }
    misnamed_at_depths(test);
    sizes(test);
}

fn stored() -> Vec<Known> {
    let told = CONVERTED.map(|(run, after)| (trace(run), trace(after).operands));
    let verdicts = VERDICTS.map(|(run, .., after)| (trace(run), after.to_vec()));
    let told = told.into_iter().chain(verdicts);
    told.chain(BREAKS.map(broken)).chain([deep(), deep_race()]).collect()
}

/// Behind what breaks a rule three halts more, which would be right if it were not there.
fn broken(event: &str) -> Known {
    let before = "0 fork 1, 1 fork 2, 2 fork 3, 3 fork 4";
    let behind = format!("{event}, 3 halt, 2 halt, 1 halt");
    let after = trace(&format!("{before}, 4 halt 3, {behind}"));
    (trace(&format!("{before}, 4 halt, {behind}")), after.operands)
}

/// As deep as there are tasks, each number one more than that of the task below, and back.
fn deep() -> Known {
    let forks = (0..TASKS as u16 - 1).map(|task| (task, FORK, task + 1));
    let halts = |operand: fn(u16) -> u16| {
        (0..TASKS as u16).rev().map(move |task| (task, HALT, operand(task)))
    };
    let [stored, after] = [halts(|_| 0), halts(|task| task.saturating_sub(1))]
        .map(|halts| Trace::of(&forks.clone().chain(halts).collect::<Vec<Event>>()));
    (stored, after.operands)
}

/// The same with a race of the innermost task and task 0, which does not halt.
fn deep_race() -> Known {
    let (mut trace, mut after) = deep();
    trace.insert(TASKS - 1, (TASKS as u16 - 1, WRITE, 6));
    after.insert(TASKS - 1, 6);
    let last = trace.len() - 1;
    (trace.kinds[last], trace.operands[last], after[last]) = (READ, 6, 6);
    known(Ancestors::by(conflict, names_nothing).answer(&trace), Race(1_023, 2_047), &trace);
    (trace, after)
}

/// In nests of some depths the innermost halt names active tasks, and numbers that are like the right
/// one.
fn misnamed_at_depths(test: &mut Test) {
    for depth in [1, 2, 3, 4, 17, 300, TASKS] {
        let mut b = Builder::shuffled(&mut test.rng);
        while b.depth() < depth {
            b.fork();
        }
        b.halt();
        let (trace, p) = (b.trace, depth - 1);
        let right = trace.operands[p];
        let active = [0].into_iter().chain((0..p).map(|p| trace.operands[p]));
        let some = active.step_by(1 + depth / 20).chain([right, trace.tasks[p], right ^ 1, 1_023]);
        for operand in some.chain([right + 1_024, u16::MAX]) {
            let mut named = trace.clone();
            named.operands[p] = operand;
            let said = if operand == right { Clean } else { Refused(12, p) };
            known(test.both(&named, 1), said, &named);
        }
    }
}

/// A stored trace of so many events that has halts to convert.
fn sized(n: usize) -> Trace {
    let nest = [(0, FORK, 1), (1, FORK, 2), (2, HALT, 0)];
    let events = nest.into_iter().chain(std::iter::repeat((1, READ, 3)));
    Trace::of(&events.take(n).collect::<Vec<Event>>())
}

/// Rows 1 to 3, which leave all as it is, and the lengths just beside them.
fn sizes(test: &mut Test) {
    const OVER: usize = MAX_EVENTS + 1;
    let mut held = |trace: &Trace, workspace: usize, said: Conversion| {
        known(convert(trace, workspace).said, said, format_args!("{workspace} cells"));
        let converted = test.conversions.convert_with(trace, workspace);
        known(converted != *trace, said == Conversion::Done && trace.len() > 2, trace);
    };
    for n in [0, 1, 2, 3, 100, MAX_EVENTS - 1, MAX_EVENTS] {
        let (trace, need) = (sized(n), WORKSPACE + n);
        for workspace in [0, 1, 1_024, WORKSPACE - 1, need - 1, need, need + 1, need + 999] {
            let refused = Conversion::Refused(3);
            held(&trace, workspace, if workspace < need { refused } else { Conversion::Done });
        }
    }
    for workspace in [0, WORKSPACE + MAX_EVENTS, WORKSPACE + OVER] {
        held(&sized(OVER), workspace, Conversion::Refused(2));
    }
    for n in [0, 3, 9, MAX_EVENTS, OVER] {
        for slice in 0..3 {
            for other in [0, n.saturating_sub(1), n + 1, 2 * n + 7].into_iter().filter(|&m| m != n)
            {
                let mut trace = sized(n);
                match slice {
                    0 => trace.kinds.resize(other, READ),
                    1 => trace.tasks.resize(other, 1),
                    _ => trace.operands.resize(other, 3),
                }
                for workspace in [0, WORKSPACE + OVER] {
                    held(&trace, workspace, Conversion::Refused(1));
                }
            }
        }
    }
}

/// Wrong rules for what a halt may name.
const RULES: [(&str, Halts); 11] = [
    ("0", names_nothing),
    ("the bottom of the stack", |active, operand| operand == active[0]),
    ("the second of the stack, from the bottom", |active, operand| {
        operand == active.get(1).copied().unwrap_or(0)
    }),
    ("the task that halts", |active, operand| active.last() == Some(&operand)),
    ("the parent of the task that resumes", |active, operand| {
        operand == active.iter().rev().nth(2).copied().unwrap_or(0)
    }),
    ("any paused task", |active, operand| {
        names_resumed(active, operand) || active.iter().rev().skip(1).any(|&task| task == operand)
    }),
    ("that task, or 0", |active, operand| names_resumed(active, operand) || operand == 0),
    ("that task, or itself", |active, operand| {
        names_resumed(active, operand) || active.last() == Some(&operand)
    }),
    ("that task, or 1,024 more", |active, operand| names_resumed(active, operand % TASKS as u16)),
    ("anything where task 0 halts", |active, operand| {
        active.len() == 1 || names_resumed(active, operand)
    }),
    ("anything", |_, _| true),
];

/// How many wrong rules were noticed. One that is not ends the test.
pub fn wrong_rules() -> usize {
    for (name, halts) in RULES {
        let mut judge = Ancestors::by(conflict, halts);
        if RUNS.iter().all(|&(run, said)| judge.answer(&trace(run)) == said) {
            fail(&format!("NOT NOTICED: a judge for whom a halt names {name}"));
        }
    }
    RULES.len()
}

/// Wrong ways to bring a trace over.
const WAYS: [(&str, Way); 10] = [
    ("a halt names the bottom of the stack", Way { named: |active| active[0], ..WAY }),
    (
        "a halt names the second of the stack, from the bottom",
        Way { named: |active| active.get(1).copied().unwrap_or(0), ..WAY },
    ),
    ("a halt names its own task", Way { named: |active| active[active.len() - 1], ..WAY }),
    (
        "a halt names the parent of the task that resumes",
        Way { named: |active| resumed(&active[..active.len() - 1]), ..WAY },
    ),
    ("a join is set too", Way { sets: &[HALT, JOIN], ..WAY }),
    ("a write is set too", Way { sets: &[HALT, WRITE], ..WAY }),
    ("the event that breaks a rule is set too", Way { breaking: true, ..WAY }),
    ("halts behind it are set", Way { behind: true, ..WAY }),
    ("all halts are set", Way { breaking: true, behind: true, ..WAY }),
    ("row 12 is asked as it is now", Way { halts: names_resumed, ..WAY }),
];

/// A conversion.
type Convert = fn(&Trace) -> Vec<u16>;

/// Other wrong conversions.
const CONVERSIONS: [(&str, Convert); 4] = [
    ("a race stops it", |trace| match Ancestors::by(conflict, names_nothing).answer(trace) {
        Race(_, t) => up_to(trace, t + 1),
        _ => operands(trace),
    }),
    ("the last event is left out", |trace| up_to(trace, trace.len().saturating_sub(1))),
    ("a trace that breaks a rule is left alone", |trace| {
        let mut judge = Ancestors::by(|_, _| false, names_nothing);
        match judge.answer(trace) {
            Refused(..) => trace.operands.clone(),
            _ => operands(trace),
        }
    }),
    ("nothing is set", |trace| trace.operands.clone()),
];

/// The conversion of the first n events alone.
fn up_to(trace: &Trace, n: usize) -> Vec<u16> {
    let mut begun = trace.clone();
    begun.truncate(n);
    [&operands(&begun), &trace.operands[n..]].concat()
}

/// How many wrong conversions were noticed. One that is not ends the test.
pub fn wrong_conversions() -> usize {
    let traces = &stored();
    let unasked =
        (5..=12).map(|row| (format!("row {row} is not asked"), Way { unasked: Some(row), ..WAY }));
    let ways = WAYS.into_iter().map(|(name, way)| (name.to_string(), way)).chain(unasked);
    let mut count = 0;
    for (name, way) in ways {
        noticed(&name, traces, |trace| operands_by(&way, trace));
        count += 1;
    }
    for (name, convert) in CONVERSIONS {
        noticed(name, traces, convert);
        count += 1;
    }
    count
}

fn noticed(name: &str, traces: &[Known], convert: impl Fn(&Trace) -> Vec<u16>) {
    if traces.iter().all(|(trace, after)| convert(trace) == *after) {
        fail(&format!("NOT NOTICED: a conversion by which {name}"));
    }
}
