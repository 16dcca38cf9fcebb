//! The table of joins: traces whose links are known by construction, up to the longest chains, with
//! ties and without, at a race and at a refusal. Each way to get the table wrong must show in them.

use crate::compare::{known, needed, Test};
use crate::document::{hold, with_records, Told};
use crate::tally::fail;
use racejudge_bench::builder::Builder;
use racejudge_bench::joins::{links, links_by, Table};
use racejudge_bench::rng::Rng;
use racejudge_bench::trace::*;
use racejudge_bench::workloads::{binomial, join_equals, regrown, PAIRS};

/// A trace, what is said of it and its links.
type Known = (Trace, Answer, usize);

/// What the running task does.
type Shape = fn(&mut Builder);

/// What a join does to a table: the joiner comes first.
type Join = fn(&mut Table, usize, usize);

/// Whether a join hangs the joiner's top, which comes first, under the joined task's.
type Under = fn(&Table, usize, usize) -> bool;

pub fn all(test: &mut Test) {
    TOLD.into_iter().for_each(|run| hold(test, run));
    let workloads = workloads(test);
    for (trace, said, number) in shapes().iter().chain(&races()).chain(&workloads) {
        known(links(trace, *said), *number, format_args!("the links of {trace}"));
        known(test.both(trace, 4), *said, trace);
    }
    races().iter().for_each(|(trace, said, _)| with_records(test, trace, *said));
    random(test);
    refusals(test);
    climbs(test);
}

/// Runs whose links are drawn by hand. A tree stands in parentheses, its top first, then what hangs under
/// that: (0 1 (2 3)) is 0 with 1 and 2 under it, and 3 under 2.
const TOLD: [Told; 14] = [
    // The joiner is in the smaller tree: 0 joins (1 2), which makes (1 2 0).
    ("0 fork 1, 1 fork 2, 2 halt 1, 1 join 2, 1 halt, 0 join 1", Answer::Clean, 1),
    // The joined is no top: 0 joins 1 of (2 3 1), which makes (2 3 1 0).
    (
        "0 fork 1, 1 fork 2, 2 fork 3, 3 halt 2, 2 join 3, 2 halt 1, 1 join 2, 1 halt, 0 join 1",
        Answer::Clean,
        1,
    ),
    // The same in the smaller tree: (0 1 2 3) joins 4 of (5 6 4), which makes (0 1 2 3 (5 6 4)).
    (
        "0 fork 1, 1 halt, 0 join 1, 0 fork 2, 2 halt, 0 join 2, 0 fork 3, 3 halt, 0 join 3, \
         0 fork 4, 4 fork 5, 5 fork 6, 6 halt 5, 5 join 6, 5 halt 4, 4 join 5, 4 halt, 0 join 4",
        Answer::Clean,
        2,
    ),
    // Equal size: (0 1 (2 3)) joins (4 5 6 7), which makes (0 1 (2 3) (4 5 6 7)).
    (
        "0 fork 1, 1 halt, 0 join 1, 0 fork 2, 2 fork 3, 3 halt 2, 2 join 3, 2 halt, 0 join 2, \
         0 fork 4, 4 fork 5, 5 halt 4, 4 join 5, 4 fork 6, 6 halt 4, 4 join 6, \
         4 fork 7, 7 halt 4, 4 join 7, 4 halt, 0 join 4",
        Answer::Clean,
        2,
    ),
    // (0 1 2 3) joins (4 5 (6 7)), which makes (0 1 2 3 (4 5 (6 7))).
    (
        "0 fork 1, 1 halt, 0 join 1, 0 fork 2, 2 halt, 0 join 2, 0 fork 3, 3 halt, 0 join 3, \
         0 fork 4, 4 fork 5, 5 halt 4, 4 join 5, 4 fork 6, 6 fork 7, 7 halt 6, 6 join 7, \
         6 halt 4, 4 join 6, 4 halt, 0 join 4",
        Answer::Clean,
        3,
    ),
    // The joiner's top is another: 0 of (1 2 0 3) joins (4 5 (6 7)): (1 2 0 3 (4 5 (6 7))).
    (
        "0 fork 1, 1 fork 2, 2 halt 1, 1 join 2, 1 halt, 0 join 1, 0 fork 3, 3 halt, 0 join 3, \
         0 fork 4, 4 fork 5, 5 halt 4, 4 join 5, 4 fork 6, 6 fork 7, 7 halt 6, 6 join 7, \
         6 halt 4, 4 join 6, 4 halt, 0 join 4",
        Answer::Clean,
        3,
    ),
    // 0 of (1 2 (3 4) 0) joins (5 6 7 8 9), which makes (1 2 (3 4) 0 (5 6 7 8 9)).
    (
        "0 fork 1, 1 fork 2, 2 halt 1, 1 join 2, 1 fork 3, 3 fork 4, 4 halt 3, 3 join 4, \
         3 halt 1, 1 join 3, 1 halt, 0 join 1, 0 fork 5, 5 fork 6, 6 halt 5, 5 join 6, \
         5 fork 7, 7 halt 5, 5 join 7, 5 fork 8, 8 halt 5, 5 join 8, 5 fork 9, 9 halt 5, \
         5 join 9, 5 halt, 0 join 5",
        Answer::Clean,
        2,
    ),
    // By number of tasks: (0 1 2 3 4) joins (5 6 (7 8)), which makes (0 1 2 3 4 (5 6 (7 8))).
    (
        "0 fork 1, 1 halt, 0 join 1, 0 fork 2, 2 halt, 0 join 2, 0 fork 3, 3 halt, 0 join 3, \
         0 fork 4, 4 halt, 0 join 4, 0 fork 5, 5 fork 6, 6 halt 5, 5 join 6, 5 fork 7, 7 fork 8, \
         8 halt 7, 7 join 8, 7 halt 5, 5 join 7, 5 halt, 0 join 5",
        Answer::Clean,
        3,
    ),
    // (0 1 (2 3)) joins (4 5 6 7 8), which makes (4 5 6 7 8 (0 1 (2 3))).
    (
        "0 fork 1, 1 halt, 0 join 1, 0 fork 2, 2 fork 3, 3 halt 2, 2 join 3, 2 halt, 0 join 2, \
         0 fork 4, 4 fork 5, 5 halt 4, 4 join 5, 4 fork 6, 6 halt 4, 4 join 6, \
         4 fork 7, 7 halt 4, 4 join 7, 4 fork 8, 8 halt 4, 4 join 8, 4 halt, 0 join 4",
        Answer::Clean,
        3,
    ),
    // A search changes no link: (0 1) joins (2 3 4), (5 6 7 8 9 10) and 11; 1, 0, 2, 5 are a chain.
    (
        "0 fork 1, 1 halt, 0 join 1, 0 fork 2, 2 fork 3, 3 halt 2, 2 join 3, 2 fork 4, 4 halt 2, \
         2 join 4, 2 halt, 0 join 2, 0 fork 5, 5 fork 6, 6 halt 5, 5 join 6, 5 fork 7, 7 halt 5, \
         5 join 7, 5 fork 8, 8 halt 5, 5 join 8, 5 fork 9, 9 halt 5, 5 join 9, 5 fork 10, \
         10 halt 5, 5 join 10, 5 halt, 0 join 5, 0 fork 11, 11 halt, 0 join 11",
        Answer::Clean,
        3,
    ),
    // In another tree than the running task's: 2 joins 3, 0 joins nobody.
    ("0 fork 1, 1 halt, 0 fork 2, 2 fork 3, 3 halt 2, 2 join 3, 2 halt", Answer::Clean, 1),
    // A race with an early partner: at t it is (2 3 (4 5) 0). The same with a refusal.
    (
        "0 fork 1, 1 write 5, 1 halt, 0 fork 2, 2 fork 3, 3 halt 2, 2 join 3, 2 fork 4, 4 fork 5, \
         5 halt 4, 4 join 5, 4 halt 2, 2 join 4, 2 halt, 0 join 2, 0 write 5",
        Answer::Race(1, 15),
        2,
    ),
    (
        "0 fork 1, 1 write 5, 1 halt, 0 fork 2, 2 fork 3, 3 halt 2, 2 join 3, 2 fork 4, 4 fork 5, \
         5 halt 4, 4 join 5, 4 halt 2, 2 join 4, 2 halt, 0 join 2, 0 write 1024",
        Answer::Refused(8, 15),
        0,
    ),
    // Joins behind t do not count: at t it is (0 2), at the end (0 2 (3 4)).
    (
        "0 fork 1, 1 write 5, 1 halt, 0 fork 2, 2 halt, 0 join 2, 0 write 5, 0 fork 3, 3 fork 4, \
         4 halt 3, 3 join 4, 3 halt, 0 join 3",
        Answer::Race(1, 6),
        1,
    ),
];

fn built(make: impl FnOnce(&mut Builder)) -> Trace {
    let mut b = Builder::default();
    make(&mut b);
    b.trace
}

/// A child does this and halts.
fn child(b: &mut Builder, does: impl FnOnce(&mut Builder)) {
    b.fork();
    does(b);
    b.halt();
}

/// The running task becomes the top of a tree of 2^links tasks, with a chain of so many links.
fn grow(b: &mut Builder, links: u32) {
    join_equals(b, links, &mut |_, _| {});
}

/// A child does this and halts, and the running task joins it.
fn join_after(b: &mut Builder, does: impl FnOnce(&mut Builder)) {
    child(b, does);
    b.join();
}

/// The running task joins so many that are alone, one after the other.
fn gather(b: &mut Builder, tasks: usize) {
    for _ in 0..tasks {
        join_after(b, |_| {});
    }
}

/// The running task joins one that is alone, then trees of 4, 8, 16 tasks and so on, each larger
/// than its own: so it sinks, with the one below it, which ends so many links from the top.
fn sink(b: &mut Builder, links: u32) {
    gather(b, 1);
    for power in 2..=links {
        join_after(b, |b| gather(b, (1 << power) - 1));
    }
}

/// Clean traces, of joins alone.
fn shapes() -> Vec<Known> {
    let grown = (0..=10).map(|links| (built(|b| grow(b, links)), links as usize));
    let sunk = (1..=9).map(|links| (built(|b| sink(b, links)), links as usize));
    let gathered = [0, 1, 1_023].map(|tasks| (built(|b| gather(b, tasks)), tasks.min(1)));
    let joined = JOINED.into_iter().flat_map(|(joined, joiner, links)| {
        [false, true].map(|later| (join_of(joined, joiner, later), links))
    });
    let all = grown.chain(sunk).chain(gathered).chain(joined);
    all.map(|(trace, links)| (trace, Answer::Clean, links)).collect()
}

/// The joiner is task 0, or a child of it that is forked later than the joined task and so has the
/// larger number.
fn join_of(joined: Shape, joiner: Shape, later: bool) -> Trace {
    let joins = |b: &mut Builder| {
        joiner(b);
        b.join();
    };
    built(|b| {
        child(b, joined);
        if later {
            child(b, joins);
        } else {
            joins(b);
        }
    })
}

/// What the joined task and the joiner have done before, and the links after the join.
const JOINED: [(Shape, Shape, usize); 6] = [
    // Trees of four tasks each, of which the one has the longer chain, or the other.
    (|b| grow(b, 2), |b| gather(b, 3), 3),
    (|b| gather(b, 3), |b| grow(b, 2), 2),
    // The same, but the joiner is not the top of its tree.
    (|b| grow(b, 2), |b| join_after(b, |b| gather(b, 2)), 3),
    // The joiner is in the smaller tree.
    (|b| grow(b, 3), |b| gather(b, 1), 3),
    // The larger tree, by number of tasks, has the shorter chain.
    (|b| grow(b, 2), |b| gather(b, 4), 3),
    // The joined task is not the top of its tree, which is the smaller.
    (|b| sink(b, 2), |b| gather(b, 8), 3),
];

/// Races with event 1. The links are those at t: not those at s, nor those of the joins behind t.
fn races() -> Vec<Known> {
    let race = |(before, behind): (u32, u32)| {
        let mut b = Builder::default();
        child(&mut b, |b| b.write(7));
        join_after(&mut b, |b| grow(b, before));
        let t = b.trace.len();
        b.write(7);
        join_after(&mut b, |b| grow(b, behind));
        b.join();
        (b.trace, Answer::Race(1, t), before as usize)
    };
    [(1, 1), (9, 1), (1, 9), (4, 8), (8, 4)].map(race).into()
}

/// As long as a trace may be.
fn workloads(test: &mut Test) -> Vec<Known> {
    let rng = &mut test.rng;
    let mut made = vec![(binomial(MAX_EVENTS, rng), 10), (regrown(MAX_EVENTS, rng), 7)];
    for pair in &PAIRS {
        let (long, short) = ((pair.long)(MAX_EVENTS, rng), (pair.short)(MAX_EVENTS, rng));
        known(moves(&long), moves(&short), pair.name);
        made.extend([(long, 10), (short, 1)]);
    }
    made.into_iter().map(|(trace, links)| (trace, Answer::Clean, links)).collect()
}

/// The forks, joins and halts, and the events in all.
fn moves(trace: &Trace) -> [usize; 4] {
    let count = |kind: u8| trace.kinds.iter().filter(|&&other| other == kind).count();
    [count(FORK), count(JOIN), count(HALT), trace.len()]
}

/// The running task joins trees of about the size of its own, until it is one of so many tasks. Now
/// and then it writes.
fn tangle(b: &mut Builder, rng: &mut Rng, tasks: usize) {
    let mut own = 1;
    while own < tasks {
        let near = (own - 1 + rng.below(3)).clamp(1, tasks - own);
        join_after(b, |b| tangle(b, rng, near));
        own += near;
    }
    if rng.chance(1, 16) {
        b.write(7);
    }
}

/// Many ties and near ties. Half of the traces begin with a write that all others race with.
fn random(test: &mut Test) {
    for i in 0..400 {
        let tasks = 1 + test.rng.below(if i < 390 { 100 } else { TASKS - 1 });
        let trace = built(|b| {
            if i % 2 == 0 {
                child(b, |b| b.write(7));
            }
            tangle(b, &mut test.rng, tasks);
        });
        test.both(&trace, 2);
    }
}

/// What breaks a rule where task 0 runs, others have been forked and 2 is not next to it, with the row.
pub const BREAKING: [(Event, usize); 8] = [
    ((0, NO_KIND, 0), 5),
    ((1, READ, 7), 7),
    ((0, READ, 1_024), 8),
    ((0, SUM, 1_024), 8),
    ((0, FORK, 1_024), 9),
    ((0, FORK, 1), 10),
    ((0, JOIN, 2), 11),
    ((0, HALT, 1), 12),
];

/// Behind a chain of 5 links: no refusal reports it.
fn refusals(test: &mut Test) {
    let chain = built(|b| grow(b, 5));
    let n = chain.len();
    for (event, row) in BREAKING {
        let mut trace = chain.clone();
        trace.insert(n, event);
        known(test.judge(&trace), Answer::Refused(row, n), &trace);
    }
    let mut halted = chain.clone();
    halted.push(0, HALT, 0);
    halted.push(0, READ, 7);
    known(test.judge(&halted), Answer::Refused(6, n + 1), &halted);
    let mut uneven = chain.clone();
    uneven.operands.pop();
    known(test.judge(&uneven), Answer::Refused(1, 0), &uneven);
    let mut long = chain.clone();
    while long.len() <= MAX_EVENTS {
        long.push(0, READ, 7);
    }
    known(test.judge(&long), Answer::Refused(2, 0), &long);
    for (short, said) in [
        (0, [Answer::Refused(3, 0); 2]),
        (1, [Answer::Refused(4, 0); 2]),
        (2, [Answer::Refused(4, 0); 2]),
        (3, [Answer::Clean, Answer::Refused(16, 0)]),
    ] {
        let mut lent = needed(&chain);
        lent[short] -= 1;
        known(test.judge_with(&chain, lent), said, &chain);
    }
}

/// A search from the deepest task: over 10 links, and at a race over 9. A tree of 1,024 tasks has
/// task 0 in it, so no race is found over more.
fn climbs(test: &mut Test) {
    let trace = binomial(MAX_EVENTS, &mut test.rng);
    let first = trace.kinds.iter().position(|&kind| is_access(kind)).expect("an access");
    known(test.ordering(&trace, first, MAX_EVENTS - 1), Ordering::Yes, &trace);
    let trace = built(|b| {
        let mut work = |b: &mut Builder, path: usize| {
            if path == 511 {
                b.write(7);
            }
        };
        child(b, |b| join_equals(b, 9, &mut work));
        b.write(7);
    });
    let t = trace.len() - 1;
    known(test.judge(&trace), Answer::Race(10, t), &trace);
    known(test.ordering(&trace, 10, t), Ordering::No, &trace);
}

/// Wrong tables, in which not the right one of two tops is hung.
const UNDER: [(&str, Under); 6] = [
    ("at equal size the joined task's top stays", |table, mine, other| {
        size(table, mine) <= size(table, other)
    }),
    ("at equal size the lower number stays", |table, mine, other| {
        (size(table, mine), other) < (size(table, other), mine)
    }),
    ("the top of the smaller tree stays", |table, mine, other| {
        size(table, mine) > size(table, other)
    }),
    ("the top of the longer chain stays", |table, mine, other| {
        chain(table, mine) < chain(table, other)
    }),
    ("the joiner's top stays", |_, _, _| false),
    ("the joined task's top stays", |_, _, _| true),
];

/// Wrong tables, in which other links change than that of the lower top.
const JOINS: [(&str, Join); 3] = [
    ("trees are hung under the joiner itself", |table, joiner, joined| {
        let (mine, other) = (table.top(joiner), table.top(joined));
        let under = size(table, mine) < size(table, other);
        hang(table, under, if under { mine } else { joiner }, other);
    }),
    ("the joined task itself is hung", |table, joiner, joined| {
        let (mine, other) = (table.top(joiner), table.top(joined));
        let under = size(table, mine) < size(table, other);
        hang(table, under, mine, if under { other } else { joined });
    }),
    ("a search shortens the chain", |table, joiner, joined| {
        for mut task in [joiner, joined] {
            let top = table.top(task);
            while let Some(above) = table.above[task].replace(top) {
                task = above;
            }
            table.above[top] = None;
        }
        table.join(joiner, joined);
    }),
];

fn size(table: &Table, top: usize) -> usize {
    table.tree(top).count()
}

fn chain(table: &Table, top: usize) -> usize {
    table.tree(top).map(|task| table.links(task)).max().unwrap_or(0)
}

/// Hangs mine under the other, or the other under mine.
fn hang(table: &mut Table, under: bool, mine: usize, other: usize) {
    let (low, high) = if under { (mine, other) } else { (other, mine) };
    table.above[low] = Some(high);
}

/// How many wrong tables were noticed. One that is not ends the test.
pub fn wrong_tables() -> usize {
    let traces = &shapes();
    for (name, under) in UNDER {
        let join = |table: &mut Table, joiner: usize, joined: usize| {
            let (mine, other) = (table.top(joiner), table.top(joined));
            hang(table, under(table, mine, other), mine, other);
        };
        noticed(name, traces, join);
    }
    for (name, join) in JOINS {
        noticed(name, traces, join);
    }
    UNDER.len() + JOINS.len()
}

fn noticed(name: &str, traces: &[Known], join: impl Fn(&mut Table, usize, usize)) {
    let same = |(trace, said, number): &Known| links_by(&join, trace, *said) == *number;
    if traces.iter().all(same) {
        fail(&format!("NOT NOTICED: a table of joins in which {name}"));
    }
}
