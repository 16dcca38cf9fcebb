//! Sums: runs told by hand; each pair of kinds with an order and without, and behind each third kind;
//! counters that many tasks add to; and wrong judges of them, each of which must show.

use crate::compare::{known, Test};
use crate::document::{
    hold, hold_orders, with_records, Ordered, Told, SUM_AND_READ, SUM_AND_WRITE,
};
use crate::meaning;
use crate::tally::fail;
use racejudge_bench::ancestors::{conflict, Ancestors, Conflict};
use racejudge_bench::builder::Builder;
use racejudge_bench::cards::cards;
use racejudge_bench::line::names_resumed;
use racejudge_bench::rng::Rng;
use racejudge_bench::trace::Answer::{Clean, Race, Refused};
use racejudge_bench::trace::*;

pub fn all(test: &mut Test) {
    RUNS.into_iter().for_each(|run| hold(test, run));
    ORDERS.into_iter().for_each(hold_orders);
    for (trace, said) in pairs().iter().chain(&triples()) {
        known(test.both(trace, 2), *said, trace);
        with_records(test, trace, *said);
        every_order(test, trace);
    }
    told_orders(test);
    counters(test);
    full_counters(test);
}

const READ_AND_SUM: &str = "0 fork 1, 1 read 5, 1 halt, 0 sum 5";
const WRITE_AND_SUM: &str = "0 fork 1, 1 write 5, 1 halt, 0 sum 5";
const UNJOINED: &str = "0 fork 1, 1 sum 5, 1 halt, 0 fork 2, 2 sum 5, 2 halt, 0 join 2, 0 read 5";
const READ_OWN: &str = "0 fork 1, 1 sum 5, 1 halt, 0 sum 5, 0 read 5";
const WRITE_OWN: &str = "0 fork 1, 1 sum 5, 1 halt, 0 sum 5, 0 write 5";
const SUM_BEFORE: &str = "0 sum 5, 0 fork 1, 1 sum 5, 1 halt, 0 read 5";
const SUM_THEN_READ: &str = "0 fork 1, 1 sum 5, 1 read 5, 1 halt, 0 sum 5";
const SUM_THEN_WRITE: &str = "0 fork 1, 1 sum 5, 1 write 5, 1 halt, 0 sum 5";
const READ_THEN_SUM: &str = "0 fork 1, 1 read 5, 1 sum 5, 1 halt, 0 sum 5";
const WRITE_THEN_SUM: &str = "0 fork 1, 1 write 5, 1 sum 5, 1 halt, 0 sum 5";
const SIBLING: &str = "0 fork 1, 1 sum 7, 1 halt, 0 sum 7, 0 fork 2, 2 join 1, 2 halt, 0 read 7";

/// Runs with what is said of them and their links, drawn by hand.
const RUNS: [Told; 32] = [
    // Of one task; of two children; of both and their parent; of another location.
    ("0 sum 5, 0 read 5, 0 sum 5, 0 write 5, 0 sum 5, 0 sum 5", Clean, 0),
    ("0 fork 1, 1 sum 5, 1 halt, 0 fork 2, 2 sum 5", Clean, 0),
    ("0 sum 5, 0 fork 1, 1 sum 5, 1 halt, 0 fork 2, 2 sum 5, 2 halt, 0 sum 5", Clean, 0),
    ("0 fork 1, 1 sum 5, 1 halt, 0 read 6", Clean, 0),
    // Behind a read and behind a write.
    (READ_AND_SUM, Race(1, 3), 0),
    (WRITE_AND_SUM, Race(1, 3), 0),
    // Joined, and then read and written; a counter that is set, added to, joined and read.
    (
        "0 fork 1, 1 sum 5, 1 halt, 0 fork 2, 2 sum 5, 2 halt, 0 join 2, 0 join 1, 0 read 5",
        Clean,
        1,
    ),
    (
        "0 fork 1, 1 sum 5, 1 halt, 0 fork 2, 2 sum 5, 2 halt, 0 join 2, 0 join 1, 0 write 5",
        Clean,
        1,
    ),
    ("0 write 5, 0 fork 1, 1 sum 5, 1 halt, 0 sum 5, 0 join 1, 0 read 5", Clean, 1),
    // The earlier of two is not joined; the later one is, or is the task's own.
    (UNJOINED, Race(1, 7), 1),
    (READ_OWN, Race(1, 4), 0),
    (WRITE_OWN, Race(1, 4), 0),
    (SUM_BEFORE, Race(2, 4), 0),
    // An earlier sum is no partner of a sum: the read or the write behind it is, or before it.
    (SUM_THEN_READ, Race(2, 4), 0),
    (SUM_THEN_WRITE, Race(2, 4), 0),
    (READ_THEN_SUM, Race(1, 4), 0),
    (WRITE_THEN_SUM, Race(1, 4), 0),
    // A task joins one that it did not fork, and reads; its parent does, before it joins and after.
    ("0 fork 1, 1 sum 7, 1 halt, 0 sum 7, 0 fork 2, 2 join 1, 2 read 7", Clean, 1),
    (SIBLING, Race(1, 7), 1),
    (
        "0 fork 1, 1 sum 7, 1 halt, 0 sum 7, 0 fork 2, 2 join 1, 2 halt, 0 join 2, 0 read 7",
        Clean,
        1,
    ),
    // Row 8, and rows 6 and 7 before it.
    ("0 sum 65535", Refused(8, 0), 0),
    ("0 halt, 0 sum 1024", Refused(6, 1), 0),
    ("1 sum 1024", Refused(7, 0), 0),
    // Of a task that was never forked, is paused, has halted.
    ("1 sum 5", Refused(7, 0), 0),
    ("0 fork 1, 0 sum 5", Refused(7, 1), 0),
    ("0 fork 1, 1 halt, 1 sum 5", Refused(7, 2), 0),
    // Rows 5, 7 and 8 right behind an access that keeps the rules.
    ("0 sum 5, 0 6 5", Refused(5, 1), 0),
    ("0 sum 5, 1 sum 5", Refused(7, 1), 0),
    ("0 sum 5, 0 sum 1024", Refused(8, 1), 0),
    ("0 read 5, 0 sum 1024", Refused(8, 1), 0),
    ("0 sum 5, 0 write 1024", Refused(8, 1), 0),
    // An event behind a race is not looked at.
    ("0 fork 1, 1 sum 5, 1 halt, 0 read 5, 0 sum 1024", Race(1, 3), 0),
];

const ORDERS: [Ordered; 13] = [
    (SUM_AND_READ, [&[0, 1, 3, 2], &[0, 3, 1, 2]]),
    (SUM_AND_WRITE, [&[0, 1, 3, 2], &[0, 3, 1, 2]]),
    (READ_AND_SUM, [&[0, 1, 3, 2], &[0, 3, 1, 2]]),
    (WRITE_AND_SUM, [&[0, 1, 3, 2], &[0, 3, 1, 2]]),
    (UNJOINED, [&[0, 3, 4, 5, 6, 1, 7, 2], &[0, 3, 4, 5, 6, 7, 1, 2]]),
    (READ_OWN, [&[0, 3, 1, 4, 2], &[0, 3, 4, 1, 2]]),
    (WRITE_OWN, [&[0, 3, 1, 4, 2], &[0, 3, 4, 1, 2]]),
    (SUM_BEFORE, [&[0, 1, 2, 4, 3], &[0, 1, 4, 2, 3]]),
    (SUM_THEN_READ, [&[0, 1, 2, 4, 3], &[0, 1, 4, 2, 3]]),
    (SUM_THEN_WRITE, [&[0, 1, 2, 4, 3], &[0, 1, 4, 2, 3]]),
    (READ_THEN_SUM, [&[0, 1, 4, 2, 3], &[0, 4, 1, 2, 3]]),
    (WRITE_THEN_SUM, [&[0, 1, 4, 2, 3], &[0, 4, 1, 2, 3]]),
    (SIBLING, [&[0, 3, 4, 1, 7, 2, 5, 6], &[0, 3, 4, 7, 1, 2, 5, 6]]),
];

/// A trace, and what is said of it.
type Known = (Trace, Answer);

/// Events in which location 5 is accessed; the task that makes the next access; and the event that
/// this one races with, if there is no order between the two.
type Shape = (fn(u8) -> Vec<Event>, u16, Option<usize>);

const SHAPES: [Shape; 10] = [
    // The same task, a child, a grandchild.
    (|one| vec![(0, one, 5)], 0, None),
    (|one| vec![(0, one, 5), (0, FORK, 1)], 1, None),
    (|one| vec![(0, one, 5), (0, FORK, 1), (1, FORK, 2)], 2, None),
    // Joined, or by way of a sibling.
    (|one| vec![(0, FORK, 1), (1, one, 5), (1, HALT, 0), (0, JOIN, 1)], 0, None),
    (|one| vec![(0, FORK, 1), (1, one, 5), (1, HALT, 0), (0, FORK, 2), (2, JOIN, 1)], 2, None),
    // The parent, a sibling, and the parent where a sibling has joined.
    (|one| vec![(0, FORK, 1), (1, one, 5), (1, HALT, 0)], 0, Some(1)),
    (|one| vec![(0, FORK, 1), (1, one, 5), (1, HALT, 0), (0, FORK, 2)], 2, Some(1)),
    (
        |one| {
            let joined = [(0, FORK, 2), (2, JOIN, 1), (2, HALT, 0)];
            [&[(0, FORK, 1), (1, one, 5), (1, HALT, 0)], &joined[..]].concat()
        },
        0,
        Some(1),
    ),
    // The parent, who has accessed the location in the same way before.
    (|one| vec![(0, one, 5), (0, FORK, 1), (1, one, 5), (1, HALT, 0)], 0, Some(2)),
    // Behind a sum of another location: from the first sum on a judge may go another way.
    (|one| vec![(0, FORK, 1), (1, SUM, 7), (1, one, 5), (1, HALT, 0)], 0, Some(2)),
];

/// The pairs of kinds that conflict, as the owner names them.
pub const CONFLICTING: [(u8, u8); 7] = [
    (READ, WRITE),
    (WRITE, READ),
    (WRITE, WRITE),
    (SUM, READ),
    (READ, SUM),
    (SUM, WRITE),
    (WRITE, SUM),
];

/// Each kind of access with each.
pub fn nine_pairs() -> impl Iterator<Item = (u8, u8)> {
    ACCESSES.into_iter().flat_map(|one| ACCESSES.map(|other| (one, other)))
}

/// Each shape with each of the nine pairs of kinds.
fn shaped() -> impl Iterator<Item = (Shape, (u8, u8))> {
    nine_pairs().flat_map(|kinds| SHAPES.map(|shape| (shape, kinds)))
}

/// The two accesses to one location and to two.
fn pairs() -> Vec<Known> {
    let both = |(shape, kinds)| [5, 6].map(|location| pair(shape, kinds, location));
    shaped().flat_map(both).collect()
}

fn pair((before, task, unordered): Shape, (one, other): (u8, u8), location: u16) -> Known {
    let mut events = before(one);
    let t = events.len();
    events.push((task, other, location));
    let conflict = location == 5 && CONFLICTING.contains(&(one, other));
    let partner = unordered.filter(|_| conflict);
    (Trace::of(&events), partner.map_or(Answer::Clean, |s| Answer::Race(s, t)))
}

/// The nine pairs, unordered, where the task of the earlier access has made another just before it:
/// the partner is the first of the two that conflicts.
fn triples() -> Vec<Known> {
    let kinds = ACCESSES.into_iter().flat_map(|before| ACCESSES.map(|one| [before, one]));
    kinds.flat_map(|earlier| ACCESSES.map(|other| triple(earlier, other))).collect()
}

fn triple(earlier: [u8; 2], other: u8) -> Known {
    let [before, one] = earlier.map(|kind| (1, kind, 5));
    let events = [(0, FORK, 1), before, one, (1, HALT, 0), (0, other, 5)];
    let partner = earlier.iter().position(|&kind| CONFLICTING.contains(&(kind, other)));
    (Trace::of(&events), partner.map_or(Answer::Clean, |i| Answer::Race(1 + i, 4)))
}

fn every_order(test: &mut Test, trace: &Trace) {
    for p in 0..trace.len() {
        for q in 0..trace.len() {
            test.ordering(trace, p, q);
        }
    }
}

/// Paths do not ask for kinds: whether the earlier access reaches the later one is told by the shape.
fn told_orders(test: &mut Test) {
    for (shape, (one, other)) in shaped() {
        let (before, _, unordered) = shape;
        let is_one = |&(_, kind, at): &Event| (kind, at) == (one, 5);
        let s = before(one).iter().rposition(is_one).expect("an access");
        let told = if unordered.is_some() { Ordering::No } else { Ordering::Yes };
        let (trace, _) = pair(shape, (one, other), 5);
        known(test.ordering(&trace, s, trace.len() - 1), told, &trace);
    }
}

/// Tasks that add to a counter beside each other, of which the last ones are joined, and then an
/// access by task 0.
struct Counter {
    tasks: usize,
    joined: usize,
    last: u8,
}

impl Counter {
    /// Each task reads a table and adds up to `most` times, the first of them once at least.
    fn trace(&self, rng: &mut Rng, most: usize) -> Known {
        let mut b = Builder::default();
        let mut first_unjoined = None;
        for task in 0..self.tasks {
            b.fork();
            b.read(3);
            for _ in 0..rng.below(most + 1).max(usize::from(task == 0)) {
                if task + self.joined < self.tasks {
                    first_unjoined = first_unjoined.or(Some(b.trace.len()));
                }
                b.sum(7);
            }
            b.halt();
        }
        (0..self.joined).for_each(|_| b.join());
        b.sum(7);
        let t = b.trace.len();
        b.access(self.last, 7);
        let racing = first_unjoined.filter(|_| self.last != SUM);
        (b.trace, racing.map_or(Answer::Clean, |s| Answer::Race(s, t)))
    }
}

fn counters(test: &mut Test) {
    for i in 0..600 {
        let tasks = 1 + test.rng.below(if i < 590 { 12 } else { TASKS - 1 });
        let joined = [0, tasks - 1, tasks, test.rng.below(tasks + 1)][i % 4];
        let counter = Counter { tasks, joined, last: ACCESSES[test.rng.below(3)] };
        let (trace, said) = counter.trace(&mut test.rng, 3);
        known(test.both(&trace, 2), said, &trace);
    }
}

/// All tasks, and nearly as many events as there may be.
fn full_counters(test: &mut Test) {
    let tasks = TASKS - 1;
    for (joined, last) in [(0, SUM), (tasks - 1, READ), (tasks, WRITE)] {
        let (trace, said) = Counter { tasks, joined, last }.trace(&mut test.rng, 50);
        known(test.both(&trace, 2), said, &trace);
        let sums = trace.kinds.iter().filter(|&&kind| kind == SUM).count();
        known(usize::from(cards(&trace)[7].sums), sums, &trace);
    }
}

/// Wrong judges: for each what conflicts that should not, or does not that should.
pub const WRONG: [(&str, Conflict); 12] = [
    ("a sum conflicts with a sum", |s, t| conflict(s, t) || (s, t) == (SUM, SUM)),
    ("a read does not conflict with an earlier sum", |s, t| {
        conflict(s, t) && (s, t) != (SUM, READ)
    }),
    ("a sum does not conflict with an earlier read", |s, t| {
        conflict(s, t) && (s, t) != (READ, SUM)
    }),
    ("a write does not conflict with an earlier sum", |s, t| {
        conflict(s, t) && (s, t) != (SUM, WRITE)
    }),
    ("a sum does not conflict with an earlier write", |s, t| {
        conflict(s, t) && (s, t) != (WRITE, SUM)
    }),
    ("sums conflict with nothing", |s, t| conflict(s, t) && s != SUM && t != SUM),
    ("a sum is a write", |s, t| s != READ || t != READ),
    ("a sum is a read", |s, t| s == WRITE || t == WRITE),
    ("a read conflicts with a read", |s, t| conflict(s, t) || (s, t) == (READ, READ)),
    ("a read does not conflict with an earlier write", |s, t| {
        conflict(s, t) && (s, t) != (WRITE, READ)
    }),
    ("a write does not conflict with an earlier read", |s, t| {
        conflict(s, t) && (s, t) != (READ, WRITE)
    }),
    ("a write does not conflict with a write", |s, t| conflict(s, t) && (s, t) != (WRITE, WRITE)),
];

/// How many wrong judges were noticed: each gives a wrong answer to some of the pairs, and one that does
/// not mean what it says. One that is not ends the test.
pub fn wrong_judges() -> usize {
    let pairs = pairs();
    for (name, conflict) in WRONG {
        let (mut judge, mut rng) = (Ancestors::by(conflict, names_resumed), Rng::new(1));
        let (mut other, mut meaningless) = (false, false);
        for (trace, said) in &pairs {
            let n = trace.len();
            let outcome = judge.judge(trace, WORKSPACE + n, n, n);
            other |= outcome.said != *said;
            meaningless |= meaning::fault(&mut rng, trace, &outcome).is_some();
        }
        if !(other && meaningless) {
            fail(&format!("NOT NOTICED: a judge for whom {name}"));
        }
    }
    WRONG.len()
}
