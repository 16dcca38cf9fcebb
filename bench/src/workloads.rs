//! The workloads of the benchmark. Each has exactly the number of events asked for (but for the one
//! with none), and about one task for every 32 of them.

use crate::builder::Builder;
use crate::rng::Rng;
use crate::trace::*;
use std::ops::RangeInclusive;

/// Makes a trace of so many events.
pub type Make = fn(usize, &mut Rng) -> Trace;

pub struct Workload {
    pub name: &'static str,
    pub make: Make,
    /// How a trace of so many events must be answered.
    pub expected: fn(usize) -> Answer,
}

const fn clean(name: &'static str, make: Make) -> Workload {
    Workload { name, make, expected: |_| Answer::Clean }
}

const fn racing(name: &'static str, make: Make, expected: fn(usize) -> Answer) -> Workload {
    Workload { name, make, expected }
}

/// The workloads of the table, in its order.
pub const WORKLOADS: [Workload; 12] = [
    clean("pipeline of 32 stages", pipeline),
    clean("fork tree", tree),
    clean("one task alone", alone),
    clean("binomial joins, chains of 10", binomial),
    clean("chains of 8 climbed often", deep_task),
    clean("chains of 7 grown 15 times", regrown),
    clean("random, 1,024 locations", random),
    clean("counters that all tasks add to", counters),
    racing("race at the end, early partner", late_race_early_partner, |n| Answer::Race(1, n - 1)),
    racing("race at the end, late partner", late_race_late_partner, |n| Answer::Race(n - 3, n - 1)),
    racing("race at event 3", early_race, |_| Answer::Race(1, 3)),
    clean("no events", |_, _| Trace::default()),
];

/// A workload for the call for pairs alone: the judge stops at its first race.
pub struct Racing {
    pub name: &'static str,
    pub make: Make,
    /// How many close pairs there must be in a trace of so many events.
    pub pairs: fn(usize) -> RangeInclusive<usize>,
}

pub const RACING: [Racing; 5] = [
    Racing { name: "16 races, far between", make: few_races, pairs: |_| RACES..=RACES },
    Racing { name: "partners too far, 1,024 locations", make: far_partners, pairs: |_| 0..=0 },
    Racing {
        name: "random races, 1,024 locations",
        make: random_races,
        pairs: |n| n / 512..=n / 8,
    },
    Racing { name: "most close events are partners", make: dense, pairs: |n| 160 * n..=CLOSE * n },
    Racing { name: "half of them are", make: half_dense, pairs: |n| 80 * n..=CLOSE / 2 * n },
];

/// Two workloads that differ in who joins whom and when: with as many events of each kind, and with
/// the same accesses by each task, but for which are reads.
pub struct Pair {
    pub name: &'static str,
    /// With chains of 10 links for 32,768 events.
    pub long: Make,
    /// With chains of 1.
    pub short: Make,
}

pub const PAIRS: [Pair; 3] = [
    Pair {
        name: "own locations, joined at the end",
        long: |n, rng| own(n, rng, join_equals),
        short: |n, rng| own(n, rng, join_late),
    },
    Pair {
        name: "own locations, joined at once",
        long: |n, rng| own(n, rng, join_equals),
        short: |n, rng| own(n, rng, join_at_once),
    },
    Pair {
        name: "all locations by task 0, joined at the end",
        long: |n, rng| swept(n, rng, join_equals),
        short: |n, rng| swept(n, rng, join_late),
    },
];

/// Tasks beside task 0 for a trace of n events: 1,023 for 32,768.
pub fn children(n: usize) -> usize {
    n / 32 - 1
}

/// Reads or writes one of `count` locations from `low` on.
fn touch_one(b: &mut Builder, rng: &mut Rng, low: u16, count: usize) {
    let location = low + rng.cell(count);
    b.touch(rng, location);
}

/// Items run one after the other through the stages (32 for 32,768 events), a task for each item at
/// each stage. The task joins the one that had the item before at the same stage, works, and forks
/// the next stage. It touches its stage's locations and its item's, and reads a table that task 0
/// wrote at first.
pub fn pipeline(n: usize, rng: &mut Rng) -> Trace {
    let mut b = Builder::default();
    let tasks = children(n);
    let stages = (tasks + 1).isqrt();
    let (each, spare) = ((n - 3 * tasks) / tasks, (n - 3 * tasks) % tasks);
    for i in 0..spare {
        b.write(960 + (i % 64) as u16);
    }
    for item in 0..tasks.div_ceil(stages) {
        for stage in 0..stages.min(tasks - item * stages) {
            work(&mut b, rng, item, stage, each);
        }
        b.halt_down_to(1);
    }
    b.join_all();
    b.trace
}

/// The task of an item at a stage, up to the fork of the next.
fn work(b: &mut Builder, rng: &mut Rng, item: usize, stage: usize, accesses: usize) {
    b.fork();
    if item > 0 {
        b.join();
    }
    for _ in 0..accesses {
        match rng.below(8) {
            0..=2 => touch_one(b, rng, stage as u16 * 14, 14),
            3..=6 => touch_one(b, rng, 448 + (item % 32) as u16 * 16, 16),
            _ => b.read(960 + rng.cell(64)),
        }
    }
}

/// Halves a range of locations until one task for each is left (depth 10 for 32,768 events): fork
/// a child for one half, do the other, join, then touch the whole range.
pub fn tree(n: usize, rng: &mut Rng) -> Trace {
    let mut b = Builder::default();
    let depth = (children(n) + 1).ilog2();
    let leaves = 1usize << depth;
    let at_leaf = (n - 3 * (leaves - 1) - 2 * leaves * depth as usize) / leaves;
    halve(&mut b, rng, depth, 0, (LOCATIONS / leaves) as u16, at_leaf);
    while b.trace.len() < n {
        b.touch(rng, 0);
    }
    b.trace
}

fn halve(b: &mut Builder, rng: &mut Rng, depth: u32, low: u16, unit: u16, at_leaf: usize) {
    if depth == 0 {
        for _ in 0..at_leaf {
            touch_one(b, rng, low, unit as usize);
        }
        return;
    }
    let half = unit << (depth - 1);
    b.fork();
    halve(b, rng, depth - 1, low, unit, at_leaf);
    b.halt();
    halve(b, rng, depth - 1, low + half, unit, at_leaf);
    b.join();
    for _ in 0..2usize << depth {
        touch_one(b, rng, low, 2 * half as usize);
    }
}

/// Task 0 reads and writes at random.
fn alone(n: usize, rng: &mut Rng) -> Trace {
    let mut b = Builder::default();
    fill(&mut b, rng, n, LOCATIONS);
    b.trace
}

/// The running task reads and writes at random up to n events.
fn fill(b: &mut Builder, rng: &mut Rng, n: usize, locations: usize) {
    while b.trace.len() < n {
        touch_one(b, rng, 0, locations);
    }
}

/// Joins only groups of equal size, so that the chains grow as long as they can (10 links for
/// 1,024 tasks). The locations belong to the tasks that end deepest; once all are joined task 0
/// touches every location, each at the bottom of its chain.
pub fn binomial(n: usize, rng: &mut Rng) -> Trace {
    let mut b = Builder::default();
    let depth = (children(n) + 1).ilog2();
    let leaves = 1usize << depth;
    let deep: Vec<usize> = (0..leaves).filter(|leaf| leaf.count_ones() * 10 >= depth * 6).collect();
    let mut owned: Vec<Vec<u16>> = vec![Vec::new(); leaves];
    for l in 0..LOCATIONS {
        owned[deep[l * deep.len() / LOCATIONS]].push(l as u16);
    }
    let sweep = LOCATIONS.min(n / 4);
    let budget = n - 3 * (leaves - 1) - sweep;
    let at_leaf = budget / deep.len();
    join_equals(&mut b, depth, &mut |b, path| touch_own(b, rng, &owned[path], at_leaf));
    sweep_up_to(&mut b, rng, n);
    b.trace
}

/// Touches each of its own locations once, then any of them, so many times in all.
fn touch_own(b: &mut Builder, rng: &mut Rng, own: &[u16], times: usize) {
    for i in 0..if own.is_empty() { 0 } else { times } {
        let l = if i < own.len() { own[i] } else { own[rng.below(own.len())] };
        b.touch(rng, l);
    }
}

/// The running task touches all locations again and again, up to n events.
fn sweep_up_to(b: &mut Builder, rng: &mut Rng, n: usize) {
    let mut next = in_turn(rng);
    touch_up_to(b, rng, n, &mut next);
}

/// All locations in any order, again and again.
fn in_turn(rng: &mut Rng) -> impl Iterator<Item = u16> {
    let mut order: Vec<u16> = (0..LOCATIONS as u16).collect();
    rng.shuffle(&mut order);
    order.into_iter().cycle()
}

/// The running task touches these, up to n events.
fn touch_up_to(b: &mut Builder, rng: &mut Rng, n: usize, next: &mut impl Iterator<Item = u16>) {
    while b.trace.len() < n {
        b.touch(rng, next.next().expect("a cycle has no end"));
    }
}

/// What each of 2^depth tasks does, from its path on: below 2^depth, and 0 for the task that runs.
pub type Work<'a> = &'a mut dyn FnMut(&mut Builder, usize);

/// The running task and 2^depth - 1 more do their work and join groups of equal size. The first to
/// act, at path 2^depth - 1, ends `depth` links below the top, which is the running task's.
pub fn join_equals(b: &mut Builder, depth: u32, work: Work) {
    halve_group(b, depth, 0, work, Builder::join);
}

/// Forks a task for one half of the group, does the other, then what is to be done with the halted
/// task, down to one task each.
fn halve_group(b: &mut Builder, depth: u32, path: usize, work: Work, then: fn(&mut Builder)) {
    if depth == 0 {
        return work(b, path);
    }
    b.fork();
    halve_group(b, depth - 1, 2 * path + 1, work, then);
    b.halt();
    halve_group(b, depth - 1, 2 * path, work, then);
    then(b);
}

/// A child makes such a group of 2^depth tasks, itself among them, and the running task joins it.
pub fn join_group(b: &mut Builder, depth: u32, work: Work) {
    b.fork();
    join_equals(b, depth, work);
    b.halt();
    b.join();
}

/// The same forks, work and halts, but task 0 joins all at the end: each hangs under it.
fn join_late(b: &mut Builder, depth: u32, work: Work) {
    halve_group(b, depth, 0, work, |_| {});
    b.join_all();
}

/// The same work in the same order, but task 0 forks each task itself, and joins it at once.
fn join_at_once(b: &mut Builder, depth: u32, work: Work) {
    for path in (1..1 << depth).rev() {
        b.fork();
        work(b, path);
        b.halt();
        b.join();
    }
    work(b, 0);
}

/// What 2^depth tasks do that work and are joined in the end.
type Joins = fn(&mut Builder, u32, Work);

/// Each task touches a location of its own, nearly all the time.
fn own(n: usize, rng: &mut Rng, joins: Joins) -> Trace {
    let tasks = children(n) + 1;
    joined(n, rng, joins, (n - 3 * tasks) / tasks)
}

/// Each task touches a location of its own once. The rest is task 0's, which has joined all.
fn swept(n: usize, rng: &mut Rng, joins: Joins) -> Trace {
    joined(n, rng, joins, 1)
}

fn joined(n: usize, rng: &mut Rng, joins: Joins, each: usize) -> Trace {
    let mut b = Builder::default();
    let depth = (children(n) + 1).ilog2();
    joins(&mut b, depth, &mut |b, path| touch_own(b, rng, &[path as u16], each));
    sweep_up_to(&mut b, rng, n);
    b.trace
}

/// Task 0 joins groups of 2, 4, .., 256, each greater than its own, so that it ends 8 links below
/// its top. Then tasks come one after the other and touch locations that task 0 touched last; after
/// the join task 0 takes them back. A judge that notes the accessing task climbs the whole chain at
/// every search, one that notes its group's top climbs none.
fn deep_task(n: usize, rng: &mut Rng) -> Trace {
    let mut b = Builder::default();
    let deep = (children(n) + 1).ilog2() - 1;
    for power in 1..deep {
        join_group(&mut b, power, &mut |_, _| {});
    }
    let locations = LOCATIONS.min(n / 8);
    for l in 0..locations {
        b.write(l as u16);
    }
    let rounds = b.numbers_left().min(children(n) / 2);
    let each = (n - b.trace.len()).saturating_sub(3 * rounds) / (2 * rounds);
    for _ in 0..rounds {
        let first = rng.below(LOCATIONS);
        let place = |i: usize| ((first + i * 37) % locations) as u16;
        take_back(&mut b, rng, (0..each).map(place));
    }
    fill(&mut b, rng, n, locations);
    b.trace
}

/// A child touches the places and is joined, and then its parent writes them.
fn take_back(b: &mut Builder, rng: &mut Rng, places: impl Iterator<Item = u16> + Clone) {
    b.fork();
    places.clone().for_each(|l| b.touch(rng, l));
    b.halt();
    b.join();
    places.for_each(|l| b.write(l));
}

/// 15 times a group of equals grows (64 tasks for 32,768 events) whose deepest task touched many
/// locations while it was alone. Task 0 joins the group and touches the same locations: every
/// search climbs the whole chain, 7 links, whatever a judge notes.
pub fn regrown(n: usize, rng: &mut Rng) -> Trace {
    const TIMES: usize = 15;
    let mut b = Builder::default();
    let depth = (children(n) + 1).ilog2() - 4;
    let tasks = 1usize << depth;
    let each = (n / TIMES - 3 * tasks) / 2;
    let mut places: Vec<u16> = (0..LOCATIONS as u16).collect();
    for _ in 0..TIMES {
        rng.shuffle(&mut places);
        join_group(&mut b, depth, &mut |b, path| {
            let own = if path == tasks - 1 { &places[..each] } else { &[] };
            touch_own(b, rng, own, each);
        });
        rng.shuffle(&mut places[..each]);
        for &l in &places[..each] {
            b.touch(rng, l);
        }
    }
    fill(&mut b, rng, n, LOCATIONS);
    b.trace
}

/// Random forks, halts and joins, random accesses that do not race. There are as many locations as
/// tasks, so that each is touched as often at every size.
pub fn random(n: usize, rng: &mut Rng) -> Trace {
    let mut b = Builder::shuffled(rng);
    random_clean(&mut b, rng, n, children(n), children(n) + 1, 0);
    b.trace
}

/// Goes on at random up to n events, with at most `forks` more tasks; keeps `unjoined` halted tasks
/// at the bottom of the line's left part.
fn random_clean(
    b: &mut Builder,
    rng: &mut Rng,
    n: usize,
    forks: usize,
    locations: usize,
    unjoined: usize,
) {
    let reserve = b.numbers_left() - forks.min(b.numbers_left());
    while b.trace.len() < n {
        if !random_move(b, rng, reserve, unjoined) {
            random_access(b, rng, locations);
        }
    }
}

/// A fork, a halt or a join, in some cases of many.
fn random_move(b: &mut Builder, rng: &mut Rng, reserve: usize, unjoined: usize) -> bool {
    match rng.below(96) {
        0..=2 if b.numbers_left() > reserve => b.fork(),
        3..=5 if b.depth() > 1 => b.halt(),
        6..=11 if b.halted() > unjoined => b.join(),
        _ => return false,
    }
    true
}

/// An access that does not race, if a few tries find one.
fn random_access(b: &mut Builder, rng: &mut Rng, locations: usize) {
    for _ in 0..8 {
        let (kind, l) = (rng.chance(2, 5) as u8, rng.cell(locations));
        if !b.would_race(kind, l) {
            return b.access(kind, l);
        }
    }
}

/// In each of many rounds (32 for 32,768 events) tasks beside each other add to drop counters and use
/// a location of their own; task 0 joins them all, reads each counter and sets it back.
pub fn counters(n: usize, rng: &mut Rng) -> Trace {
    const COUNTERS: u16 = 16;
    let mut b = Builder::default();
    let rounds = (children(n) + 1).isqrt();
    let tasks = children(n) / rounds;
    let each = (n / rounds - 2 * usize::from(COUNTERS)) / tasks - 3;
    for _ in 0..rounds {
        for task in 0..tasks {
            b.fork();
            for _ in 0..each {
                match rng.below(3) {
                    0 => b.touch(rng, COUNTERS + task as u16),
                    _ => b.sum(rng.cell(COUNTERS.into())),
                }
            }
            b.halt();
        }
        b.join_all();
        (0..COUNTERS).for_each(|counter| b.read(counter));
        (0..COUNTERS).for_each(|counter| b.write(counter));
    }
    while b.trace.len() < n {
        b.sum(rng.cell(COUNTERS.into()));
    }
    b.trace
}

/// Event 1 writes a location that no other touches until the very last event.
fn late_race_early_partner(n: usize, rng: &mut Rng) -> Trace {
    let mut b = Builder::shuffled(rng);
    b.fork();
    b.write(1023);
    b.halt();
    random_clean(&mut b, rng, n - 1, children(n) - 1, LOCATIONS - 1, 1);
    b.write(1023);
    b.trace
}

/// The last event races with the one two before it.
fn late_race_late_partner(n: usize, rng: &mut Rng) -> Trace {
    let mut b = Builder::shuffled(rng);
    random_clean(&mut b, rng, n - 4, children(n) - 1, LOCATIONS - 1, 0);
    b.fork();
    b.write(1023);
    b.halt();
    b.write(1023);
    b.trace
}

/// Event 3 races with event 1; the rest is not looked at.
fn early_race(n: usize, rng: &mut Rng) -> Trace {
    let mut b = Builder::shuffled(rng);
    b.fork();
    b.write(1023);
    b.halt();
    b.write(1023);
    random_clean(&mut b, rng, n, children(n) - 1, LOCATIONS - 1, 0);
    b.trace
}

/// So many races, each at a location of its own.
const RACES: usize = 16;

/// Random forks, halts and joins, and accesses that do not race; now and then a child and its parent,
/// who joins it then, write a location that no other touches.
fn few_races(n: usize, rng: &mut Rng) -> Trace {
    let mut b = Builder::shuffled(rng);
    let (forks, locations) = ((children(n) - RACES) / RACES, LOCATIONS - RACES);
    for race in 0..RACES {
        random_clean(&mut b, rng, n / RACES * (race + 1) - 5, forks, locations, 0);
        let l = (locations + race) as u16;
        b.fork();
        b.write(l);
        b.halt();
        b.write(l);
        b.join();
    }
    b.trace
}

/// A child and its parent go over all locations, the one where the other has stopped: each is touched
/// again 1,024 accesses later.
fn far_partners(n: usize, rng: &mut Rng) -> Trace {
    let mut b = Builder::default();
    let mut next = in_turn(rng);
    b.fork();
    touch_up_to(&mut b, rng, n / 2, &mut next);
    b.halt();
    touch_up_to(&mut b, rng, n, &mut next);
    b.trace
}

/// Random forks, halts and joins, and random accesses, whether they race or not.
fn random_races(n: usize, rng: &mut Rng) -> Trace {
    let mut b = Builder::shuffled(rng);
    while b.trace.len() < n {
        if !random_move(&mut b, rng, 0, 0) {
            touch_one(&mut b, rng, 0, LOCATIONS);
        }
    }
    b.trace
}

/// As many pairs as we can make: 7,157,923 of 32,768 events.
pub fn dense(n: usize, rng: &mut Rng) -> Trace {
    nest(n, rng, 1)
}

fn half_dense(n: usize, rng: &mut Rng) -> Trace {
    nest(n, rng, 2)
}

/// Tasks are forked one in the other. Then each in turn, from the innermost on, writes some of the
/// locations and halts: no task is ordered with another. More tasks would need more moves, and fewer
/// have longer turns, in which accesses are ordered.
fn nest(n: usize, rng: &mut Rng, locations: usize) -> Trace {
    let mut b = Builder::default();
    let forks = n * 13 / 512;
    (0..forks).for_each(|_| b.fork());
    for turn in 1..=forks + 1 {
        let end = forks + (n - forks) * turn / (forks + 1);
        while b.trace.len() + usize::from(b.depth() > 1) < end {
            b.write(rng.cell(locations));
        }
        b.halt_down_to(forks + 1 - turn.min(forks));
    }
    b.trace
}
