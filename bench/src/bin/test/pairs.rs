//! The list of close pairs held against the slow one: the answer, both slices and the workspace whole
//! with the cells around them, the trace. Then traces whose pairs are known by construction: at the
//! bound, with many pairs and with none near, broken off, with a rule broken behind them, and with
//! slices of every length. Each way to get the list wrong must show in them. Counts what was met.

use crate::buffer::{dirt, Buffer};
use crate::chains::BREAKING;
use crate::compare::{
    answer_difference, first_difference, held, known, trace_difference, Counts, Test,
};
use crate::document::{
    trace, COUNTED, JOINED_BY_WAY_OF_A_SIBLING, JOINS_A_SIBLING, SUM_AND_READ, SUM_AND_WRITE,
    TWO_READERS, TWO_SUMS, WRITES_TWICE, WRITE_AMONG_SUMS,
};
use crate::sums::{nine_pairs, CONFLICTING, WRONG};
use crate::tally::fail;
use crate::watch::watched;
use racejudge_bench::ancestors::Ancestors;
use racejudge_bench::builder::Builder;
use racejudge_bench::ffi::{Lister, Told, LISTER, LISTER_C};
use racejudge_bench::line::names_resumed;
use racejudge_bench::pairs::{listed, pairs, pairs_by, Found, Listed, Pair, Way, WAY};
use racejudge_bench::rng::Rng;
use racejudge_bench::trace::Listing::Refused;
use racejudge_bench::trace::*;
use racejudge_bench::workloads::dense;
use std::sync::Arc;

pub const LISTERS: [&Lister; 2] = [&LISTER, &LISTER_C];

/// Between two accesses that race stands a halt at least.
const NEAREST: usize = 2;

pub struct Pairs {
    rng: Rng,
    pub dirt: Vec<u16>,
    pub met: Counts,
    /// How many pairs that were listed are so far apart.
    apart: [usize; CLOSE + 1],
    /// The longest list.
    longest: usize,
}

impl Pairs {
    pub fn new(seed: u64) -> Self {
        let mut rng = Rng::new(seed);
        let dirt = dirt(&mut rng);
        Pairs { rng, dirt, met: Counts::default(), apart: [0; CLOSE + 1], longest: 0 }
    }

    /// The pairs of a trace, with slices as long as needed or a little longer. Where there are some,
    /// now and then also with one that is too short.
    pub fn all_of(&mut self, slow: &mut Ancestors, trace: &Trace) -> Found {
        let found = pairs(slow, trace);
        let k = found.as_ref().map_or(0, Vec::len);
        let need = [WORKSPACE + trace.len(), k, k];
        let mut lent = need.map(|need| need + self.rng.below(3));
        self.list_with(trace, &found, lent);
        if k > 0 && self.rng.chance(1, 4) {
            let short = [0, k - 1, self.rng.below(k)];
            lent[1 + self.rng.below(2)] = self.rng.one_of(&short);
            self.list_with(trace, &found, lent);
        }
        found
    }

    /// What the library says, with a workspace and two slices of these lengths, which is counted.
    pub fn list_with(&mut self, trace: &Trace, found: &Found, lent: [usize; 3]) -> Listing {
        let wanted = listed(trace, found, lent);
        for lister in LISTERS {
            held(self.listed_by(lister, trace, lent, &wanted));
        }
        match wanted.said {
            Listing::Pairs(k) => self.met.plain[usize::from(k > 0)] += 1,
            Refused(row, _) => self.met.rows[row] += 1,
        }
        for (s, t) in wanted.earlier.iter().zip(&wanted.later) {
            self.apart[usize::from(t - s)] += 1;
        }
        self.longest = self.longest.max(wanted.earlier.len());
        wanted.said
    }

    /// What one call tells, or how that or what it leaves differs from what is wanted.
    pub fn listed_by(
        &mut self,
        lister: &Lister,
        trace: &Trace,
        lent: [usize; 3],
        wanted: &Listed,
    ) -> Result<Told<2>, String> {
        let copy = Arc::new(trace.clone());
        let [mut w, mut e, mut l] = lent.map(|lent| Buffer::drawn(&self.dirt, &mut self.rng, lent));
        let told =
            watched(lister.name, copy.clone(), || lister.list(&copy, w.lend(), e.lend(), l.lend()));
        let differences = [
            ("answer", answer_difference(told, wanted.said)),
            ("trace", trace_difference(&copy, trace)),
            ("workspace", w.difference(&vec![0; wanted.cleared])),
            ("slice of the earlier", e.difference(&wanted.earlier)),
            ("slice of the later", l.difference(&wanted.later)),
        ];
        first_difference(lister.name, trace, &wanted.said, differences).map_or(Ok(told), Err)
    }

    pub fn line(&self) -> String {
        let (all, least) = (self.apart.iter().sum::<usize>(), self.apart[NEAREST..].iter().min());
        format!(
            "pairs listed: {all}, up to {} of one trace, of each distance from {NEAREST} to {CLOSE} \
             at least {}\n",
            self.longest,
            least.unwrap_or(&0)
        )
    }

    /// What was never met.
    pub fn missing(&self) -> Option<String> {
        let never = self.apart[NEAREST..].iter().position(|&count| count == 0);
        let never = never.map(|at| format!("a pair {} apart", NEAREST + at));
        never.or((self.longest < MANY).then(|| format!("{MANY} pairs of one trace")))
    }
}

/// The longest list must have so many pairs at least.
const MANY: usize = 7_000_000;

/// A trace, and its pairs.
pub type Known = (Trace, Vec<Pair>);

pub fn all(test: &mut Test, lists: &[Known]) {
    for (trace, pairs) in lists {
        hold(test, trace, pairs);
    }
    for (run, row, at) in REFUSED {
        let trace = trace(run);
        known(pairs(&mut test.slow, &trace), Err((row, at)), run);
        test.both(&trace, 1);
    }
    broken_off(test);
    broken(test);
    lengths(test);
    most(test);
}

/// The slow pairs must be the known ones, and all that is called on any trace is called on this one.
fn hold(test: &mut Test, trace: &Trace, wanted: &[Pair]) {
    known(pairs(&mut test.slow, trace).as_deref(), Ok(wanted), trace);
    test.both(trace, 1);
}

/// Traces whose pairs are known.
pub fn lists(test: &mut Test) -> Vec<Known> {
    let runs = RUNS.map(|(run, pairs)| (trace(run), pairs.to_vec()));
    let apart = nine_pairs().flat_map(|kinds| DISTANCES.map(|distance| (distance, kinds)));
    let apart = apart.flat_map(|(distance, kinds)| [0, 300].map(|n| apart_by(n, distance, kinds)));
    let far = [3, 200, 255, 256, 257, 258, 300].map(far);
    let joined = [100, 252, 253, 254, 255, 256, 257].map(far_and_joined);
    let edges = [0, 1, 2].map(at_the_edge);
    let counted = [65_534, 65_535, 65_536, 65_537, 65_538].map(with_pairs);
    let nests = NESTS.map(|(tasks, turn, locations)| unordered(nest(test, tasks, turn, locations)));
    let nests = counted.into_iter().chain(nests).chain([row()]);
    let far = far.into_iter().chain(joined).chain(edges);
    runs.into_iter().chain(apart).chain(far).chain(nests).collect()
}

/// Runs with their pairs.
const RUNS: [(&str, &[Pair]); 28] = [
    ("", &[]),
    ("0 write 5", &[]),
    (TWO_READERS, &[]),
    (TWO_SUMS, &[]),
    (SUM_AND_READ, &[(1, 3)]),
    (SUM_AND_WRITE, &[(1, 3)]),
    (WRITES_TWICE, &[(1, 4), (2, 4)]),
    (WRITE_AMONG_SUMS, &[(2, 5)]),
    (COUNTED, &[]),
    (JOINS_A_SIBLING, &[(1, 7)]),
    (JOINED_BY_WAY_OF_A_SIBLING, &[]),
    // Races behind the first, whose earlier events come in another order than the later ones.
    (
        "0 fork 1, 1 write 5, 1 write 6, 1 halt, 0 write 6, 0 write 5, 0 read 5",
        &[(2, 4), (1, 5), (1, 6)],
    ),
    // Each two of three tasks.
    (
        "0 fork 1, 1 write 5, 1 halt, 0 fork 2, 2 write 5, 2 halt, 0 write 5",
        &[(1, 4), (1, 6), (4, 6)],
    ),
    // The trace breaks off in a child, or all have halted.
    ("0 fork 1, 1 sum 5, 1 halt, 0 fork 2, 2 fork 3, 3 read 5", &[(1, 5)]),
    ("0 fork 1, 1 sum 5, 1 halt, 0 read 5, 0 halt", &[(1, 3)]),
    // What comes before the fork or behind the join is ordered.
    ("0 write 5, 0 fork 1, 1 write 5, 1 halt, 0 read 5, 0 join 1, 0 write 5", &[(2, 4)]),
    // One of two is joined.
    (
        "0 fork 1, 1 write 5, 1 halt, 0 fork 2, 2 write 5, 2 halt, 0 join 2, 0 write 5",
        &[(1, 4), (1, 7)],
    ),
    // Two writes: unordered, joined, before the fork, of two locations.
    ("0 fork 1, 1 write 5, 1 halt, 0 write 5", &[(1, 3)]),
    ("0 fork 1, 1 write 5, 1 halt, 0 join 1, 0 write 5", &[]),
    ("0 write 5, 0 fork 1, 1 write 5", &[]),
    ("0 fork 1, 1 write 5, 1 halt, 0 write 6", &[]),
    // Each kind against each.
    (
        "0 fork 1, 1 sum 5, 1 read 5, 1 write 5, 1 halt, 0 sum 5, 0 read 5, 0 write 5",
        &[(2, 5), (3, 5), (1, 6), (3, 6), (1, 7), (2, 7), (3, 7)],
    ),
    // Two accesses with one partner; races of two locations.
    ("0 fork 1, 1 sum 5, 1 halt, 0 read 5, 0 read 5", &[(1, 3), (1, 4)]),
    (
        "0 fork 1, 1 write 5, 1 read 6, 1 halt, 0 write 5, 0 write 6, 0 read 5",
        &[(1, 4), (2, 5), (1, 6)],
    ),
    // A task joins one that it did not fork.
    (
        "0 fork 1, 1 write 5, 1 halt, 0 fork 2, 2 join 1, 2 write 5, 2 halt, 0 write 5",
        &[(1, 7), (5, 7)],
    ),
    // After a race all goes on.
    (
        "0 fork 1, 1 write 5, 1 halt, 0 write 5, 0 join 1, 0 fork 2, 2 write 5, 2 halt, 0 write 5",
        &[(1, 3), (6, 8)],
    ),
    // What a move names is no location.
    ("0 fork 5, 5 write 5, 5 write 6, 5 halt, 0 fork 6, 6 halt, 0 join 6, 0 join 5, 0 halt", &[]),
    ("0 fork 5, 5 write 0, 5 halt, 0 fork 6, 6 write 5, 6 halt, 0 join 6, 0 join 5", &[]),
];

/// Runs that break a rule behind a race, with the row and the position.
const REFUSED: [(&str, usize, usize); 8] = [
    ("0 fork 1, 1 write 5, 1 halt, 0 write 5, 0 6 0", 5, 4),
    ("0 fork 1, 1 write 5, 1 halt, 0 write 5, 0 halt, 0 write 5", 6, 5),
    ("0 fork 1, 1 write 5, 1 halt, 0 write 5, 1 write 5", 7, 4),
    ("0 fork 1, 1 write 5, 1 halt, 0 write 5, 0 sum 1024", 8, 4),
    ("0 fork 1, 1 write 5, 1 halt, 0 write 5, 0 fork 1024", 9, 4),
    ("0 fork 1, 1 write 5, 1 halt, 0 write 5, 0 fork 1", 10, 4),
    ("0 fork 1, 1 write 5, 1 halt, 0 write 5, 0 join 2", 11, 4),
    ("0 fork 1, 1 write 5, 1 halt, 0 write 5, 0 halt 1", 12, 4),
];

/// The least, beside a block of many events, and around the bound and what a byte takes for it.
const DISTANCES: [usize; 12] = [2, 3, 16, 17, 254, 255, 256, 257, 258, 511, 512, 513];

/// An access of a child and one of its parent, so far apart, behind so many others.
fn apart_by(before: usize, distance: usize, kinds: (u8, u8)) -> Known {
    let mut b = Builder::default();
    (0..before).for_each(|_| b.read(3));
    b.fork();
    let s = b.trace.len();
    b.access(kinds.0, 5);
    while b.trace.len() + 1 < s + distance {
        b.read(3);
    }
    b.halt();
    b.access(kinds.1, 5);
    let racing = distance <= CLOSE && CONFLICTING.contains(&kinds);
    let pair = racing.then_some((s as u16, (s + distance) as u16));
    (b.trace, pair.into_iter().collect())
}

/// A child's write, and its parent's from an event on: those are ordered, and near each other.
fn far(from: u16) -> Known {
    let (mut b, later) = written_far_before(from);
    (from..600).for_each(|_| b.write(7));
    (b.trace, later((from..600).collect()))
}

/// The same, but another child writes, and its parent once that is joined.
fn far_and_joined(from: u16) -> Known {
    let (mut b, later) = written_far_before(from);
    b.fork();
    b.write(7);
    b.halt();
    b.join();
    b.write(7);
    (b.trace, later(vec![from + 1, from + 4]))
}

/// A child writes event 1, and its parent reads something else up to this event. Of later events that
/// race with event 1, the pairs.
fn written_far_before(from: u16) -> (Builder, impl Fn(Vec<u16>) -> Vec<Pair>) {
    let mut b = Builder::default();
    b.fork();
    b.write(7);
    b.halt();
    while b.trace.len() < usize::from(from) {
        b.read(3);
    }
    let close = |&t: &u16| usize::from(t - 1) <= CLOSE;
    (b, move |later| later.into_iter().filter(close).map(|t| (1, t)).collect())
}

/// A pair, two writes by task 2, then reads by task 0, and last its write: 256 and 255 events behind the
/// two, or so many more.
fn at_the_edge(more: u16) -> Known {
    let begun = "0 fork 1, 1 write 5, 1 halt, 0 read 5, 0 fork 2, 2 write 6, 2 write 6, 2 halt";
    let (mut trace, t) = (trace(begun), 261 + more);
    while trace.len() < usize::from(t) {
        trace.push(0, READ, 0);
    }
    trace.push(0, WRITE, 6);
    let pairs = [(1, 3), (5, t), (6, t)].into_iter().filter(|(s, t)| t - s <= 256);
    (trace, pairs.collect())
}

/// Task 0 forks all others, of which each writes and halts, then joins them and writes. The writes stand
/// at 1, 4, 7 and so on, and each races with the 85 before it: 0 + 1 + .. + 84 + 938 * 85 pairs.
fn row() -> Known {
    let mut b = Builder::default();
    for _ in 1..TASKS {
        b.fork();
        b.write(6);
        b.halt();
    }
    b.join_all();
    b.write(6);
    let writes = |t: u16| (1..t).step_by(3).filter(move |s| t - s <= 256).map(move |s| (s, t));
    let pairs: Vec<Pair> = (1..3_069).step_by(3).flat_map(writes).collect();
    known(pairs.len(), 83_300, &b.trace);
    (b.trace, pairs)
}

/// Tasks that are forked one in the other before any access, how many accesses each makes, and to how
/// many locations.
const NESTS: [(usize, usize, usize); 9] = [
    (2, 300, 1),
    (2, 400, 2),
    (3, 300, 40),
    (8, 100, 2),
    (12, 40, 1),
    (40, 16, 2),
    (100, 7, 3),
    (300, 2, 1),
    (TASKS, 1, 5),
];

/// From the innermost on each task makes its accesses, of any kind, and halts.
fn nest(test: &mut Test, tasks: usize, turn: usize, locations: usize) -> Trace {
    let (mut b, rng) = (Builder::shuffled(&mut test.rng), &mut test.rng);
    (1..tasks).for_each(|_| b.fork());
    for left in (0..tasks).rev() {
        (0..turn).for_each(|_| b.access(ACCESSES[rng.below(3)], rng.cell(locations)));
        b.halt_down_to(left);
    }
    b.trace
}

/// A nest with its pairs: accesses of different tasks are not ordered.
fn unordered(trace: Trace) -> Known {
    let pairs = (0..trace.len()).flat_map(|t| partners(&trace, t).map(move |s| (s, t)));
    let pairs = pairs.map(|(s, t)| (s as u16, t as u16)).collect();
    (trace, pairs)
}

fn partners(trace: &Trace, t: usize) -> impl Iterator<Item = usize> + '_ {
    let (task, kind, operand) = trace.event(t);
    (t.saturating_sub(CLOSE)..t).filter(move |&s| {
        let (other, earlier, location) = trace.event(s);
        other != task && location == operand && CONFLICTING.contains(&(earlier, kind))
    })
}

/// A nest with so many pairs: nearly all of one location, and of another one event has the rest.
fn with_pairs(k: usize) -> Known {
    let (mut b, mut pairs) = (Builder::default(), 0);
    (0..100).for_each(|_| b.fork());
    while pairs + CLOSE - 2 < k {
        if b.trace.len() % 10 == 0 {
            b.halt();
        } else {
            b.write(0);
            pairs += partners(&b.trace, b.trace.len() - 1).count();
        }
    }
    b.halt();
    (pairs..k).for_each(|_| b.write(1));
    b.halt();
    b.write(1);
    let (trace, pairs) = unordered(b.trace);
    known(pairs.len(), k, &trace);
    (trace, pairs)
}

/// Wherever a trace breaks off, its pairs are those before.
fn broken_off(test: &mut Test) {
    let (whole, pairs) = unordered(nest(test, 12, 40, 3));
    for n in 0..whole.len() {
        let mut begun = whole.clone();
        begun.truncate(n);
        let before = pairs.partition_point(|&(_, t)| usize::from(t) < n);
        let found = test.pairs.all_of(&mut test.slow, &begun);
        known(found.as_deref(), Ok(&pairs[..before]), &begun);
    }
}

/// Behind few and many pairs a rule is broken, whatever is lent: nothing is listed, and 20 comes later.
fn broken(test: &mut Test) {
    let few = trace("0 fork 1, 1 fork 2, 2 write 7, 2 halt 1, 1 write 7, 1 halt, 0 write 7");
    let many = dense(2_048, &mut test.rng);
    for (trace, pairs) in [few, many].map(unordered) {
        let (n, k, behind) = (trace.len(), pairs.len(), (0, WRITE, 7));
        let at_once = BREAKING.map(|(event, row)| ([event, behind], row, n));
        let next = ([(0, HALT, 0), behind], 6, n + 1);
        for (events, row, at) in at_once.into_iter().chain([next]) {
            let mut longer = trace.clone();
            events.into_iter().for_each(|event| longer.insert(longer.len(), event));
            for cells in [0, 1, k - 1, k, k + 9] {
                let said = test.pairs_with(&longer, [WORKSPACE + n + 2, cells, cells]);
                known(said, Refused(row, at), &longer);
            }
        }
    }
}

/// Slices of every length around the needed ones, in every combination.
fn lengths(test: &mut Test) {
    let nest = nest(test, 12, 40, 2);
    for trace in RUNS.map(|(run, _)| trace(run)).into_iter().chain([nest]) {
        let found = pairs(&mut test.slow, &trace);
        let (n, k) = (trace.len(), found.as_ref().map_or(0, Vec::len));
        let near = [0, 1, k / 2, k.saturating_sub(1), k, k + 1, k + 2, k + 50];
        for workspace in [0, WORKSPACE + n - 1, WORKSPACE + n, WORKSPACE + n + 1] {
            for earlier in near {
                for later in near {
                    let said = match (workspace < WORKSPACE + n, earlier.min(later) < k) {
                        (true, _) => Refused(3, 0),
                        (_, true) => Refused(20, 0),
                        _ => Listing::Pairs(k),
                    };
                    let lent = [workspace, earlier, later];
                    let told = test.pairs.list_with(&trace, &found, lent);
                    known(told, said, format_args!("slices of {lent:?} and {trace}"));
                }
            }
        }
    }
}

/// As many pairs as we can make.
fn most(test: &mut Test) {
    let (trace, pairs) = unordered(dense(MAX_EVENTS, &mut test.rng));
    let (workspace, k) = (WORKSPACE + trace.len(), pairs.len());
    hold(test, &trace, &pairs);
    let found = Ok(pairs);
    for [earlier, later] in [[k, k], [k - 1, k], [k, k - 1], [MAX_PAIRS; 2], [0, MAX_PAIRS]] {
        test.pairs.list_with(&trace, &found, [workspace, earlier, later]);
    }
}

/// Wrong ways to tell which pairs are listed.
const WAYS: [(&str, Way); 10] = [
    ("255 are close", Way { close: CLOSE - 1, ..WAY }),
    ("257 are close", Way { close: CLOSE + 1, ..WAY }),
    ("512 are close", Way { close: 2 * CLOSE, ..WAY }),
    ("all are close", Way { close: MAX_EVENTS, ..WAY }),
    ("ordered accesses race", Way { race: Ancestors::conflict, ..WAY }),
    (
        "accesses of any location race",
        Way {
            race: |stored, trace, s, t| {
                is_access(trace.kinds[s]) && is_access(trace.kinds[t]) && !stored.reaches(s, t)
            },
            ..WAY
        },
    ),
    (
        "accesses of one segment race, whose numbers are equal",
        Way {
            race: |stored, trace, s, t| {
                let same = trace.kinds[s..=t].iter().all(|&kind| is_access(kind));
                stored.conflict(trace, s, t) && (same || !stored.reaches(s, t))
            },
            ..WAY
        },
    ),
    (
        "accesses of different tasks race",
        Way {
            race: |stored, trace, s, t| {
                stored.conflict(trace, s, t) && trace.tasks[s] != trace.tasks[t]
            },
            ..WAY
        },
    ),
    (
        "task 0 races with nothing",
        Way {
            race: |stored, trace, s, t| (WAY.race)(stored, trace, s, t) && trace.tasks[t] != 0,
            ..WAY
        },
    ),
    (
        "a move is a write of what it names",
        Way {
            race: |stored, trace, s, t| {
                let moves = !(is_access(trace.kinds[s]) && is_access(trace.kinds[t]));
                let same = trace.operands[s] == trace.operands[t];
                !stored.reaches(s, t) && (stored.conflict(trace, s, t) || moves && same)
            },
            ..WAY
        },
    ),
];

/// Makes something wrong of a list.
type Edit = fn(Vec<Pair>) -> Vec<Pair>;

const EDITS: [(&str, Edit); 16] = [
    ("s and t are exchanged", |pairs| pairs.into_iter().map(exchanged).collect()),
    ("each pair comes both ways", |pairs| {
        pairs.into_iter().flat_map(|pair| [pair, exchanged(pair)]).collect()
    }),
    ("each pair comes twice", |pairs| pairs.into_iter().flat_map(|pair| [pair; 2]).collect()),
    ("t has its first partner alone", |mut pairs| {
        pairs.dedup_by_key(|pair| pair.1);
        pairs
    }),
    ("t has its last partner alone", |pairs| {
        let mut pairs = reversed(pairs);
        pairs.dedup_by_key(|pair| pair.1);
        reversed(pairs)
    }),
    ("s has its first partner alone", |pairs| {
        let is_first =
            |(at, pair): &(usize, &Pair)| pairs[..*at].iter().all(|other| other.0 != pair.0);
        pairs.iter().enumerate().filter(is_first).map(|(_, &pair)| pair).collect()
    }),
    ("the first race's are the only pairs", |mut pairs| {
        let first = pairs.first().copied();
        pairs.retain(|pair| first.is_some_and(|first| pair.1 == first.1));
        pairs
    }),
    ("the first is the only pair", |pairs| pairs.into_iter().take(1).collect()),
    ("the first pair is left out", |pairs| pairs.into_iter().skip(1).collect()),
    ("the last pair is left out", |mut pairs| {
        pairs.pop();
        pairs
    }),
    ("no pair is listed", |_| Vec::new()),
    ("pairs are in order of s and then of t", |mut pairs| {
        pairs.sort();
        pairs
    }),
    ("the latest partner comes first", |mut pairs| {
        pairs.sort_by_key(|&(s, t)| (t, u16::MAX - s));
        pairs
    }),
    ("pairs are in the reverse order", reversed),
    ("65,535 are listed at most", |pairs| pairs.into_iter().take(65_535).collect()),
    ("16 bits count the pairs", |mut pairs| {
        pairs.truncate(pairs.len() % 65_536);
        pairs
    }),
];

fn exchanged((s, t): Pair) -> Pair {
    (t, s)
}

fn reversed(mut pairs: Vec<Pair>) -> Vec<Pair> {
    pairs.reverse();
    pairs
}

/// How many wrong lists were noticed. One that is not ends the test.
pub fn wrong_lists(lists: &[Known]) -> usize {
    for (name, conflict) in WRONG {
        let mut slow = Ancestors::by(conflict, names_resumed);
        noticed(name, lists, |trace| pairs(&mut slow, trace));
    }
    let mut slow = Ancestors::default();
    for (name, way) in WAYS {
        noticed(name, lists, |trace| pairs_by(&way, &mut slow, trace));
    }
    for (name, edit) in EDITS {
        noticed(name, lists, |trace| pairs(&mut slow, trace).map(edit));
    }
    WRONG.len() + WAYS.len() + EDITS.len()
}

fn noticed(name: &str, lists: &[Known], mut list: impl FnMut(&Trace) -> Found) {
    if lists.iter().all(|(trace, pairs)| list(trace).as_ref() == Ok(pairs)) {
        fail(&format!("NOT NOTICED: a list of pairs by which {name}"));
    }
}
