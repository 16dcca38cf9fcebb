//! The rows of the tables: traces or plans of one kind, and the best time of each peer on each.

use crate::peers::{Call, Input, Peer, Peers};
use crate::peers::{AGAIN, CARDS, CHAINS, CONVERTING, JUDGING, ORDERING, READING};
use crate::peers::{LISTING, LISTING_RACES};
use racejudge_bench::extent::Extent;
use racejudge_bench::ffi::BEFORE;
use racejudge_bench::joins::links;
use racejudge_bench::rng::Rng;
use racejudge_bench::shapes::{Shape, HALVED, RANDOM, SHAPES};
use racejudge_bench::trace::*;
use racejudge_bench::workloads::{self, Make, Racing, Workload, PAIRS, RACING, WORKLOADS};

/// The sizes at which growth is measured.
pub const SIZES: [usize; 5] = [1_024, 4_096, 8_192, 16_384, MAX_EVENTS];

/// Up to this size the all-ancestors judge looks at every trace.
const MATRIX_EVENTS: usize = 4_096;

/// A call that looks at fewer events than this is too short for the clock: many are timed at once.
const SHORT: usize = 64;
const BATCH: usize = 64;

/// A list of many pairs takes long: so few traces of each workload with races are measured.
const RACING_TRACES: usize = 2;

pub struct Row {
    pub name: &'static str,
    /// What else tells the row from others.
    detail: String,
    pub events: usize,
    /// The close pairs of all traces, where these are listed.
    pairs: usize,
    pub peers: &'static [Peer],
    call: Call,
    inputs: Vec<Input>,
    batch: usize,
    best: Vec<[f64; Peer::COUNT]>,
}

impl Row {
    fn new(
        name: &'static str,
        peers: &'static [Peer],
        call: Call,
        inputs: Vec<impl Into<Input>>,
        expected: Answer,
    ) -> Self {
        let inputs: Vec<Input> = inputs.into_iter().map(Into::into).collect();
        let events = inputs[0].trace.len();
        let looked_at = match expected {
            Answer::Race(_, t) => t + 1,
            _ => events,
        };
        Row {
            name,
            detail: String::new(),
            events,
            pairs: 0,
            peers,
            call,
            batch: if looked_at < SHORT { BATCH } else { 1 },
            best: vec![[f64::INFINITY; Peer::COUNT]; inputs.len()],
            inputs,
        }
    }

    pub fn label(&self) -> String {
        format!("{}{}", self.name, self.detail)
    }

    pub fn inputs(&self) -> usize {
        self.inputs.len()
    }

    /// How many tasks there are in a trace.
    pub fn tasks(&self) -> usize {
        Extent::of(&self.inputs[0].trace).tasks
    }

    pub fn measure(&mut self, peers: &mut Peers, peer: Peer, input: usize) {
        let batch = if peer == Peer::Ancestors { 1 } else { self.batch };
        let time = peers.time(peer, self.call, &self.inputs[input], batch);
        let best = &mut self.best[input][peer as usize];
        *best = best.min(time);
    }

    /// The mean over the inputs that were measured, in microseconds a call.
    pub fn micros(&self, peer: Peer) -> f64 {
        let times = self.best.iter().map(|best| best[peer as usize]);
        let measured: Vec<f64> = times.filter(|time| time.is_finite()).collect();
        measured.iter().sum::<f64>() / measured.len() as f64 * 1e6
    }

    pub fn nanos_an_event(&self, peer: Peer) -> f64 {
        self.micros(peer) * 1e3 / self.events as f64
    }

    /// The same for the bytes of the plans.
    pub fn nanos_a_byte(&self, peer: Peer) -> f64 {
        let bytes: usize = self.inputs.iter().map(|input| input.plan.len()).sum();
        self.micros(peer) * 1e3 * self.inputs.len() as f64 / bytes as f64
    }

    /// Millions of events a second.
    pub fn millions(&self, peer: Peer) -> f64 {
        self.events as f64 / self.micros(peer)
    }

    /// The close pairs of a trace, on the mean.
    pub fn pairs(&self) -> f64 {
        self.pairs as f64 / self.inputs.len() as f64
    }

    /// Millions of them a second.
    pub fn million_pairs(&self, peer: Peer) -> f64 {
        self.pairs() / self.micros(peer)
    }
}

/// Those of each table.
pub struct Rows {
    pub workloads: Vec<Row>,
    pub growth: Vec<Row>,
    pub ordering: Vec<Row>,
    pub cards: Vec<Row>,
    pub chains: Vec<Row>,
    pub again: Vec<Row>,
    pub pairs: Vec<Row>,
    pub races: Vec<Row>,
    pub plans: Vec<Row>,
    pub plan_growth: Vec<Row>,
    pub conversion: Vec<Row>,
}

impl Rows {
    /// With so many traces or plans of full size in each. All that is measured agrees on them.
    pub fn new(peers: &mut Peers, count: usize, rng: &mut Rng) -> Self {
        Rows {
            workloads: workloads(peers, count, rng),
            growth: growth(peers, count, rng),
            ordering: ordering(peers, count, rng),
            cards: cards(peers, count, rng),
            chains: chains(peers, count, rng),
            again: again(peers, count, rng),
            pairs: pairs(peers, count, rng),
            races: RACING.iter().map(|racing| races(peers, racing, count, rng)).collect(),
            plans: SHAPES.iter().map(|shape| plans(peers, shape, MAX_EVENTS, count, rng)).collect(),
            plan_growth: plan_growth(peers, count, rng),
            conversion: conversion(peers, count, rng),
        }
    }

    pub fn all(&mut self) -> impl Iterator<Item = &mut Row> {
        let Rows { workloads, growth, ordering, cards, chains, again, .. } = self;
        let judged = [workloads, growth, ordering, cards, chains, again];
        let listed = [&mut self.pairs, &mut self.races];
        let others = [&mut self.plans, &mut self.plan_growth, &mut self.conversion];
        judged.into_iter().chain(listed).chain(others).flatten()
    }
}

fn traces(make: Make, n: usize, count: usize, rng: &mut Rng) -> Vec<Trace> {
    let traces: Vec<Trace> = (0..count).map(|_| make(n, rng)).collect();
    assert!(traces.iter().all(|trace| trace.is_empty() || trace.len() == n), "{n} events");
    traces
}

/// Each workload at full size. The all-ancestors judge looks at small traces of every workload and
/// at one of full size.
fn workloads(peers: &mut Peers, count: usize, rng: &mut Rng) -> Vec<Row> {
    let mut rows = Vec::new();
    for workload in &WORKLOADS {
        for n in [1_024, 2_048] {
            for trace in traces(workload.make, n, 3, rng) {
                peers.agree(&trace, (workload.expected)(n), true);
            }
        }
        let traces = traces(workload.make, MAX_EVENTS, count, rng);
        let expected = (workload.expected)(MAX_EVENTS);
        for (i, trace) in traces.iter().enumerate() {
            peers.agree(trace, expected, i == 0);
        }
        rows.push(Row::new(workload.name, &JUDGING, Call::Judge, traces, expected));
    }
    rows
}

/// Two workloads at each of the sizes, with as many events in all at each.
fn growth(peers: &mut Peers, count: usize, rng: &mut Rng) -> Vec<Row> {
    let mut rows = Vec::new();
    let made: [(&str, Make); 2] =
        [("pipeline", workloads::pipeline), ("random", workloads::random)];
    for (name, make) in made {
        for n in SIZES {
            let traces = traces(make, n, count * MAX_EVENTS / n, rng);
            for trace in &traces {
                peers.agree(trace, Answer::Clean, n <= MATRIX_EVENTS);
            }
            let row = Row::new(name, &JUDGING, Call::Judge, traces, Answer::Clean);
            rows.push(Row { detail: format!(", {n} events"), ..row });
        }
    }
    rows
}

/// The ordering call with q early, in the middle and late.
fn ordering(peers: &mut Peers, count: usize, rng: &mut Rng) -> Vec<Row> {
    let mut rows = Vec::new();
    let made: [(&str, Make); 3] = [
        ("pipeline", workloads::pipeline),
        ("fork tree", workloads::tree),
        ("random", workloads::random),
    ];
    for (name, make) in made {
        let traces = traces(make, MAX_EVENTS, count, rng);
        let places =
            [("early", MAX_EVENTS / 16), ("middle", MAX_EVENTS / 2), ("late", MAX_EVENTS - 1)];
        for (place, q) in places {
            let p = q / 3;
            for trace in &traces {
                peers.agree_on_order(trace, p, q);
            }
            let call = Call::Ordering(p, q);
            let row = Row::new(name, &ORDERING, call, traces.clone(), Answer::Clean);
            rows.push(Row { detail: format!(", q {place}"), ..row });
        }
    }
    rows
}

fn clean() -> impl Iterator<Item = &'static Workload> {
    WORKLOADS.iter().filter(|workload| (workload.expected)(MAX_EVENTS) == Answer::Clean)
}

/// The clean workloads at full size, for cards.
fn cards(peers: &mut Peers, count: usize, rng: &mut Rng) -> Vec<Row> {
    let mut rows = Vec::new();
    for workload in clean() {
        let traces = traces(workload.make, MAX_EVENTS, count, rng);
        if traces[0].is_empty() {
            continue;
        }
        for trace in &traces {
            peers.agree(trace, Answer::Clean, false);
            peers.agree_on_cards(trace);
        }
        rows.push(Row::new(workload.name, &CARDS, Call::Judge, traces, Answer::Clean));
    }
    rows
}

/// The workloads that differ in their chains, the one with the long chains of each pair first.
fn chains(peers: &mut Peers, count: usize, rng: &mut Rng) -> Vec<Row> {
    let mut rows = Vec::new();
    for pair in &PAIRS {
        for (make, wanted) in [(pair.long, MAX_LINKS), (pair.short, 1)] {
            let traces = traces(make, MAX_EVENTS, count, rng);
            for trace in &traces {
                assert_eq!(links(trace, Answer::Clean), wanted, "{}", pair.name);
                peers.agree(trace, Answer::Clean, false);
            }
            let row = Row::new(pair.name, &CHAINS, Call::Judge, traces, Answer::Clean);
            rows.push(Row { detail: format!(", chains of {wanted}"), ..row });
        }
    }
    rows
}

/// Each workload at full size once more, for the older judge; none where none is linked. One that
/// refuses sums has no row where there are some, and one that is older than halts that name a task is
/// lent the traces as they were stored.
fn again(peers: &mut Peers, count: usize, rng: &mut Rng) -> Vec<Row> {
    let mut rows = Vec::new();
    let Some(before) = &BEFORE else {
        return rows;
    };
    for workload in &WORKLOADS {
        let traces = traces(workload.make, MAX_EVENTS, count, rng);
        if traces[0].kinds.contains(&SUM) && !before.knows_sums() {
            continue;
        }
        let expected = (workload.expected)(MAX_EVENTS);
        let lent = |trace: Trace| match before.knows_resumed() {
            true => Input { stored: trace.clone(), ..Input::from(trace) },
            false => trace.into(),
        };
        let inputs: Vec<Input> = traces.into_iter().map(lent).collect();
        for Input { trace, stored, .. } in &inputs {
            peers.agree(trace, expected, false);
            peers.agree_before(before, stored, expected);
        }
        rows.push(Row::new(workload.name, &AGAIN, Call::Judge, inputs, expected));
    }
    rows
}

/// The clean workloads at full size, for pairs.
fn pairs(peers: &mut Peers, count: usize, rng: &mut Rng) -> Vec<Row> {
    let mut rows = Vec::new();
    for workload in clean() {
        let traces = traces(workload.make, MAX_EVENTS, count, rng);
        for trace in &traces {
            peers.agree(trace, Answer::Clean, false);
            assert_eq!(peers.agree_on_pairs(trace), 0, "{}", workload.name);
        }
        rows.push(Row::new(workload.name, &LISTING, Call::Judge, traces, Answer::Clean));
    }
    rows
}

/// A workload with races at full size, for pairs. The call looks at every event, however early the
/// first race is.
fn races(peers: &mut Peers, racing: &Racing, count: usize, rng: &mut Rng) -> Row {
    let traces = traces(racing.make, MAX_EVENTS, count.min(RACING_TRACES), rng);
    let mut all = 0;
    for trace in &traces {
        let pairs = peers.agree_on_pairs(trace);
        assert!((racing.pairs)(MAX_EVENTS).contains(&pairs), "{}: {pairs} pairs", racing.name);
        all += pairs;
    }
    let row = Row::new(racing.name, &LISTING_RACES, Call::Judge, traces, Answer::Clean);
    Row { pairs: all, ..row }
}

/// The workloads at full size, for the conversion. Races do not stop it: no call is a short one, and
/// each is timed alone.
fn conversion(peers: &mut Peers, count: usize, rng: &mut Rng) -> Vec<Row> {
    let mut rows = Vec::new();
    for workload in &WORKLOADS {
        let traces = traces(workload.make, MAX_EVENTS, count, rng);
        if traces[0].is_empty() {
            continue;
        }
        let inputs: Vec<Input> = traces.into_iter().map(Into::into).collect();
        for input in &inputs {
            peers.agree(&input.trace, (workload.expected)(MAX_EVENTS), false);
            peers.agree_on_conversion(input);
        }
        rows.push(Row::new(workload.name, &CONVERTING, Call::Judge, inputs, Answer::Clean));
    }
    rows
}

/// Plans of a shape that make so many events.
fn plans(peers: &mut Peers, shape: &Shape, n: usize, count: usize, rng: &mut Rng) -> Row {
    let inputs: Vec<Input> = (0..count).map(|_| shape.plan(n, rng).into()).collect();
    for input in &inputs {
        peers.agree_on_plan(input);
    }
    // Nothing is judged here.
    Row::new(shape.name, &READING, Call::Judge, inputs, Answer::Clean)
}

/// Two shapes at each of the sizes, with as many events in all at each.
fn plan_growth(peers: &mut Peers, count: usize, rng: &mut Rng) -> Vec<Row> {
    let sized = [HALVED, RANDOM].into_iter().flat_map(|shape| SIZES.map(|n| (shape.clone(), n)));
    let row = |(shape, n): (Shape, usize)| {
        let row = plans(peers, &shape, n, count * MAX_EVENTS / n, rng);
        Row { detail: format!(", {n} events"), ..row }
    };
    sized.map(row).collect()
}
