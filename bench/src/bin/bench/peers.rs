//! What is measured: the linked judge, call for pairs, plan reader and conversion, their peers, and the
//! buffers that are lent to them.

use racejudge_bench::ancestors::Ancestors;
use racejudge_bench::cards::cards;
use racejudge_bench::convert;
use racejudge_bench::fasttrack::FastTrack;
use racejudge_bench::ffi::{self, Converter, Judge, Lister, Reader, Record, Told};
use racejudge_bench::ffi::{BEFORE, CONVERSION, CONVERSION_C, LISTER, LISTER_C, PLAN, PLAN_C};
use racejudge_bench::ffi::{PROVED, TWO_ORDERS, UNION_FIND};
use racejudge_bench::joins::links;
use racejudge_bench::pairs::{listed, pairs};
use racejudge_bench::plan::Plan;
use racejudge_bench::program::mismatch;
use racejudge_bench::trace::*;
use std::fmt::{Debug, Display};
use std::hint::black_box;
use std::time::Instant;

/// What is timed.
#[derive(Clone, Copy, PartialEq)]
pub enum Peer {
    Judge,
    TwoOrders,
    UnionFind,
    FastTrack,
    Ancestors,
    Floor,
    /// The judge with cards.
    Cards,
    /// The cards by hand.
    Pass,
    /// An older judge, where one is linked.
    Before,
    /// The call for pairs.
    Pairs,
    /// The call for pairs by hand.
    PairsC,
    Plan,
    /// The plan reader by hand.
    PlanC,
    Conversion,
    /// The conversion by hand.
    ConversionC,
}

/// Those that run on the traces of a table, in the order of its columns.
pub const JUDGING: [Peer; 6] =
    [Peer::Judge, Peer::TwoOrders, Peer::UnionFind, Peer::FastTrack, Peer::Ancestors, Peer::Floor];
pub const ORDERING: [Peer; 4] = [Peer::Judge, Peer::TwoOrders, Peer::UnionFind, Peer::Floor];
pub const CARDS: [Peer; 3] = [Peer::Cards, Peer::Judge, Peer::Pass];
pub const CHAINS: [Peer; 3] = [Peer::Judge, Peer::TwoOrders, Peer::UnionFind];
pub const AGAIN: [Peer; 2] = [Peer::Judge, Peer::Before];
pub const LISTING: [Peer; 3] = [Peer::Pairs, Peer::Judge, Peer::PairsC];
/// The judge stops at the first race.
pub const LISTING_RACES: [Peer; 2] = [Peer::Pairs, Peer::PairsC];
pub const READING: [Peer; 2] = [Peer::Plan, Peer::PlanC];
pub const CONVERTING: [Peer; 3] = [Peer::Conversion, Peer::Judge, Peer::ConversionC];

impl Peer {
    /// How many there are.
    pub const COUNT: usize = Peer::ConversionC as usize + 1;

    pub fn name(self) -> &'static str {
        match self {
            Peer::Judge => "judge",
            Peer::TwoOrders => TWO_ORDERS.name,
            Peer::UnionFind => UNION_FIND.name,
            Peer::FastTrack => "FastTrack",
            Peer::Ancestors => "ancestors",
            Peer::Floor => "floor",
            Peer::Cards => "judge with cards",
            Peer::Pass => "pass C",
            Peer::Before => "judge before",
            Peer::Pairs => "pairs",
            Peer::PairsC => LISTER_C.name,
            Peer::Plan => "plan reader",
            Peer::PlanC => PLAN_C.name,
            Peer::Conversion => "conversion",
            Peer::ConversionC => CONVERSION_C.name,
        }
    }
}

/// What a judge does with a trace: it judges it, or says whether one position reaches another.
#[derive(Clone, Copy, PartialEq)]
pub enum Call {
    Judge,
    Ordering(usize, usize),
}

/// What is measured on: a trace, the same as it was stored before halts named a task, where it is
/// brought over or an older judge is lent it, and the plan that makes it, where plans are read.
pub struct Input {
    pub trace: Trace,
    pub stored: Trace,
    pub plan: String,
}

impl From<Trace> for Input {
    fn from(trace: Trace) -> Self {
        Input { stored: trace.stored(), trace, plan: String::new() }
    }
}

impl From<Plan> for Input {
    fn from(plan: Plan) -> Self {
        Input { trace: plan.trace(), stored: Trace::default(), plan: plan.to_string() }
    }
}

/// The peers' own memory, and the lent buffers, the same for all.
pub struct Peers {
    fasttrack: FastTrack,
    ancestors: Ancestors,
    workspace: Vec<u16>,
    first: Vec<u16>,
    second: Vec<u16>,
    cards: Vec<Record>,
    /// The slices that pairs are written to.
    earlier: Vec<u16>,
    later: Vec<u16>,
    /// The slices that a plan is written to.
    planned: Trace,
    /// The operands that a conversion works on.
    operands: Vec<u16>,
}

impl Peers {
    pub fn new() -> Self {
        Peers {
            fasttrack: FastTrack::default(),
            ancestors: Ancestors::default(),
            workspace: vec![0; WORKSPACE + MAX_EVENTS],
            first: vec![0; MAX_EVENTS],
            second: vec![0; MAX_EVENTS],
            cards: vec![Record::UNTOUCHED; LOCATIONS],
            earlier: vec![0; MAX_PAIRS],
            later: vec![0; MAX_PAIRS],
            planned: Trace::of(&[(0, READ, 0); MAX_EVENTS]),
            operands: Vec::with_capacity(MAX_EVENTS),
        }
    }

    /// Seconds for a call, the mean of `batch` calls. The input has been agreed on.
    pub fn time(&mut self, peer: Peer, call: Call, input: &Input, batch: usize) -> f64 {
        let Input { trace, stored, plan } = input;
        let trace = if peer == Peer::Before { stored } else { trace };
        // Whoever ran before, each finds in the cache what it is lent.
        black_box(ffi::floor(trace, &mut self.workspace));
        // Where a conversion has been, the next would stop at the first halt that names a task.
        if matches!(peer, Peer::Conversion | Peer::ConversionC) {
            self.operands.clone_from(&stored.operands);
        }
        let start = Instant::now();
        for _ in 0..batch {
            match peer {
                Peer::Judge => self.call(&PROVED, call, trace),
                Peer::TwoOrders => self.call(&TWO_ORDERS, call, trace),
                Peer::UnionFind => self.call(&UNION_FIND, call, trace),
                Peer::Before => self.call(&BEFORE.expect("one is linked"), call, trace),
                // Safe: a builder made the trace, and keeps the rules.
                Peer::FastTrack => _ = black_box(unsafe { self.fasttrack.first_race(trace) }),
                Peer::Ancestors => _ = black_box(self.ancestors.answer(trace)),
                Peer::Floor => _ = black_box(ffi::floor(trace, &mut self.workspace)),
                Peer::Cards => _ = black_box(self.call_with_cards(trace)),
                // Safe, as for FastTrack.
                Peer::Pass => unsafe { ffi::pass(trace, black_box(&mut self.cards)) },
                Peer::Pairs => _ = black_box(self.list(&LISTER, trace)),
                Peer::PairsC => _ = black_box(self.list(&LISTER_C, trace)),
                Peer::Plan => _ = black_box(self.read(&PLAN, plan)),
                Peer::PlanC => _ = black_box(self.read(&PLAN_C, plan)),
                Peer::Conversion => _ = black_box(self.convert(&CONVERSION, trace)),
                Peer::ConversionC => _ = black_box(self.convert(&CONVERSION_C, trace)),
            }
        }
        start.elapsed().as_secs_f64() / batch as f64
    }

    fn call(&mut self, judge: &Judge, call: Call, trace: &Trace) {
        match call {
            Call::Judge => _ = black_box(self.judge(judge, trace)),
            Call::Ordering(p, q) => _ = black_box(self.ordering(judge, trace, p, q)),
        }
    }

    fn judge(&mut self, judge: &Judge, trace: &Trace) -> Told<3> {
        judge.judge(trace, &mut self.workspace, &mut self.first, &mut self.second)
    }

    fn ordering(&mut self, judge: &Judge, trace: &Trace, p: usize, q: usize) -> Told<2> {
        judge.ordering(trace, &mut self.workspace, p, q)
    }

    fn call_with_cards(&mut self, trace: &Trace) -> Told<3> {
        let Peers { workspace, first, second, cards, .. } = self;
        ffi::judge_cards(trace, workspace, first, second, cards)
    }

    fn list(&mut self, lister: &Lister, trace: &Trace) -> Told<2> {
        lister.list(trace, &mut self.workspace, &mut self.earlier, &mut self.later)
    }

    fn read(&mut self, reader: &Reader, plan: &str) -> Told<2> {
        let Trace { kinds, tasks, operands } = &mut self.planned;
        (reader.read)(plan.as_bytes(), kinds, tasks, operands)
    }

    /// Of the trace the kinds and tasks alone: its operands, as they were stored, are there.
    fn convert(&mut self, converter: &Converter, Trace { kinds, tasks, .. }: &Trace) -> Told<2> {
        (converter.convert)(kinds, tasks, &mut self.operands, &mut self.workspace)
    }

    /// Before anything is measured the linked judges must say what is wanted and leave the same
    /// buffers.
    fn linked_agree<const VALUES: usize>(
        &mut self,
        trace: &Trace,
        wanted: Told<VALUES>,
        call: impl Fn(&mut Peers, &Judge) -> Told<VALUES>,
    ) {
        let mut left = Vec::new();
        for judge in [&PROVED, &TWO_ORDERS, &UNION_FIND] {
            for buffer in [&mut self.workspace, &mut self.first, &mut self.second] {
                buffer.fill(DIRT);
            }
            said(judge.name, call(self, judge), wanted, trace);
            left.push((self.workspace.clone(), self.first.clone(), self.second.clone()));
            if left[0] != left[left.len() - 1] {
                mismatch(&format!("{} left other buffers\non {trace}", judge.name));
            }
        }
    }

    /// All judges must give the expected answer.
    pub fn agree(&mut self, trace: &Trace, expected: Answer, matrix: bool) {
        let wanted = ffi::judged(expected, links(trace, expected));
        self.linked_agree(trace, wanted, |peers, judge| peers.judge(judge, trace));
        let position = match expected {
            Answer::Clean => None,
            Answer::Race(_, t) => Some(t),
            Answer::Refused(..) => panic!("no workload is refused"),
        };
        // Safe: a builder made the trace, and keeps the rules.
        let race = unsafe { self.fasttrack.first_race(trace) };
        said("FastTrack", race, position, trace);
        if matrix {
            said("the all-ancestors judge", self.ancestors.answer(trace), expected, trace);
        }
    }

    /// The judge with cards must find the trace clean. Its cards and those of the pass must be the
    /// slow ones.
    pub fn agree_on_cards(&mut self, trace: &Trace) {
        let dirt = Record { reads: 7, writes: 7, sums: 7, first: 7, last: 7 };
        let wanted: Vec<Record> = cards(trace).into_iter().map(Record::from).collect();
        self.cards.fill(dirt);
        let told = self.call_with_cards(trace);
        let clean = ffi::judged(Answer::Clean, links(trace, Answer::Clean));
        said("the judge with cards", told, clean, trace);
        if self.cards != wanted {
            mismatch(&format!("the judge with cards made other cards\non {trace}"));
        }
        self.cards.fill(dirt);
        // Safe, as for FastTrack.
        unsafe { ffi::pass(trace, &mut self.cards) };
        if self.cards != wanted {
            mismatch(&format!("the pass made other cards\non {trace}"));
        }
    }

    /// All judges must give the answer of the all-ancestors judge.
    pub fn agree_on_order(&mut self, trace: &Trace, p: usize, q: usize) {
        let wanted = self.ancestors.ordering(trace, self.workspace.len(), p, q).said;
        self.linked_agree(trace, wanted.into(), |peers, judge| peers.ordering(judge, trace, p, q));
    }

    /// Both plan readers must write the trace and nothing behind it.
    pub fn agree_on_plan(&mut self, Input { trace, plan, .. }: &Input) {
        let dirt = (7, 7, 7);
        let mut wanted = trace.clone();
        (trace.len()..MAX_EVENTS).for_each(|p| wanted.insert(p, dirt));
        for reader in [&PLAN, &PLAN_C] {
            self.planned = Trace::of(&[dirt; MAX_EVENTS]);
            let told = self.read(reader, plan);
            said(reader.name, told, Translation::Events(trace.len()).into(), plan);
            if self.planned != wanted {
                mismatch(&format!("{} wrote another trace\non {plan}", reader.name));
            }
        }
    }

    /// Both conversions and the slow one must make the trace of the stored one and clear the workspace.
    pub fn agree_on_conversion(&mut self, Input { trace, stored, .. }: &Input) {
        said("the slow conversion", convert::operands(stored), trace.operands.clone(), stored);
        for converter in [&CONVERSION, &CONVERSION_C] {
            self.operands.clone_from(&stored.operands);
            self.workspace.fill(DIRT);
            said(converter.name, self.convert(converter, stored), Conversion::Done.into(), stored);
            let left = begins(&self.workspace, &vec![0; WORKSPACE + trace.len()]);
            if !left || self.operands != trace.operands {
                mismatch(&format!("{} left other buffers\non {stored}", converter.name));
            }
        }
    }

    /// Both calls for pairs must list the slow pairs and clear the workspace. How many pairs there are.
    pub fn agree_on_pairs(&mut self, trace: &Trace) -> usize {
        let found = pairs(&mut self.ancestors, trace);
        let lent = [self.workspace.len(), self.earlier.len(), self.later.len()];
        let wanted = listed(trace, &found, lent);
        for lister in [&LISTER, &LISTER_C] {
            for buffer in [&mut self.workspace, &mut self.earlier, &mut self.later] {
                buffer.fill(DIRT);
            }
            said(lister.name, self.list(lister, trace), wanted.said.into(), trace);
            let left = begins(&self.workspace, &vec![0; wanted.cleared])
                && begins(&self.earlier, &wanted.earlier)
                && begins(&self.later, &wanted.later);
            if !left {
                mismatch(&format!("{} left other buffers\non {trace}", lister.name));
            }
        }
        wanted.earlier.len()
    }

    /// The older judge must give the expected answer.
    pub fn agree_before(&mut self, before: &Judge, trace: &Trace, expected: Answer) {
        said(before.name, Answer::from(self.judge(before, trace)), expected, trace);
    }
}

/// What buffers hold before a call where they are compared after it.
const DIRT: u16 = 7;

/// Whether a buffer begins so, and has not changed behind.
fn begins(buffer: &[u16], start: &[u16]) -> bool {
    let (begun, rest) = buffer.split_at(start.len());
    begun == start && rest.iter().all(|&cell| cell == DIRT)
}

/// Ends the run where a judge or a reader does not say what is wanted.
fn said<T: Debug + PartialEq>(name: &str, told: T, wanted: T, on: &impl Display) {
    if told != wanted {
        mismatch(&format!("{name} said {told:?}, wanted {wanted:?}\non {on}"));
    }
}
