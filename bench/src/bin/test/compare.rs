//! One call of each linked judge held against the slow judge: the answer with its values, the
//! workspace, both order buffers and the cards whole, the cells around them, the trace. Then the pairs
//! of the trace are listed, and it is brought over. Counts what was met.

use crate::buffer::{dirt, Buffer, Cell};
use crate::conversions::Conversions;
use crate::halts::MISNAMED;
use crate::meaning;
use crate::pairs::Pairs;
use crate::tally::mismatch;
use crate::watch::watched;
use racejudge_bench::ancestors::{Ancestors, Outcome};
use racejudge_bench::extent::{Extent, LIMITS};
use racejudge_bench::fasttrack::FastTrack;
use racejudge_bench::ffi::{
    self, Carder, Judge, Record, Told, CARDER, PROVED, TWO_ORDERS, UNION_FIND,
};
use racejudge_bench::pairs::pairs;
use racejudge_bench::rng::Rng;
use racejudge_bench::samples::active_before;
use racejudge_bench::trace::*;
use std::fmt::{Debug, Display};
use std::sync::Arc;

pub const JUDGES: [&Judge; 3] = [&PROVED, &TWO_ORDERS, &UNION_FIND];

/// The rows that a call over a trace can give: 14 and 15 are the translation's, 17 to 19 a plan's.
const ROWS: [usize; 15] = [1, 2, 3, 4, 5, 6, 7, 8, 9, 10, 11, 12, 13, 16, LAST_ROW];
const LAST_ROW: usize = 20;

/// The lengths of what is lent to the judge: the workspace, the two order buffers and, where the
/// call has them, the cards.
pub type Lent = [usize; 4];

/// The least that a trace needs.
pub fn needed(trace: &Trace) -> Lent {
    let n = trace.len();
    [WORKSPACE + n, n, n, LOCATIONS]
}

/// How often each answer was met: the two that are no refusal (clean and race, no and yes, no pairs and
/// some), and the rows from 1 on.
#[derive(Default)]
pub struct Counts {
    pub plain: [usize; 2],
    pub rows: [usize; LAST_ROW + 1],
}

impl Counts {
    fn count(&mut self, said: Answer) {
        match said {
            Answer::Clean => self.plain[0] += 1,
            Answer::Race(..) => self.plain[1] += 1,
            Answer::Refused(row, _) => self.rows[row] += 1,
        }
    }

    fn sum(&self) -> usize {
        self.plain.iter().chain(&self.rows).sum()
    }

    /// What was never met of a call, but for the rows that it never gives.
    fn missing(&self, call: &str, never: &[usize]) -> Option<String> {
        if self.plain.contains(&0) {
            return Some(format!("an answer of {call}"));
        }
        let mut rows = ROWS.into_iter().filter(|row| !never.contains(row) && self.rows[*row] == 0);
        rows.next().map(|row| format!("refused {row} of {call}"))
    }
}

pub struct Test {
    pub rng: Rng,
    pub slow: Ancestors,
    fasttrack: FastTrack,
    pub dirt: Vec<u16>,
    judged: Counts,
    carded: Counts,
    ordered: Counts,
    /// How often the judge reported each number of links.
    links: [usize; MAX_LINKS + 1],
    /// The greatest of the traces that were found clean.
    extent: Extent,
    /// How often it was held to what an answer means: clean, and race.
    meant: [usize; 2],
    /// How often row 12 turned back a halt that names each of these.
    misnamed: [usize; MISNAMED.len()],
    /// Of each trace that is judged the pairs are listed, and it is brought over.
    pub pairs: Pairs,
    pub conversions: Conversions,
}

/// Up to so many events a trace is held to what its answer means.
pub const SHORT: usize = 60;

impl Test {
    pub fn new(seed: u64) -> Self {
        let mut rng = Rng::new(seed);
        let dirt = dirt(&mut rng);
        Test {
            rng,
            slow: Ancestors::default(),
            fasttrack: FastTrack::default(),
            dirt,
            judged: Counts::default(),
            carded: Counts::default(),
            ordered: Counts::default(),
            links: [0; MAX_LINKS + 1],
            extent: Extent::default(),
            meant: [0; 2],
            misnamed: [0; MISNAMED.len()],
            pairs: Pairs::new(seed),
            conversions: Conversions::new(seed),
        }
    }

    fn buffer<T: Cell>(&mut self, lent: usize) -> Buffer<T> {
        Buffer::drawn(&self.dirt, &mut self.rng, lent)
    }

    /// The judge on a trace, with slices as long as needed or a little longer; the call for pairs; and
    /// the conversion.
    pub fn judge(&mut self, trace: &Trace) -> Answer {
        let lent = needed(trace).map(|need| need + self.rng.below(3));
        let said = self.judge_with(trace, lent)[0];
        _ = self.pairs.all_of(&mut self.slow, trace);
        self.conversions.all_of(trace, said);
        said
    }

    /// What the library itself answers without cards and with them, which is counted.
    pub fn judge_with(&mut self, trace: &Trace, lent: Lent) -> [Answer; 2] {
        let wanted = self.slow.judge(trace, lent[0], lent[1], lent[2]);
        let told = JUDGES.map(|judge| held(self.judged_by(judge, trace, lent, &wanted)));
        let judged = Answer::from(told[0]);
        self.judged.count(judged);
        if !matches!(judged, Answer::Refused(..)) {
            self.links[wanted.links] += 1;
        }
        match judged {
            Answer::Clean => self.extent = self.extent.max(Extent::of(trace)),
            Answer::Refused(12, p) => self.count_misnamed(trace, p),
            _ => {}
        }
        self.same_race(trace, judged);
        self.same_meaning(trace, &wanted);
        let wanted = wanted.with_cards(trace, lent[3]);
        let carded = Answer::from(held(self.carded_by(&CARDER, trace, lent, &wanted)));
        self.carded.count(carded);
        self.same_cards(trace, &wanted);
        [judged, carded]
    }

    fn count_misnamed(&mut self, trace: &Trace, p: usize) {
        let (active, operand) = (active_before(trace, p), trace.operands[p]);
        for ((_, named), count) in MISNAMED.iter().zip(&mut self.misnamed) {
            *count += usize::from(named(&active, operand));
        }
    }

    /// What one judge tells, or how that or what it leaves differs from what is wanted.
    pub fn judged_by(
        &mut self,
        judge: &Judge,
        trace: &Trace,
        [workspace, first, second, _]: Lent,
        wanted: &Outcome<Answer>,
    ) -> Result<Told<3>, String> {
        let (name, lent) = (format!("{}, judge", judge.name), [workspace, first, second, 0]);
        self.judged_as(&name, trace, lent, wanted, |trace, [workspace, first, second], _| {
            judge.judge(trace, workspace, first, second)
        })
    }

    /// The same for a judge with cards.
    pub fn carded_by(
        &mut self,
        judge: &Carder,
        trace: &Trace,
        lent: Lent,
        wanted: &Outcome<Answer>,
    ) -> Result<Told<3>, String> {
        self.judged_as(
            judge.name,
            trace,
            lent,
            wanted,
            |trace, [workspace, first, second], cards| {
                (judge.judge)(trace, workspace, first, second, cards)
            },
        )
    }

    /// The same for any way to call a judge, which is handed the buffers.
    fn judged_as(
        &mut self,
        name: &str,
        trace: &Trace,
        [workspace, first, second, cards]: Lent,
        wanted: &Outcome<Answer>,
        call: impl FnOnce(&Trace, [&mut [u16]; 3], &mut [Record]) -> Told<3>,
    ) -> Result<Told<3>, String> {
        let copy = Arc::new(trace.clone());
        let mut w = self.buffer(workspace);
        let (mut f, mut s) = (self.buffer(first), self.buffer(second));
        let mut c = self.buffer(cards);
        let told =
            watched(name, copy.clone(), || call(&copy, [w.lend(), f.lend(), s.lend()], c.lend()));
        let (first_order, second_order) = wanted.orders.clone().unwrap_or_default();
        let differences = [
            ("answer", answer_difference(told, ffi::judged(wanted.said, wanted.links))),
            ("trace", trace_difference(&copy, trace)),
            ("workspace", w.difference(&vec![0; wanted.cleared])),
            ("first order buffer", f.difference(&first_order)),
            ("second order buffer", s.difference(&second_order)),
            ("cards", c.difference(&records(wanted))),
        ];
        first_difference(name, trace, wanted, differences).map_or(Ok(told), Err)
    }

    /// FastTrack knows no rules; where they are kept it must see the same race.
    fn same_race(&mut self, trace: &Trace, said: Answer) {
        let (upto, wanted) = match said {
            Answer::Clean => (trace.len(), None),
            Answer::Race(_, t) => (t + 1, Some(t)),
            Answer::Refused(..) => return,
        };
        let mut kept = trace.clone();
        kept.truncate(upto);
        // Safe: the slow judge found that the rules are kept so far.
        let said = unsafe { self.fasttrack.first_race(&kept) };
        if said != wanted {
            mismatch(&format!("FastTrack said {said:?}, wanted {wanted:?}\non {kept}"));
        }
    }

    /// What the answer means must hold of the orders of the events.
    fn same_meaning(&mut self, trace: &Trace, wanted: &Outcome<Answer>) {
        let meant = match wanted.said {
            Answer::Refused(..) => return,
            _ if trace.len() > SHORT => return,
            Answer::Clean => 0,
            Answer::Race(..) => 1,
        };
        if let Some(fault) = meaning::fault(&mut self.rng, trace, wanted) {
            mismatch(&format!("{:?}, but {fault}\non {trace}", wanted.said));
        }
        self.meant[meant] += 1;
    }

    /// The pass by hand knows no rules either; of a clean trace it must make the same cards.
    fn same_cards(&mut self, trace: &Trace, wanted: &Outcome<Answer>) {
        if wanted.cards.is_none() {
            return;
        }
        let mut made = self.buffer(LOCATIONS);
        // Safe: the slow judge found that the rules are kept.
        unsafe { ffi::pass(trace, made.lend()) };
        if let Some(difference) = made.difference(&records(wanted)) {
            mismatch(&format!("the pass in C: cards {difference}\non {trace}"));
        }
    }

    /// The ordering call, with a workspace as long as needed or a little longer.
    pub fn ordering(&mut self, trace: &Trace, p: usize, q: usize) -> Ordering {
        let workspace = WORKSPACE + trace.len() + self.rng.below(3);
        self.ordering_with(trace, workspace, p, q)
    }

    pub fn ordering_with(
        &mut self,
        trace: &Trace,
        workspace: usize,
        p: usize,
        q: usize,
    ) -> Ordering {
        let wanted = self.slow.ordering(trace, workspace, p, q);
        let told =
            JUDGES.map(|judge| held(self.ordered_by(judge, trace, workspace, [p, q], &wanted)));
        let said = Ordering::from(told[0]);
        match said {
            Ordering::No => self.ordered.plain[0] += 1,
            Ordering::Yes => self.ordered.plain[1] += 1,
            Ordering::Refused(row, _) => self.ordered.rows[row] += 1,
        }
        said
    }

    /// What one judge tells, or how that or what it leaves differs from what is wanted.
    pub fn ordered_by(
        &mut self,
        judge: &Judge,
        trace: &Trace,
        workspace: usize,
        [p, q]: [usize; 2],
        wanted: &Outcome<Ordering>,
    ) -> Result<Told<2>, String> {
        let call = format!("{}, ordering {p} {q}", judge.name);
        let copy = Arc::new(trace.clone());
        let mut w = self.buffer(workspace);
        let told = watched(&call, copy.clone(), || judge.ordering(&copy, w.lend(), p, q));
        let differences = [
            ("answer", answer_difference(told, wanted.said)),
            ("trace", trace_difference(&copy, trace)),
            ("workspace", w.difference(&vec![0; wanted.cleared])),
        ];
        first_difference(&call, trace, wanted, differences).map_or(Ok(told), Err)
    }

    /// The call for pairs, with a workspace and two slices of these lengths.
    pub fn pairs_with(&mut self, trace: &Trace, lent: [usize; 3]) -> Listing {
        let found = pairs(&mut self.slow, trace);
        self.pairs.list_with(trace, &found, lent)
    }

    /// The judge, the call for pairs and the conversion, now and then also on short buffers, and the
    /// ordering call on a few pairs.
    pub fn both(&mut self, trace: &Trace, pairs: usize) -> Answer {
        let said = self.judge(trace);
        if self.rng.chance(1, 16) {
            let mut lent =
                |need: usize| if self.rng.chance(1, 2) { need } else { self.rng.below(need + 1) };
            let lent = needed(trace).map(&mut lent);
            self.judge_with(trace, lent);
            self.pairs_with(trace, [lent[0], lent[1], lent[2]]);
            self.conversions.convert_with(&trace.stored(), lent[0]);
            self.ordering_with(trace, lent[0], 0, 0);
        }
        for _ in 0..pairs {
            let (p, q) = self.pair(trace.len());
            self.ordering(trace, p, q);
        }
        said
    }

    /// Two positions, mostly with p before q; now and then the other way round or past the end.
    fn pair(&mut self, n: usize) -> (usize, usize) {
        let (p, q) = (self.rng.below(n), self.rng.below(n));
        let far = self.rng.one_of(&[n, n + 1, 65_536, usize::MAX]);
        match self.rng.below(16) {
            0 => (far, q),
            1 => (p, far),
            2 => (p.max(q), p.min(q)),
            _ => (p.min(q), p.max(q)),
        }
    }

    /// What was met of each call over a trace.
    fn calls(&self) -> [&Counts; 4] {
        [&self.judged, &self.carded, &self.pairs.met, &self.ordered]
    }

    /// How often each answer was met.
    pub fn table(&self) -> String {
        let line = |name: &str, count: &dyn Fn(&Counts) -> usize| {
            let counts = self.calls().map(|counts| format!(" {:>9}", count(counts)));
            format!("{name:>17}{}\n", counts.concat())
        };
        let names = ["judge", "cards", "pairs", "ordering"].map(|name| format!(" {name:>9}"));
        let mut table = format!("{:>17}{}\n", "answer", names.concat());
        table += &line("clean / none / no", &|counts| counts.plain[0]);
        table += &line("race / some / yes", &|counts| counts.plain[1]);
        for row in ROWS {
            table += &line(&format!("refused {row}"), &|counts| counts.rows[row]);
        }
        table += &line("calls", &Counts::sum);
        let links = self.links.map(|count| format!(" {count}"));
        table += &format!("links of the judge, 0 to {MAX_LINKS}:{}\n", links.concat());
        let [clean, race] = self.meant;
        table += &format!("held to what reads see: {clean} clean traces, {race} races\n");
        table += &self.pairs.line();
        let named = MISNAMED.iter().zip(self.misnamed);
        let named: Vec<String> =
            named.map(|((name, _), count)| format!("{name} {count}")).collect();
        table + &format!("refused 12 of a halt that names: {}\n", named.join(", "))
    }

    /// What a call can give but never gave, or the limits if they were not met.
    pub fn missing(&self) -> Option<String> {
        // Row 4 belongs to the judge alone, row 13 to the ordering call, row 16 to cards, row 20 to
        // pairs.
        let judged = self.judged.missing("the judge", &[13, 16, 20]);
        let carded = self.carded.missing("the judge with cards", &[13, 20]);
        let listed = self.pairs.met.missing("the call for pairs", &[4, 13, 16]);
        let ordered = self.ordered.missing("the ordering call", &[4, 16, 20]);
        let never = self.links.iter().position(|&count| count == 0);
        let links = never.map(|links| format!("{links} links"));
        let limits = (self.extent != LIMITS).then(|| format!("{LIMITS:?}, but {:?}", self.extent));
        let meant = self.meant.contains(&0).then(|| "what an answer means".to_string());
        let never = self.misnamed.iter().position(|&count| count == 0);
        let misnamed =
            never.map(|at| format!("refused 12 of a halt that names {}", MISNAMED[at].0));
        let answers = judged.or(carded).or(listed).or(ordered);
        let met = answers.or(links).or(limits).or(meant).or(misnamed);
        met.or(self.pairs.missing()).or(self.conversions.missing())
    }

    pub fn closing_line(&self, translated: usize, planned: usize) -> String {
        let [judged, carded, listed, ordered] = self.calls().map(Counts::sum);
        let converted = self.conversions.calls();
        let Extent { events, tasks } = self.extent;
        format!(
            "{judged} calls of the judge, {carded} of the judge with cards, {listed} of the call \
             for pairs, {ordered} of the ordering call, {converted} of the conversion, {translated} \
             of the translation and {planned} of the plan reader, up to {events} events, {tasks} \
             tasks and chains of {MAX_LINKS} links: no mismatch\n"
        )
    }
}

/// The cards that are wanted, as they must stand in the lent slice.
fn records(wanted: &Outcome<Answer>) -> Vec<Record> {
    wanted.cards.iter().flatten().map(|&card| Record::from(card)).collect()
}

pub fn answer_difference<const VALUES: usize>(
    told: Told<VALUES>,
    wanted: impl Into<Told<VALUES>>,
) -> Option<String> {
    let wanted = wanted.into();
    (told != wanted).then(|| format!("{told:?}, wanted {wanted:?}"))
}

pub fn trace_difference(left: &Trace, lent: &Trace) -> Option<String> {
    (left != lent).then(|| "changed".to_string())
}

/// Ends the test where something is not what it is known to be.
pub fn known<T: Debug + PartialEq>(found: T, wanted: T, on: impl Display) {
    if found != wanted {
        mismatch(&format!("found {found:?}, known to be {wanted:?}\non {on}"));
    }
}

/// Ends the test where something differs.
pub fn held<T>(told: Result<T, String>) -> T {
    told.unwrap_or_else(|difference| mismatch(&difference))
}

pub fn first_difference<const N: usize>(
    call: impl Display,
    on: &impl Display,
    wanted: &impl Debug,
    differences: [(&str, Option<String>); N],
) -> Option<String> {
    differences.into_iter().find_map(|(what, difference)| {
        difference.map(|difference| format!("{call}: {what} {difference}\n{wanted:?}\non {on}"))
    })
}
