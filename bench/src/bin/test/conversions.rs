//! The conversion of stored traces held against a slow one: the answer, the operands and the workspace
//! whole with the cells around them, the rest of the trace; that a second conversion changes nothing
//! more; and that what was clean or a race with row 12 as it was is the same now, with the same orders
//! and, of short traces, links. Counts what was met.

use crate::buffer::{dirt, Buffer};
use crate::compare::{answer_difference, first_difference, held, known, SHORT};
use crate::watch::watched;
use racejudge_bench::ancestors::{conflict, size_row, Ancestors};
use racejudge_bench::convert::{convert, Converted};
use racejudge_bench::ffi::{self, Converter, Told, CONVERSION, CONVERSION_C, PROVED};
use racejudge_bench::joins::links;
use racejudge_bench::line::names_nothing;
use racejudge_bench::rng::Rng;
use racejudge_bench::samples::misname;
use racejudge_bench::trace::*;
use std::fmt;
use std::sync::Arc;

pub const CONVERTERS: [&Converter; 2] = [&CONVERSION, &CONVERSION_C];

/// What is counted of the calls.
const ANSWERS: [&str; 5] = ["changed", "unchanged", "refused 1", "refused 2", "refused 3"];

pub struct Conversions {
    rng: Rng,
    pub dirt: Vec<u16>,
    /// The slow judge with row 12 as it was.
    before: Ancestors,
    /// How often each answer was met.
    met: [usize; ANSWERS.len()],
    /// How often it was held to what that judge says: clean, and race.
    same: [usize; 2],
    /// How often a clean trace came back from the one that was stored.
    restored: usize,
}

impl Conversions {
    pub fn new(seed: u64) -> Self {
        let mut rng = Rng::new(seed);
        let dirt = dirt(&mut rng);
        let before = Ancestors::by(conflict, names_nothing);
        Conversions { rng, dirt, before, met: Default::default(), same: [0; 2], restored: 0 }
    }

    /// A trace as it is, of which the judge has said this; as it was stored; and stored but for one
    /// halt that names something.
    pub fn all_of(&mut self, trace: &Trace, said: Answer) {
        let stored = trace.stored();
        let converted = self.whole(&stored);
        if said == Answer::Clean {
            known(&converted, trace, &stored);
        }
        if stored != *trace {
            self.restored += usize::from(said == Answer::Clean);
            self.whole(trace);
        }
        if size_row(trace, usize::MAX).is_none() && trace.kinds.contains(&HALT) {
            let (mut named, from) = (stored, self.rng.below(trace.len()));
            misname(&mut self.rng, &mut named, from);
            self.whole(&named);
        }
    }

    /// The converted trace: once more it does not change, and what was clean or a race with row 12 as it
    /// was, the library calls so now.
    pub fn whole(&mut self, trace: &Trace) -> Trace {
        let workspace = WORKSPACE + trace.len() + self.rng.below(3);
        let converted = self.convert_with(trace, workspace);
        if size_row(trace, workspace).is_some() {
            return converted;
        }
        if converted != *trace {
            known(&self.convert_with(&converted, workspace), &converted, trace);
        }
        self.same_verdict(trace, &converted);
        converted
    }

    fn same_verdict(&mut self, trace: &Trace, converted: &Trace) {
        let said = self.before.answer(trace);
        let same = match said {
            Answer::Clean => 0,
            Answer::Race(..) => 1,
            Answer::Refused(..) => return,
        };
        let (told, orders) = judged(converted);
        known(told.into(), said, trace);
        if trace.len() <= SHORT {
            known(told, ffi::judged(said, links(trace, said)), trace);
        }
        if let Some(wanted) = self.before.orders(said) {
            let orders = orders.map(|order| order[..wanted[0].len()].to_vec());
            known(orders, wanted, trace);
        }
        self.same[same] += 1;
    }

    /// What the library makes of a trace, which is counted.
    pub fn convert_with(&mut self, trace: &Trace, workspace: usize) -> Trace {
        let wanted = convert(trace, workspace);
        for converter in CONVERTERS {
            held(self.converted_by(converter, trace, workspace, &wanted));
        }
        let answer = match wanted.said {
            Conversion::Refused(row) => 1 + row,
            Conversion::Done => usize::from(wanted.operands == trace.operands),
        };
        self.met[answer] += 1;
        Trace { operands: wanted.operands, ..trace.clone() }
    }

    /// What one conversion tells, or how that or what it leaves differs from what is wanted.
    pub fn converted_by(
        &mut self,
        converter: &Converter,
        trace: &Trace,
        workspace: usize,
        wanted: &Converted,
    ) -> Result<Told<2>, String> {
        let copy = Arc::new(trace.clone());
        let mut o = Buffer::holding(&self.dirt, &mut self.rng, &trace.operands);
        let mut w = Buffer::drawn(&self.dirt, &mut self.rng, workspace);
        let told = watched(converter.name, copy.clone(), || {
            (converter.convert)(&copy.kinds, &copy.tasks, o.lend(), w.lend())
        });
        let differences = [
            ("answer", answer_difference(told, wanted.said)),
            ("kinds and tasks", (*copy != *trace).then(|| "changed".to_string())),
            ("operands", o.difference(&wanted.operands)),
            ("workspace", w.difference(&vec![0; wanted.cleared])),
        ];
        first_difference(converter.name, trace, wanted, differences).map_or(Ok(told), Err)
    }

    pub fn calls(&self) -> usize {
        self.met.iter().sum()
    }

    /// How often each answer was met.
    pub fn table(&self) -> String {
        let line = |name: &str, count: &dyn fmt::Display| format!("{name:>14} {count:>10}\n");
        let counts = ANSWERS.iter().zip(&self.met).map(|(name, count)| line(name, count));
        let table = line("answer", &"conversion") + &counts.collect::<String>();
        let [clean, races] = self.same;
        let same = format!("{clean} clean traces, {races} races");
        let restored = format!("{} clean traces put back as they were", self.restored);
        let calls = line("calls", &self.calls());
        format!("{table}{calls}held to row 12 as it was: {same}; {restored}\n")
    }

    /// What was never met.
    pub fn missing(&self) -> Option<String> {
        let answer = self.met.iter().position(|&count| count == 0);
        let answer = answer.map(|at| format!("{} of the conversion", ANSWERS[at]));
        let never_held = self.same.contains(&0) || self.restored == 0;
        answer.or(never_held.then(|| "what a conversion keeps".to_string()))
    }
}

/// What the library tells of a trace, with buffers as long as needed, and the order buffers.
fn judged(trace: &Trace) -> (Told<3>, [Vec<u16>; 2]) {
    let n = trace.len();
    let (mut workspace, mut first, mut second) = (vec![0; WORKSPACE + n], vec![0; n], vec![0; n]);
    let told = watched(PROVED.name, Arc::new(trace.clone()), || {
        PROVED.judge(trace, &mut workspace, &mut first, &mut second)
    });
    (told, [first, second])
}
