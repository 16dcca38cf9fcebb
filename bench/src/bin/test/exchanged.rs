//! Exchanged parameters: contracts go by names, so a C function is proved also where its parameters
//! stand in another order than the header has them. Of each call of the header each two parameters of
//! one type are exchanged (`planted.c`), and the comparison must notice it on some of few traces and
//! texts. Where nothing is exchanged it must notice nothing.

use crate::compare::{known, needed, Test};
use crate::document::{self, trace};
use crate::plans::{self, PLANS};
use crate::reading::{Reading, Text};
use crate::tally::fail;
use crate::texts::{self, TEXTS};
use racejudge_bench::convert::convert;
use racejudge_bench::ffi::{
    exchange, Reader, PLANTED, PLANTED_CARDER, PLANTED_CONVERSION, PLANTED_LISTER, PLANTED_PLAN,
    PLANTED_TRANSLATION,
};
use racejudge_bench::pairs::{listed, pairs};
use racejudge_bench::samples;
use racejudge_bench::shapes::Mix;
use racejudge_bench::trace::*;

const HEADER: &str = include_str!("../../../../include/racejudge.h");
const CALLS: usize = 7;

/// A call of the header, by its name behind `racejudge_`.
struct Call {
    name: &'static str,
    parameters: Vec<Parameter>,
}

/// A parameter of a call: a slice with its length, or a number.
struct Parameter {
    name: &'static str,
    /// The type of a number or, with an asterisk, of the cells of a slice, whether they may be written
    /// or not.
    of: String,
}

/// All calls of the header that take something.
fn calls() -> Vec<Call> {
    let prototypes = HEADER.split("uint64_t racejudge_").skip(1);
    let prototypes = prototypes.filter_map(|rest| rest.split_once(");")?.0.split_once('('));
    let taking = prototypes.filter(|&(_, list)| list != "void");
    taking.map(|(name, list)| Call { name, parameters: parameters(list) }).collect()
}

/// The length of a slice follows it, and is none of its own.
fn parameters(list: &'static str) -> Vec<Parameter> {
    let all = list.split(',').map(|one| {
        let words = one.trim().trim_start_matches("const ");
        let (of, name) = words.split_once(' ').expect("a type and a name");
        let slice = if name.starts_with('*') { " *" } else { "" };
        Parameter { name: name.trim_start_matches('*'), of: format!("{of}{slice}") }
    });
    all.filter(|one| !one.name.ends_with("_len")).collect()
}

impl Call {
    /// The places of each two parameters of one type.
    fn alike(&self) -> Vec<[usize; 2]> {
        let places = 0..self.parameters.len();
        let pairs = places.clone().flat_map(|one| (one + 1..places.end).map(move |two| [one, two]));
        let same = |&[one, two]: &[usize; 2]| self.parameters[one].of == self.parameters[two].of;
        pairs.filter(same).collect()
    }
}

/// What the calls are compared on.
struct Samples {
    traces: Vec<Trace>,
    texts: Vec<Text>,
    plans: Vec<Text>,
}

impl Samples {
    /// Document 01's runs and texts, and some at random.
    fn drawn(test: &mut Test) -> Self {
        let mut traces: Vec<Trace> = document::RUNS.map(|(run, ..)| trace(run)).into();
        let mut texts: Vec<Text> = texts::SHORT.map(Text::from).into();
        let mut plans: Vec<Text> = plans::RUNS.map(|(plan, _)| plan.into()).into();
        for _ in 0..100 {
            let n = test.rng.below(40);
            let valid = samples::valid(&mut test.rng, n, 0);
            traces.extend([samples::damage(&mut test.rng, &valid), valid]);
            texts.push(texts::lines(&mut test.rng, 8).into());
            plans.push(Mix::any(&mut test.rng, 6).draw(&mut test.rng).to_string().into());
        }
        Samples { traces, texts, plans }
    }

    /// Where a planted call differs from what is wanted, if it does.
    fn difference(&self, test: &mut Test, call: &str) -> Option<String> {
        let mut traces = self.traces.iter();
        match call {
            "judge" => traces.find_map(|trace| {
                let lent = needed(trace);
                let wanted = test.slow.judge(trace, lent[0], lent[1], lent[2]);
                test.judged_by(&PLANTED, trace, lent, &wanted).err()
            }),
            "judge_cards" => traces.find_map(|trace| {
                let lent = needed(trace);
                let wanted = test.slow.judge(trace, lent[0], lent[1], lent[2]);
                let wanted = wanted.with_cards(trace, lent[3]);
                test.carded_by(&PLANTED_CARDER, trace, lent, &wanted).err()
            }),
            "pairs" => traces.find_map(|trace| {
                let found = pairs(&mut test.slow, trace);
                let k = found.as_ref().map_or(0, Vec::len);
                let lent = [WORKSPACE + trace.len(), k, k];
                let wanted = listed(trace, &found, lent);
                test.pairs.listed_by(&PLANTED_LISTER, trace, lent, &wanted).err()
            }),
            "ordering" => traces.find_map(|trace| {
                let (workspace, last) = (WORKSPACE + trace.len(), trace.len().saturating_sub(1));
                let wanted = test.slow.ordering(trace, workspace, 0, last);
                test.ordered_by(&PLANTED, trace, workspace, [0, last], &wanted).err()
            }),
            "convert" => traces.find_map(|trace| {
                let (stored, workspace) = (trace.stored(), WORKSPACE + trace.len());
                let wanted = convert(&stored, workspace);
                let converter = &PLANTED_CONVERSION;
                test.conversions.converted_by(converter, &stored, workspace, &wanted).err()
            }),
            "translate" => reading(&self.texts, &mut Reading::new(&TEXTS, 1), &PLANTED_TRANSLATION),
            "plan" => reading(&self.plans, &mut Reading::new(&PLANS, 1), &PLANTED_PLAN),
            _ => None,
        }
    }
}

fn reading(texts: &[Text], reading: &mut Reading, reader: &Reader) -> Option<String> {
    texts.iter().find_map(|text| {
        let lent = [reading.need(text); 3];
        let wanted = reading.wanted(text, lent);
        reading.read_by(reader, text, lent, &wanted).err()
    })
}

/// How many exchanges were noticed. One that is not ends the test.
pub fn all() -> usize {
    let mut test = Test::new(1);
    let samples = Samples::drawn(&mut test);
    let (calls, mut count) = (calls(), 0);
    known(calls.len(), CALLS, "the calls of the header");
    for call in calls {
        exchange("nothing", [0, 0]);
        if let Some(difference) = samples.difference(&mut test, call.name) {
            fail(&format!("NOTICED, though nothing is exchanged: {difference}"));
        }
        for [one, other] in call.alike() {
            exchange(call.name, [one, other]);
            if samples.difference(&mut test, call.name).is_none() {
                let [one, other] = [one, other].map(|place| call.parameters[place].name);
                let call = call.name;
                fail(&format!("NOT NOTICED: racejudge_{call} with {one} and {other} exchanged"));
            }
            count += 1;
        }
    }
    count
}
