//! The trace that is written for a plan held to what the plan says: the tasks in fork order, each of
//! them joined; of any two leaves which reaches which, by the ordering call; and the first race by
//! that, by the judge. Each way to write another trace must show, and each wrong rule.

use crate::compare::{known, Test};
use crate::reading::Reading;
use crate::tally::{fail, mismatch};
use racejudge_bench::grammar;
use racejudge_bench::plan::{first_race, Leaf, Operator, Plan};
use racejudge_bench::shapes::{Mix, SHAPES};
use racejudge_bench::trace::*;

/// What was met: clean plans and races, pairs of leaves without a path and with one.
#[derive(Default)]
pub struct Met {
    said: [usize; 2],
    pairs: [usize; 2],
}

/// Up to so many leaves all pairs are tried; else some, the fewer the longer the plan is.
const ALL_PAIRS: usize = 40;

impl Met {
    /// Plans at random, most of them short, and the plans of the benchmark.
    pub fn all(&mut self, test: &mut Test, plans: &mut Reading, times: usize) {
        for (count, most) in [(2_000, 8), (300, ALL_PAIRS), (60, 1_000)] {
            for _ in 0..count * times {
                let plan = Mix::any(&mut test.rng, most).draw(&mut test.rng);
                self.hold(test, plans, &plan);
            }
        }
        for shape in &SHAPES {
            for n in [1_024, 8_192, MAX_EVENTS] {
                let plan = shape.plan(n, &mut test.rng);
                self.hold(test, plans, &plan);
            }
        }
    }

    /// The readers must write the plan's trace, and that must mean what the plan says.
    fn hold(&mut self, test: &mut Test, plans: &mut Reading, plan: &Plan) {
        let trace = plan.trace();
        known(plans.read(plan.to_string()), Translation::Events(trace.len()), plan);
        if let Some(fault) = self.fault(test, plan, &trace) {
            mismatch(&format!("{fault}\non {plan}"));
        }
    }

    /// Why a trace is not that of a plan, if so.
    fn fault(&mut self, test: &mut Test, plan: &Plan, trace: &Trace) -> Option<String> {
        let leaves = plan.leaves();
        if let Some(fault) = miswritten(plan, &leaves, trace) {
            return Some(fault);
        }
        let misjudged = self.misjudged(test, &leaves, trace, Leaf::races_with);
        misjudged.or_else(|| self.misordered(test, &leaves, trace, Leaf::reaches))
    }

    /// What the judge says that is not true of the leaves where the rule tells which race, if it does.
    fn misjudged(
        &mut self,
        test: &mut Test,
        leaves: &[Leaf],
        trace: &Trace,
        rule: Rule,
    ) -> Option<String> {
        let places = accesses(trace);
        let race = first_race(leaves, rule);
        let wanted = race.map_or(Answer::Clean, |(s, t)| Answer::Race(places[s], places[t]));
        let said = test.judge(trace);
        if said != wanted {
            return Some(format!("{said:?} is said, but of the leaves {wanted:?} is true"));
        }
        self.said[usize::from(race.is_some())] += 1;
        None
    }

    /// Two leaves of which the ordering call does not say what the rule wants, if there are some.
    fn misordered(
        &mut self,
        test: &mut Test,
        leaves: &[Leaf],
        trace: &Trace,
        rule: Rule,
    ) -> Option<String> {
        let places = accesses(trace);
        for (p, q) in pairs(test, leaves.len()) {
            let reaches = rule(&leaves[p], &leaves[q]);
            let wanted = if reaches { Ordering::Yes } else { Ordering::No };
            let said = test.ordering(trace, places[p], places[q]);
            if said != wanted {
                return Some(format!(
                    "{said:?} is said of leaves {p} and {q}, but {wanted:?} is true"
                ));
            }
            self.pairs[usize::from(reaches)] += 1;
        }
        None
    }

    pub fn missing(&self) -> Option<String> {
        let counts = [self.said, self.pairs].concat();
        counts.contains(&0).then(|| "what a plan means".to_string())
    }

    pub fn line(&self) -> String {
        let ([clean, races], [without, with]) = (self.said, self.pairs);
        format!(
            "held to where leaves meet: {clean} clean plans, {races} races, {} pairs of leaves, of \
             which {with} ordered\n",
            without + with
        )
    }
}

/// What is wrong with the tasks or with the accesses of a trace.
fn miswritten(plan: &Plan, leaves: &[Leaf], trace: &Trace) -> Option<String> {
    let forked = named(trace, FORK);
    let mut joined = named(trace, JOIN);
    joined.sort();
    let tasks: Vec<u16> = (1..).take(plan.forks()).collect();
    if forked != tasks || joined != tasks {
        return Some(format!("tasks {forked:?} are forked and {joined:?} joined"));
    }
    let accesses = accesses(trace).into_iter().map(|p| (trace.kinds[p], trace.operands[p]));
    if !accesses.eq(leaves.iter().map(|leaf| (leaf.kind, leaf.location))) {
        return Some("the accesses are not the leaves".to_string());
    }
    None
}

/// Where the accesses are.
fn accesses(trace: &Trace) -> Vec<usize> {
    (0..trace.len()).filter(|&p| is_access(trace.kinds[p])).collect()
}

/// The tasks that events of a kind name.
fn named(trace: &Trace, kind: u8) -> Vec<u16> {
    let events = trace.kinds.iter().zip(&trace.operands);
    events.filter(|(&other, _)| other == kind).map(|(_, &task)| task).collect()
}

/// Pairs of so many leaves: all, or some.
fn pairs(test: &mut Test, leaves: usize) -> Vec<(usize, usize)> {
    if leaves <= ALL_PAIRS {
        return (0..leaves).flat_map(|p| (0..leaves).map(move |q| (p, q))).collect();
    }
    let some = 1 + 10_000 / leaves;
    (0..some).map(|_| (test.rng.below(leaves), test.rng.below(leaves))).collect()
}

/// Plans in which everything that can be wrong with a trace shows.
const SAMPLES: [&str; 4] =
    ["P(w1,w2)", "S(P(w1,s1),w1)", "P(S(w1,P(r1,s1)),w2)", "S(P(P(r1,r2),S(w3,r4)),s1)"];

fn samples() -> [Plan; 4] {
    SAMPLES.map(|text| grammar::read(text.as_bytes()).expect("a plan"))
}

/// Plans that are read as others, for each operator and its operands.
type Other = fn(Operator, Plan, Plan) -> Plan;

const OTHERS: [(&str, Other); 4] = [
    ("P runs its second operand first", |operator, g1, g2| match operator {
        Operator::P => Plan::of(operator, g2, g1),
        Operator::S => Plan::of(operator, g1, g2),
    }),
    ("S runs its second operand first", |operator, g1, g2| match operator {
        Operator::P => Plan::of(operator, g1, g2),
        Operator::S => Plan::of(operator, g2, g1),
    }),
    ("S forks", |_, g1, g2| Plan::of(Operator::P, g1, g2)),
    ("P does not fork", |_, g1, g2| Plan::of(Operator::S, g1, g2)),
];

fn other(plan: &Plan, change: Other) -> Plan {
    match plan {
        Plan::Leaf(..) => plan.clone(),
        Plan::Of(operator, operands) => {
            let [g1, g2] = &**operands;
            change(*operator, other(g1, change), other(g2, change))
        }
    }
}

/// What is wrong with the events of a plan.
type Edit = fn(Vec<Event>) -> Vec<Event>;

const EDITS: [(&str, Edit); 7] = [
    ("a task is joined as soon as it has halted", joined_at_once),
    ("a task is not joined", |events| {
        let last = events.iter().rposition(|event| event.1 == JOIN);
        let kept = events.into_iter().enumerate().filter(|(p, _)| Some(*p) != last);
        kept.map(|(_, event)| event).collect()
    }),
    ("a task does not halt", |events| events.into_iter().filter(|event| event.1 != HALT).collect()),
    ("a halt names 0", |events| halts_name(events, |_| 0)),
    ("a halt names its own task", |events| halts_name(events, |task| task)),
    ("tasks are numbered in the order of their halts", renumbered),
    ("a sum is a write", |events| {
        let written =
            |(task, kind, operand)| (task, if kind == SUM { WRITE } else { kind }, operand);
        events.into_iter().map(written).collect()
    }),
];

/// Each halt names this of its task.
fn halts_name(events: Vec<Event>, name: fn(u16) -> u16) -> Vec<Event> {
    let named =
        |(task, kind, operand)| (task, kind, if kind == HALT { name(task) } else { operand });
    events.into_iter().map(named).collect()
}

fn joined_at_once(events: Vec<Event>) -> Vec<Event> {
    let (joins, others): (Vec<Event>, Vec<Event>) =
        events.into_iter().partition(|event| event.1 == JOIN);
    let with_join = |event: Event| {
        let join = joins.iter().find(|join| event.1 == HALT && join.2 == event.0);
        [Some(event), join.copied()].into_iter().flatten()
    };
    others.into_iter().flat_map(with_join).collect()
}

fn renumbered(events: Vec<Event>) -> Vec<Event> {
    let halts = events.iter().filter(|event| event.1 == HALT);
    let order: Vec<u16> = [0].into_iter().chain(halts.map(|event| event.0)).collect();
    let number = |task: u16| order.iter().position(|&other| other == task).unwrap_or(0) as u16;
    let renumbered = |(task, kind, operand)| {
        let names = matches!(kind, FORK | JOIN | HALT);
        (number(task), kind, if names { number(operand) } else { operand })
    };
    events.into_iter().map(renumbered).collect()
}

/// Whether one leaf reaches another, or races with it.
type Rule = fn(&Leaf, &Leaf) -> bool;

const RULES: [(&str, Rule); 5] = [
    ("left and right are exchanged", |one, other| {
        one.meets(other).is_none_or(|meet| meet == (Operator::S, 1))
    }),
    ("S orders both ways", |one, other| {
        one.meets(other).is_none_or(|(operator, _)| operator == Operator::S)
    }),
    ("P orders its operands too", |one, other| {
        one.meets(other).is_none_or(|(_, operand)| operand == 0)
    }),
    ("S orders nothing", |one, other| one.meets(other).is_none()),
    ("no leaf reaches itself", |one, other| one.meets(other) == Some((Operator::S, 0))),
];

/// How many wrong rules were noticed. One that is not, on any of the plans, ends the test.
pub fn wrong_rules(test: &mut Test) -> usize {
    let plans = samples();
    for (name, rule) in RULES {
        let noticed = |plan: &Plan| {
            let fault = Met::default().misordered(test, &plan.leaves(), &plan.trace(), rule);
            fault.is_some()
        };
        if !plans.iter().any(noticed) {
            fail(&format!("NOT NOTICED: a rule by which {name}"));
        }
    }
    RULES.len()
}

const RACES: [(&str, Rule); 4] = [
    ("leaves that meet at S race, and those at P do not", |one, other| {
        one.conflicts_with(other) && one.meets(other).is_some_and(|meet| meet.0 == Operator::S)
    }),
    ("leaves race wherever they meet", |one, other| {
        one.conflicts_with(other) && one.meets(other).is_some()
    }),
    ("leaves of any kind and location race", |one, other| {
        one.meets(other).is_some_and(|meet| meet.0 == Operator::P)
    }),
    ("no leaves race", |_, _| false),
];

/// How many wrong races were noticed. One that is not, on any of the plans, ends the test.
pub fn wrong_races(test: &mut Test) -> usize {
    let plans = samples();
    for (name, rule) in RACES {
        let noticed = |plan: &Plan| {
            let fault = Met::default().misjudged(test, &plan.leaves(), &plan.trace(), rule);
            fault.is_some()
        };
        if !plans.iter().any(noticed) {
            fail(&format!("NOT NOTICED: a rule by which {name}"));
        }
    }
    RACES.len()
}

/// How many wrong traces were noticed. One that is not, on any of the plans, ends the test.
pub fn wrong_traces(test: &mut Test) -> usize {
    let plans = samples();
    let others =
        OTHERS.map(|(name, change)| (name, plans.clone().map(|plan| other(&plan, change).trace())));
    let edited = EDITS.map(|(name, edit)| {
        let edited = |plan: Plan| {
            let trace = plan.trace();
            Trace::of(&edit((0..trace.len()).map(|p| trace.event(p)).collect()))
        };
        (name, plans.clone().map(edited))
    });
    for (name, traces) in others.iter().chain(&edited) {
        let noticed = |(plan, trace)| Met::default().fault(test, plan, trace).is_some();
        if !plans.iter().zip(traces).any(noticed) {
            fail(&format!("NOT NOTICED: a reader by which {name}"));
        }
    }
    others.len() + edited.len()
}
