//! What is known of a recording or a plan: what the proved library says, and what explains it.

use crate::answer::{self, Answer};
use crate::graph::Graph;
use crate::phrases::place;
use crate::recording::Recording;
use crate::schedule::Schedule;
use crate::why::Why;
use racejudge::{
    reaches, Conversion, Kind, Leaf, Node, Pair, Pairs, Place, Plan, Refusal, Trace, Verdict, CLOSE,
};

/// A trace, its graph as far as it keeps the rules, and where it was recorded.
pub struct Scene<'a> {
    pub recording: &'a Recording,
    pub trace: &'a Trace,
    pub graph: Graph,
}

impl<'a> Scene<'a> {
    /// None where the recording has no trace.
    pub fn new(recording: &'a Recording) -> Option<Self> {
        let trace = recording.trace.as_ref().ok()?;
        Some(Scene { recording, trace, graph: Graph::new(trace, trace.len()) })
    }

    pub fn kind(&self, p: usize) -> Option<Kind> {
        self.trace.event(p)?.kind()
    }

    pub fn task(&self, p: usize) -> u16 {
        self.trace.event(p).map_or(0, |event| event.task)
    }

    pub fn place(&self, p: usize) -> Option<Place> {
        place(self.trace, p)
    }

    /// The line's text.
    pub fn line(&self, p: usize) -> Option<&[u8]> {
        let place = self.place(p)?;
        self.recording.line(place.line - 1).map(|(line, _)| line)
    }
}

/// A recording that is judged.
pub struct Study<'a> {
    pub recording: &'a Recording,
    pub scene: Option<Scene<'a>>,
    pub answer: Answer,
    /// None where there is no race.
    pub why: Option<Why>,
    /// The rule that the trace breaks behind a race. The judge stops at the race; the ordering call
    /// holds the rules to the whole trace, whatever is asked.
    pub broken: Option<Refusal>,
}

impl<'a> Study<'a> {
    pub fn new(recording: &'a Recording) -> Self {
        let answer = answer::judged(recording);
        let scene = Scene::new(recording);
        let (why, broken) = match (&answer, &scene) {
            (Ok(Verdict::Race { s, t, .. }), Some(scene)) => {
                (Why::new(&scene.graph, *s, *t), reaches(scene.trace, 0, 0).err())
            }
            _ => (None, None),
        };
        Study { recording, answer, scene, why, broken }
    }

    /// The proved answer's own line.
    pub fn line(&self) -> String {
        answer::line(&self.answer, self.scene.as_ref().map_or(0, |scene| scene.trace.len()))
    }
}

/// A plan that is judged.
pub struct Planned<'a> {
    pub schedule: &'a Schedule,
    /// Of its trace.
    pub study: Study<'a>,
    /// None where there is no race.
    pub clash: Option<Clash<'a>>,
}

/// The two leaves of a race, and the operator where they meet.
pub struct Clash<'a> {
    pub s: &'a Leaf,
    pub t: &'a Leaf,
    pub meet: &'a Node,
}

impl<'a> Planned<'a> {
    pub fn new(schedule: &'a Schedule) -> Self {
        let study = Study::new(&schedule.recording);
        let clash = match (&study.answer, &schedule.plan) {
            (Ok(Verdict::Race { s, t, .. }), Ok(plan)) => Clash::of(plan, *s, *t),
            _ => None,
        };
        Planned { schedule, study, clash }
    }
}

impl<'a> Clash<'a> {
    fn of(plan: &'a Plan, s: usize, t: usize) -> Option<Self> {
        let (s, t) = (plan.leaf_of(s)?, plan.leaf_of(t)?);
        Some(Clash { s, t, meet: plan.meet(s, t)? })
    }
}

/// A recording whose close pairs are listed.
pub struct Listed<'a> {
    pub answer: Result<Pairs, Refusal>,
    /// What the judge says of it: it knows of races that are farther apart.
    pub study: Study<'a>,
    /// What it comes to: the refusal of the list, or else the judge's verdict.
    pub verdict: Answer,
}

impl<'a> Listed<'a> {
    pub fn new(recording: &'a Recording) -> Self {
        let trace = recording.trace.as_ref().map_err(|refusal| *refusal);
        let (answer, study) = (trace.and_then(racejudge::pairs), Study::new(recording));
        let verdict = match &answer {
            Ok(_) => study.answer.clone(),
            Err(refusal) => Err(*refusal),
        };
        Listed { answer, study, verdict }
    }

    /// The proved answer's own line.
    pub fn line(&self) -> String {
        match &self.answer {
            Ok(pairs) => format!("pairs {}", pairs.len()),
            Err(refusal) => answer::refused(refusal),
        }
    }

    /// The first race of the trace, by the judge.
    pub fn first_race(&self) -> Option<Pair> {
        match self.study.answer {
            Ok(Verdict::Race { s, t, .. }) => Some(Pair { s, t }),
            _ => None,
        }
    }

    /// The same where it is too far apart to be listed.
    pub fn far_race(&self) -> Option<Pair> {
        self.first_race().filter(|Pair { s, t }| t - s > CLOSE)
    }
}

/// A question: does event p of a recording reach event q?
pub struct Question<'a> {
    pub recording: &'a Recording,
    pub scene: Option<Scene<'a>>,
    pub p: usize,
    pub q: usize,
    pub answer: Result<bool, Refusal>,
    /// The answer the other way round.
    pub reverse: Result<bool, Refusal>,
    /// None where one of the two reaches the other.
    pub why: Option<Why>,
}

impl<'a> Question<'a> {
    pub fn new(recording: &'a Recording, p: usize, q: usize) -> Self {
        let scene = Scene::new(recording);
        let ask = |p, q| {
            let trace = recording.trace.as_ref().map_err(|refusal| *refusal)?;
            reaches(trace, p, q)
        };
        let (answer, reverse) = (ask(p, q), ask(q, p));
        let why = match (answer, reverse, &scene) {
            (Ok(false), Ok(false), Some(scene)) => Why::new(&scene.graph, p.min(q), p.max(q)),
            _ => None,
        };
        Question { recording, scene, p, q, answer, reverse, why }
    }

    /// The proved answer's own line.
    pub fn line(&self) -> String {
        match &self.answer {
            Ok(true) => "yes".to_string(),
            Ok(false) => "no".to_string(),
            Err(refusal) => answer::refused(refusal),
        }
    }
}

/// A stored trace that is brought over.
pub struct Converted {
    /// As it is afterwards.
    pub recording: Recording,
    pub answer: Result<Conversion, Refusal>,
}

impl Converted {
    pub fn new(mut recording: Recording) -> Self {
        let answer = match &mut recording.trace {
            Ok(trace) => trace.convert(),
            Err(refusal) => Err(*refusal),
        };
        Converted { recording, answer }
    }

    /// The proved answer's own line.
    pub fn line(&self) -> String {
        match &self.answer {
            Ok(_) => "converted".to_string(),
            Err(refusal) => answer::refused(refusal),
        }
    }
}
