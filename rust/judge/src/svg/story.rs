//! What is to be told of a run: how each event and each arc concerns the race.

use super::listing::Listing;
use crate::answer::Answer;
use crate::graph::Graph;
use crate::phrases::place;
use crate::study::{Clash, Listed, Planned};
use crate::why::Why;
use racejudge::{Leaf, Refusal, Trace, Verdict};

/// How an event or an arc concerns the race. The order is that of painting: the last is on top.
#[derive(Clone, Copy, Debug, PartialEq, Eq, PartialOrd, Ord)]
pub enum Tone {
    /// It reaches neither of the two accesses.
    Pale,
    /// It reaches one of them, or there is no race.
    Plain,
    /// It is on the way from the fork that parts the two to the first of them,
    ToS,
    /// or to the second.
    ToT,
    /// An arc on the way from the first access to the halt of the task that is not joined.
    Onward,
}

impl Tone {
    /// The class of the picture's style sheet.
    pub fn class(self) -> &'static str {
        match self {
            Tone::Pale => "pale",
            Tone::Plain => "plain",
            Tone::ToS => "to-s",
            Tone::ToT => "to-t",
            Tone::Onward => "onward",
        }
    }
}

/// Why an event stands out.
#[derive(Clone, Copy, Debug, PartialEq, Eq)]
pub enum Mark {
    /// One of the two accesses, or of the accesses of all pairs.
    Racing,
    /// The fork that parts them.
    Parted,
    /// The halt of the task that would have had to be joined.
    Ended,
    /// The join that comes too late.
    Late,
    /// The event that breaks a rule.
    Refused,
}

pub struct Story<'a> {
    pub trace: &'a Trace,
    pub graph: &'a Graph,
    pub answer: &'a Answer,
    pub why: Option<&'a Why>,
    /// The plan that the run is of, if it is of one.
    pub planned: Option<&'a Planned<'a>>,
    /// What is listed of the run, if its close pairs are.
    pub listed: Option<&'a Listed<'a>>,
    /// The close pairs, where there are any. The race of the judge is then not told of by itself.
    pub listing: Option<Listing<'a>>,
    /// The two accesses of a race.
    pub pair: Option<(usize, usize)>,
    /// The event that breaks a rule: it stands behind those of the graph.
    pub refused: Option<usize>,
    /// The way from the first access to the halt of the task that is not joined.
    pub onward: Vec<usize>,
    /// For each event of the graph.
    parts: Vec<Part>,
}

/// What an event has to do with the race.
#[derive(Clone, Copy)]
struct Part {
    tone: Tone,
    /// The event before it on one of the ways, if it is on one.
    before: Option<usize>,
}

impl<'a> Story<'a> {
    pub fn new(
        trace: &'a Trace,
        graph: &'a Graph,
        answer: &'a Answer,
        why: Option<&'a Why>,
    ) -> Self {
        let pair = match *answer {
            Ok(Verdict::Race { s, t, .. }) if s < t && t < graph.len() => Some((s, t)),
            _ => None,
        };
        let mut story = Story::plain(trace, graph, answer);
        story.tell_race(pair, why.filter(|_| pair.is_some()));
        story
    }

    /// With no race.
    fn plain(trace: &'a Trace, graph: &'a Graph, answer: &'a Answer) -> Self {
        let refused = match *answer {
            Err(Refusal { row: 5..=12, position }) => {
                Some(position).filter(|&p| p == graph.len() && p < trace.len())
            }
            _ => None,
        };
        Story {
            trace,
            graph,
            answer,
            why: None,
            planned: None,
            listed: None,
            listing: None,
            pair: None,
            refused,
            onward: Vec::new(),
            parts: vec![Part { tone: Tone::Plain, before: None }; graph.len()],
        }
    }

    /// None where there is no plan.
    pub fn of_plan(planned: &'a Planned<'a>) -> Option<Self> {
        let (study, scene) = (&planned.study, planned.study.scene.as_ref()?);
        let story = Story::new(scene.trace, &scene.graph, &study.answer, study.why.as_ref());
        Some(Story { planned: Some(planned), ..story })
    }

    /// None where there is no trace.
    pub fn of_pairs(listed: &'a Listed<'a>) -> Option<Self> {
        let (study, scene) = (&listed.study, listed.study.scene.as_ref()?);
        let pairs = listed.answer.as_ref().ok();
        let story = match pairs.and_then(|pairs| Listing::of(scene, pairs)) {
            Some(listing) => {
                let plain = Story::plain(scene.trace, &scene.graph, &listed.verdict);
                Story { listing: Some(listing), ..plain }
            }
            None => Story::new(scene.trace, &scene.graph, &listed.verdict, study.why.as_ref()),
        };
        Some(Story { listed: Some(listed), ..story })
    }

    /// Finds the events that reach one of the two accesses, and those on the ways to them.
    fn tell_race(&mut self, pair: Option<(usize, usize)>, why: Option<&'a Why>) {
        let Some((s, t)) = pair else { return };
        (self.pair, self.why) = (pair, why);
        self.parts.iter_mut().for_each(|part| part.tone = Tone::Pale);
        for reaching in [self.graph.reaching(s), self.graph.reaching(t)] {
            let reached = self.parts.iter_mut().zip(reaching).filter(|(_, reaches)| *reaches);
            reached.for_each(|(part, _)| part.tone = Tone::Plain);
        }
        let Some(why) = self.why else { return };
        self.onward = self.ended().map_or(Vec::new(), |halt| self.graph.path(s, halt));
        let ways = [(&why.to_s, Tone::ToS), (&why.to_t, Tone::ToT), (&self.onward, Tone::Pale)];
        for (way, tone) in ways {
            for (&from, &to) in way.iter().zip(way.iter().skip(1)) {
                if let Some(part) = self.parts.get_mut(to) {
                    *part = Part { tone, before: Some(from) };
                }
            }
        }
    }

    /// How many events can be drawn: those that keep the rules, and the one that breaks one.
    pub fn drawable(&self) -> usize {
        let events = self.graph.len() + usize::from(self.refused.is_some());
        events.min(self.trace.len())
    }

    pub fn tone(&self, p: usize) -> Tone {
        self.parts.get(p).map_or(Tone::Plain, |part| part.tone)
    }

    /// The tone of the arc from one event to another.
    pub fn arc_tone(&self, from: usize, to: usize) -> Tone {
        let is_on_way = self.parts.get(to).is_some_and(|part| part.before == Some(from));
        match self.tone(to) {
            Tone::Pale if is_on_way => Tone::Onward,
            tone if is_on_way => tone,
            tone => tone.min(Tone::Plain),
        }
    }

    /// The tone of what comes after all events.
    pub fn rest_tone(&self) -> Tone {
        if self.pair.is_some() {
            Tone::Pale
        } else {
            Tone::Plain
        }
    }

    /// The task that holds s and is not joined before t.
    pub fn holder(&self) -> Option<u16> {
        self.why.and_then(|why| why.unjoined.last()).copied()
    }

    /// Its halt.
    pub fn ended(&self) -> Option<usize> {
        self.graph.halted_at(self.holder()?)
    }

    pub fn mark(&self, p: usize) -> Option<Mark> {
        let is_listed = self.listing.as_ref().is_some_and(|listing| listing.is_racing(p));
        if is_listed || self.pair.is_some_and(|(s, t)| p == s || p == t) {
            Some(Mark::Racing)
        } else if self.refused == Some(p) {
            Some(Mark::Refused)
        } else if self.why.is_some_and(|why| why.parted == p) {
            Some(Mark::Parted)
        } else if self.ended() == Some(p) {
            Some(Mark::Ended)
        } else if self.why.is_some_and(|why| why.joined_later == Some(p)) {
            Some(Mark::Late)
        } else {
            None
        }
    }

    /// The two leaves of a plan's race.
    pub fn clash(&self) -> Option<&Clash<'_>> {
        self.planned?.clash.as_ref()
    }

    /// The leaf of a plan that made an event.
    pub fn leaf(&self, p: usize) -> Option<&Leaf> {
        self.planned?.schedule.plan.as_ref().ok()?.leaf_of(p)
    }

    /// The text line, counted from 1, and the source line. A halt has no line of the text.
    pub fn place(&self, p: usize) -> Option<(usize, u16)> {
        place(self.trace, p).map(|place| (place.line, place.source))
    }
}
