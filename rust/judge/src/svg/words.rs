//! The words of a picture.

use super::story::{Mark, Story};
use crate::answer;
use crate::phrases::{capital, clean_before, deed, first_is_far, grouped, has_sums, leaf};
use crate::study::Clash;
use racejudge::{Event, Kind, Refusal, Verdict, CLOSE};

/// What connects the two accesses of a race.
pub const NO_ORDER: &str = "no order";

const NO_RACE: &str = "No race: where two tasks touch one location and one of them writes, \
    forks and joins order the two.";
const NO_RACE_OF_SUMS: &str = "No race: where two tasks touch one location, forks and joins order \
    the two, unless both read it or both add to it.";

impl Story<'_> {
    /// What stands beside a marked event.
    pub fn note(&self, p: usize) -> Option<String> {
        let holder = self.holder().unwrap_or_default();
        let (s, _) = self.pair.unwrap_or_default();
        Some(match self.mark(p)? {
            Mark::Racing => {
                let act = self.trace.event(p).map(deed)?;
                let source = self.place(p).map(|(_, source)| format!(", source line {source}"));
                let leaf = self.leaf(p).map(|leaf| format!(", {leaf} at byte {}", leaf.position));
                act + &source.or(leaf).unwrap_or_default()
            }
            Mark::Parted => "the last event before both".into(),
            Mark::Ended => format!("task {holder} ends: by now event {s} is done"),
            Mark::Late => format!("task {holder} is joined only here"),
            Mark::Refused => self.answer.as_ref().err()?.meaning().into(),
        })
    }

    /// What the refused event should have named.
    fn instead(&self, row: usize, p: usize) -> Option<String> {
        let event = self.trace.event(p)?;
        match row {
            7 => self.graph.active_before(p).last().map(|task| format!("Task {task} is running.")),
            10 => {
                self.graph.forked_at(event.operand).map(|fork| format!("Event {fork} forked it."))
            }
            11 => Some(match self.graph.left_before(p).last() {
                Some(task) => format!("The left neighbour is task {task}."),
                None => "There is no task at its left.".into(),
            }),
            12 => Some(match self.graph.parent_before(p) {
                Some(task) => format!("Task {task} resumes."),
                None => "No task resumes.".into(),
            }),
            _ => None,
        }
    }

    /// What is missing right before t.
    pub fn missing(&self) -> Option<String> {
        let (_, t) = self.pair?;
        Some(format!("no join of {} before event {t}", self.unjoined()?))
    }

    /// The tasks to be joined, the nearest first.
    fn unjoined(&self) -> Option<String> {
        Some(match self.why?.unjoined.as_slice() {
            [] => return None,
            [task] => format!("task {task}"),
            [near, task] => format!("task {near} and then task {task}"),
            [near, between @ .., task] => {
                format!("task {near}, {} more and then task {task}", grouped(between.len()))
            }
        })
    }

    /// The proved answer's own line.
    pub fn answer_line(&self) -> String {
        match self.listed {
            Some(listed) => listed.line(),
            None => answer::line(self.answer, self.trace.len()),
        }
    }

    /// The answer in a few sentences.
    pub fn summary(&self) -> Vec<String> {
        if let Some(listing) = &self.listing {
            let far = self.listed.and_then(|listed| listed.far_race()).map(first_is_far);
            return [listing.groups.summary()].into_iter().chain(far).collect();
        }
        match self.answer {
            Ok(Verdict::Clean { .. }) if self.trace.is_empty() => {
                vec!["There are no events.".into()]
            }
            Ok(Verdict::Clean { .. }) if has_sums(self.trace) => vec![NO_RACE_OF_SUMS.into()],
            Ok(Verdict::Clean { .. }) => vec![NO_RACE.into()],
            Ok(Verdict::Race { s, t, .. }) => self.race_summary(*s, *t),
            Err(refusal) => self.refusal_summary(refusal),
        }
    }

    fn refusal_summary(&self, refusal: &Refusal) -> Vec<String> {
        let mut told = vec![format!("{}.", capital(&refusal.to_string()))];
        if let Some(p) = self.refused {
            told.extend(self.instead(refusal.row, p));
            // The list is refused also where a race comes before.
            let has_race = self.listed.is_some_and(|listed| listed.first_race().is_some());
            told.extend((!has_race).then(|| clean_before(p)));
        }
        vec![told.join(" ")]
    }

    fn race_summary(&self, s: usize, t: usize) -> Vec<String> {
        let act = |p: usize| self.trace.event(p).map(deed).unwrap_or_default();
        let mut told: Vec<String> = self.meeting().into_iter().chain(self.far_only()).collect();
        told.push(format!(
            "Event {s} ({}) and event {t} ({}): no path of forks and joins leads from one to the \
             other, so either can come first.",
            act(s),
            act(t)
        ));
        if let Some(why) = self.why {
            let fork = self.trace.event(why.parted).map(deed).unwrap_or_default();
            told.push(format!("The ways to them part at event {} ({fork}).", why.parted));
            told.extend(self.lacking(t));
        }
        told
    }

    /// Why no pair is listed though there is a race.
    fn far_only(&self) -> Option<String> {
        self.listed?.far_race()?;
        Some(format!(
            "No two accesses race that are at most {CLOSE} events apart. These are farther apart."
        ))
    }

    /// How many of the accesses of the pairs are drawn and of the pairs are connected, where that is
    /// less than could be.
    pub fn connected(&self, drawn: &[bool], brackets: usize) -> Option<String> {
        let listing = self.listing.as_ref()?;
        let racing = listing.accesses(|_| true);
        let marked = listing.accesses(|p| drawn.get(p) == Some(&true));
        let of = |shown: usize, all: usize| format!("{} of the {}", grouped(shown), grouped(all));
        let marks = format!("Marked are {} accesses of these pairs. ", of(marked, racing));
        let connects = format!("Brackets connect {} pairs.", of(brackets, listing.pairs.len()));
        match (marked < racing, brackets < listing.pairs.len()) {
            (true, _) => Some(marks + &connects),
            (_, true) => Some(connects),
            _ => None,
        }
    }

    /// Where the two leaves of a plan's race meet.
    fn meeting(&self) -> Option<String> {
        let Clash { s, t, meet } = self.clash()?;
        let (operator, position) = (meet.operator, meet.position);
        let both = capital(&format!("{} and {}", leaf(s), leaf(t)));
        Some(format!("{both} meet at the {operator} at byte {position}."))
    }

    /// What would have ordered s before t.
    fn lacking(&self, t: usize) -> Option<String> {
        let (joiner, tasks) = (self.trace.event(t)?.task, self.unjoined()?);
        Some(format!("Before event {t}, task {joiner} would have to join {tasks}."))
    }

    /// All of an event, for who points at it and for screen readers.
    pub fn tooltip(&self, p: usize) -> String {
        let act = self.trace.event(p).map(deed).unwrap_or_default();
        match self.place(p) {
            Some((line, source)) => {
                format!("event {p}: {act} (text line {line}, source line {source})")
            }
            None => match self.leaf(p) {
                Some(leaf) => format!("event {p}: {act} ({leaf} at byte {})", leaf.position),
                None => format!("event {p}: {act}"),
            },
        }
    }

    /// How much of the trace is drawn, where that is less than could be.
    pub fn extent(&self, events: usize, tasks: usize) -> Option<String> {
        let (all_events, all_tasks) = (self.trace.len(), self.graph.columns().len());
        if events >= self.drawable() && tasks >= all_tasks {
            return None;
        }
        let of = |drawn: usize, all: usize| format!("{} of {}", grouped(drawn), grouped(all));
        let purpose = match (self.answer, &self.listing) {
            (Ok(Verdict::Race { .. }), None) => "Cut to what the race needs",
            _ => "Not all is drawn",
        };
        let (events, tasks) = (of(events, all_events), of(tasks, all_tasks));
        Some(format!("{purpose}: {events} events and {tasks} tasks."))
    }
}

/// What an event does, as short as it can be said beside its dot.
pub fn label(event: Event) -> String {
    let Event { kind, operand, .. } = event;
    match event.kind() {
        Some(Kind::Read) => format!("r {operand}"),
        Some(Kind::Write) => format!("w {operand}"),
        Some(Kind::Fork) => format!("fork {operand}"),
        Some(Kind::Join) => format!("join {operand}"),
        Some(Kind::Halt) => format!("halt {operand}"),
        Some(Kind::Sum) => format!("s {operand}"),
        None => format!("kind {kind}"),
    }
}
