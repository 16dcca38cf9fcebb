//! Which events and tasks are drawn. Short runs are drawn whole; of a long one what the answer
//! needs, so that the picture stays readable.

use super::listing::Listing;
use super::story::Story;
use racejudge::{Kind, Verdict};
use std::collections::HashMap;

/// A run of so many events and tasks is drawn whole.
const WHOLE_EVENTS: usize = 60;
const WHOLE_TASKS: usize = 24;

/// A longer one has so many rows at most, those for what is left out included, and so many tasks.
const CUT: Room = Room { rows: 72, tasks: 12 };
/// What matters less is left out sooner.
const ASIDE: Room = Room { rows: 48, tasks: 9 };

/// So many events of a run without a race are drawn: the first ones, or those before a refusal.
const CUT_RUN: usize = 48;

#[derive(Clone, Copy)]
struct Room {
    rows: usize,
    tasks: usize,
}

pub struct Choice {
    /// For each event of the trace.
    pub drawn: Vec<bool>,
    /// Whether a task has a column.
    shown: HashMap<u16, bool>,
}

impl Choice {
    pub fn new(story: &Story) -> Choice {
        let mut picker = Picker::new(story);
        let is_short = story.drawable() <= WHOLE_EVENTS && picker.shown.len() <= WHOLE_TASKS;
        if is_short {
            picker.drawn[..story.drawable()].fill(true);
            picker.shown.values_mut().for_each(|shown| *shown = true);
        } else {
            picker.cut();
        }
        Choice { drawn: picker.drawn, shown: picker.shown }
    }

    pub fn shows(&self, task: u16) -> bool {
        self.shown.get(&task).is_some_and(|&shown| shown)
    }

    pub fn knows(&self, task: u16) -> bool {
        self.shown.contains_key(&task)
    }

    pub fn events(&self) -> usize {
        self.drawn.iter().filter(|&&drawn| drawn).count()
    }

    pub fn tasks(&self) -> usize {
        self.shown.values().filter(|&&shown| shown).count()
    }
}

/// Chooses events one by one, the most important first, as long as there is room.
struct Picker<'a> {
    story: &'a Story<'a>,
    drawn: Vec<bool>,
    shown: HashMap<u16, bool>,
    /// Rows so far: the events that are drawn, and the gaps.
    rows: usize,
    tasks: usize,
    room: Room,
}

impl<'a> Picker<'a> {
    fn new(story: &'a Story<'a>) -> Self {
        Picker {
            story,
            drawn: vec![false; story.trace.len()],
            shown: story.graph.columns().iter().map(|&task| (task, false)).collect(),
            rows: 1,
            tasks: 0,
            room: CUT,
        }
    }

    fn cut(&mut self) {
        let story = self.story;
        match (story.answer, story.refused, &story.listing) {
            (.., Some(listing)) => self.cut_to_pairs(listing),
            (Ok(Verdict::Race { .. }), ..) => self.cut_to_race(),
            (_, Some(p), _) => {
                let from = p.saturating_sub(CUT_RUN);
                (from..=p).rev().for_each(|p| _ = self.pick(p));
                self.complete(p);
            }
            _ => _ = (0..story.drawable().min(CUT_RUN)).all(|p| self.pick(p)),
        }
        self.fill_gaps();
    }

    fn cut_to_pairs(&mut self, listing: &Listing) {
        self.room = ASIDE;
        listing.chosen().for_each(|pair| self.pick_all([pair.s, pair.t]));
        self.room = CUT;
        let graph = self.story.graph;
        let shown = graph.columns().iter().filter(|task| !self.is_hidden(task));
        let forks: Vec<usize> = shown.filter_map(|&task| graph.forked_at(task)).collect();
        self.pick_all(forks);
        let last = self.drawn.iter().rposition(|&drawn| drawn).unwrap_or_default();
        self.complete(last);
    }

    fn cut_to_race(&mut self) {
        let Some((s, t)) = self.story.pair else { return };
        self.pick_all([s, t]);
        let Some(why) = self.story.why else { return };
        self.pick_all([why.parted]);
        self.pick_all(self.story.ended());
        let ways = [&why.to_s, &why.to_t, &self.story.onward];
        self.pick_all(self.moves(ways, true));
        self.pick_all(why.joined_later);
        self.pick_all([s.saturating_sub(1), s + 1, t.saturating_sub(1), t + 1]);
        self.room = ASIDE;
        self.pick_all(self.moves(ways, false));
        let halt = |&task: &u16| self.story.graph.halted_at(task);
        self.pick_all(why.unjoined.iter().filter_map(halt));
        self.room = CUT;
        self.complete(t);
    }

    /// The forks, joins and halts of the ways, from their ends to their middles: those by which a
    /// way turns from one task to another, or the others.
    fn moves(&self, ways: [&Vec<usize>; 3], turning: bool) -> Vec<usize> {
        let event = |p: usize| self.story.trace.event(p);
        let is_move = |p: usize| {
            event(p).and_then(|event| event.kind()).is_some_and(|kind| !kind.is_access())
        };
        let turns = |a: usize, b: usize| event(a).map(|a| a.task) != event(b).map(|b| b.task);
        let of = |way: &Vec<usize>| {
            let arcs = way.iter().copied().zip(way.iter().copied().skip(1));
            let ends = arcs.filter(|&(a, b)| turns(a, b) == turning).flat_map(|(a, b)| [a, b]);
            inwards(&ends.filter(|&p| is_move(p)).collect::<Vec<_>>())
        };
        let ways = ways.map(of);
        let longest = ways.iter().map(Vec::len).max().unwrap_or(0);
        (0..longest).flat_map(|i| ways.iter().filter_map(move |way| way.get(i).copied())).collect()
    }

    fn pick_all(&mut self, events: impl IntoIterator<Item = usize>) {
        events.into_iter().for_each(|p| _ = self.pick(p));
    }

    /// Draws an event with the tasks that it is about, if there is room. Whether it is drawn.
    fn pick(&mut self, p: usize) -> bool {
        if p >= self.story.drawable() || self.drawn[p] {
            return p < self.story.drawable();
        }
        let new: Vec<u16> =
            self.tasks_of(p).into_iter().flatten().filter(|task| self.is_hidden(task)).collect();
        let rows = self.rows_with(p);
        if rows > self.room.rows || self.tasks + new.len() > self.room.tasks {
            return false;
        }
        self.drawn[p] = true;
        self.rows = rows;
        self.tasks += new.len();
        self.shown.extend(new.into_iter().map(|task| (task, true)));
        true
    }

    /// The gap around p is cut in two, unless p stands at an end of it.
    fn rows_with(&self, p: usize) -> usize {
        let is_gap = |p: Option<usize>| p.and_then(|p| self.drawn.get(p)) == Some(&false);
        let gaps = [p.checked_sub(1), p.checked_add(1)].into_iter().filter(|&p| is_gap(p)).count();
        self.rows + gaps
    }

    /// The task that acts, and the one that is forked or joined.
    fn tasks_of(&self, p: usize) -> [Option<u16>; 2] {
        let Some(event) = self.story.trace.event(p) else { return [None; 2] };
        let is_about_task = matches!(event.kind(), Some(Kind::Fork | Kind::Join));
        [Some(event.task), is_about_task.then_some(event.operand)]
    }

    fn is_hidden(&self, task: &u16) -> bool {
        self.shown.get(task) == Some(&false)
    }

    /// The forks, halts and joins of the tasks that are shown, up to event `last`, where they need
    /// no other task.
    fn complete(&mut self, last: usize) {
        let graph = self.story.graph;
        for &task in graph.columns().iter().rev() {
            if self.is_hidden(&task) {
                continue;
            }
            for p in [graph.forked_at(task), graph.halted_at(task), graph.joined_at(task)] {
                if let Some(p) = p.filter(|&p| p <= last && self.needs_none(p)) {
                    self.pick(p);
                }
            }
        }
    }

    fn needs_none(&self, p: usize) -> bool {
        !self.tasks_of(p).iter().flatten().any(|task| self.is_hidden(task))
    }

    /// The mark of a gap takes a row, so a single event may as well be drawn.
    fn fill_gaps(&mut self) {
        for p in 0..self.story.drawable() {
            let is_alone = !self.drawn[p] && self.rows_with(p) == self.rows;
            if is_alone && self.needs_none(p) {
                self.drawn[p] = true;
            }
        }
    }
}

/// First, last, second, last but one, and so on.
fn inwards(events: &[usize]) -> Vec<usize> {
    let mut rest = events.iter().copied();
    let mut out = Vec::with_capacity(events.len());
    while let Some(p) = rest.next() {
        out.push(p);
        out.extend(rest.next_back());
    }
    out
}
