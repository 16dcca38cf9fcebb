//! The all-ancestors judge, written from document 01 and the owner's sentences on sums and on halts:
//! for every event the set of all events that reach it, as bits, made from the arcs of document 01's
//! three sentences. Slow and plain.

use crate::cards::cards;
use crate::joins;
use crate::line::{names_resumed, Halts, Line};
use crate::trace::*;

/// Everything that a call leaves behind.
#[derive(Debug)]
pub struct Outcome<T> {
    pub said: T,
    /// The judge's number of links; 0 for every other call.
    pub links: usize,
    /// Cells of the workspace, from the first, that are 0 afterwards; the rest is unchanged.
    pub cleared: usize,
    /// After a race the first t + 1 cells of the two order buffers.
    pub orders: Option<(Vec<u16>, Vec<u16>)>,
    /// After a clean verdict with cards the first records of those.
    pub cards: Option<Vec<Card>>,
}

impl<T> Outcome<T> {
    /// A call that a size check refuses leaves all as it was.
    fn untouched(said: T) -> Self {
        Outcome { said, links: 0, cleared: 0, orders: None, cards: None }
    }
}

impl Outcome<Answer> {
    /// What becomes of the judge's outcome where so many cards are lent too. Row 16 comes after the
    /// rows 1 to 4 and before all others.
    pub fn with_cards(self, trace: &Trace, lent: usize) -> Self {
        match self.said {
            Answer::Refused(1..=4, _) => self,
            _ if lent < LOCATIONS => Outcome::untouched(Answer::Refused(16, 0)),
            Answer::Clean => Outcome { cards: Some(cards(trace)), ..self },
            _ => self,
        }
    }
}

/// The line so far, and for each task where an arc to come may start.
struct Walk {
    line: Line,
    last_event: [Option<usize>; TASKS],
    made_by: [Option<usize>; TASKS],
    halted_at: [Option<usize>; TASKS],
}

impl Walk {
    fn start(halts: Halts) -> Self {
        Walk {
            line: Line::start(halts),
            last_event: [None; TASKS],
            made_by: [None; TASKS],
            halted_at: [None; TASKS],
        }
    }

    /// Holds event p to the rules: the starts of the arcs into it, or the row that turns it back.
    /// Arcs come from the same task's event before, or from the fork that made the task, and from
    /// the halt of the joined task.
    fn step(&mut self, trace: &Trace, p: usize) -> Result<[Option<usize>; 2], usize> {
        let (task, kind, operand) = trace.event(p);
        self.line.step(task, kind, operand)?;
        let (task, operand) = (task as usize, operand as usize);
        let before = self.last_event[task].or(self.made_by[task]);
        self.last_event[task] = Some(p);
        let mut joined = None;
        match kind {
            FORK => self.made_by[operand] = Some(p),
            JOIN => joined = self.halted_at[operand],
            HALT => self.halted_at[task] = Some(p),
            _ => {}
        }
        Ok([before, joined])
    }
}

/// Whether accesses of two kinds to one location conflict: the earlier comes first.
pub type Conflict = fn(u8, u8) -> bool;

/// They do if at least one is a write. A sum conflicts with a read and with a write, and never with
/// another sum.
pub fn conflict(s: u8, t: u8) -> bool {
    let sum_and_read = matches!((s, t), (SUM, READ) | (READ, SUM));
    s == WRITE || t == WRITE || sum_and_read
}

/// The events that reach each event, one row of bits for an event: 134 MB for 32,768 events. The
/// rows are kept from call to call.
pub struct Ancestors {
    conflict: Conflict,
    halts: Halts,
    stride: usize,
    rows: Vec<u64>,
}

impl Default for Ancestors {
    fn default() -> Self {
        Ancestors::by(conflict, names_resumed)
    }
}

impl Ancestors {
    /// A judge for whom these kinds conflict, and who has this row 12.
    pub fn by(conflict: Conflict, halts: Halts) -> Self {
        Ancestors { conflict, halts, stride: 0, rows: Vec::new() }
    }

    fn make_room(&mut self, events: usize) {
        self.stride = events.div_ceil(64);
        if self.rows.len() < events * self.stride {
            self.rows = vec![0; events * self.stride];
        }
    }

    /// Event p is reached by itself and by all that reaches the start of an arc into it.
    fn store(&mut self, p: usize, starts: [Option<usize>; 2]) {
        let (earlier, rest) = self.rows.split_at_mut(p * self.stride);
        let row = &mut rest[..p / 64 + 1];
        row.fill(0);
        row[p / 64] |= 1 << (p % 64);
        for start in starts.into_iter().flatten() {
            let from = &earlier[start * self.stride..][..start / 64 + 1];
            for (word, more) in row.iter_mut().zip(from) {
                *word |= more;
            }
        }
    }

    /// Stores all events; or the row that the first of them meets that breaks a rule, and its position.
    /// Races do not stop it.
    pub fn store_all(&mut self, trace: &Trace) -> Result<(), (usize, usize)> {
        self.make_room(trace.len());
        let mut walk = Walk::start(self.halts);
        for p in 0..trace.len() {
            let starts = walk.step(trace, p).map_err(|row| (row, p))?;
            self.store(p, starts);
        }
        Ok(())
    }

    /// Whether p reaches q, both stored, for p at most q.
    pub fn reaches(&self, p: usize, q: usize) -> bool {
        self.rows[q * self.stride + p / 64] >> (p % 64) & 1 == 1
    }

    /// Whether two events are accesses that conflict, s before t.
    pub fn conflict(&self, trace: &Trace, s: usize, t: usize) -> bool {
        let [one, other] = [s, t].map(|p| trace.kinds[p]);
        trace.operands[s] == trace.operands[t]
            && is_access(one)
            && is_access(other)
            && (self.conflict)(one, other)
    }

    /// Events in position order: each held to the rules, then to the race test.
    pub fn answer(&mut self, trace: &Trace) -> Answer {
        self.make_room(trace.len());
        let mut walk = Walk::start(self.halts);
        let mut accesses: Vec<Vec<usize>> = vec![Vec::new(); LOCATIONS];
        for t in 0..trace.len() {
            match walk.step(trace, t) {
                Ok(starts) => self.store(t, starts),
                Err(row) => return Answer::Refused(row, t),
            }
            if is_access(trace.kinds[t]) {
                let earlier = &mut accesses[trace.operands[t] as usize];
                let with = KINDS.map(|kind| (self.conflict)(kind, trace.kinds[t]));
                let conflicts = |s: usize| with[trace.kinds[s] as usize];
                if let Some(&s) = earlier.iter().find(|&&s| conflicts(s) && !self.reaches(s, t)) {
                    return Answer::Race(s, t);
                }
                earlier.push(t);
            }
        }
        Answer::Clean
    }

    /// The whole trace must keep the line rules; races do not stop it. Row 13 comes last.
    fn ordering_answer(&mut self, trace: &Trace, p: usize, q: usize) -> Ordering {
        if let Err((row, position)) = self.store_all(trace) {
            return Ordering::Refused(row, position);
        }
        if p >= trace.len() || q >= trace.len() {
            return Ordering::Refused(13, 0);
        }
        if p <= q && self.reaches(p, q) {
            return Ordering::Yes;
        }
        Ordering::No
    }

    /// D in position order, then the two racing events, then all others up to t.
    fn order(&self, s: usize, t: usize, pair: [usize; 2]) -> Vec<u16> {
        let others = (0..t).filter(|&p| p != s);
        let (before, after): (Vec<usize>, Vec<usize>) =
            others.partition(|&p| self.reaches(p, t) || (p < s && self.reaches(p, s)));
        let whole = before.iter().chain(&pair).chain(&after);
        whole.map(|&p| p as u16).collect()
    }

    /// The two orders of a race, whose trace is stored.
    pub fn orders(&self, said: Answer) -> Option<[Vec<u16>; 2]> {
        match said {
            Answer::Race(s, t) => Some([[s, t], [t, s]].map(|pair| self.order(s, t, pair))),
            _ => None,
        }
    }

    /// The whole outcome of the judge on buffers of these lengths.
    pub fn judge(
        &mut self,
        trace: &Trace,
        workspace: usize,
        first: usize,
        second: usize,
    ) -> Outcome<Answer> {
        let mut row = size_row(trace, workspace);
        if row.is_none() && (first < trace.len() || second < trace.len()) {
            row = Some(4);
        }
        if let Some(row) = row {
            return Outcome::untouched(Answer::Refused(row, 0));
        }
        let said = self.answer(trace);
        let orders = self.orders(said).map(|[first, second]| (first, second));
        let links = joins::links(trace, said);
        Outcome { said, links, cleared: WORKSPACE + trace.len(), orders, cards: None }
    }

    /// The whole outcome of the ordering call on a workspace of this length.
    pub fn ordering(
        &mut self,
        trace: &Trace,
        workspace: usize,
        p: usize,
        q: usize,
    ) -> Outcome<Ordering> {
        if let Some(row) = size_row(trace, workspace) {
            return Outcome::untouched(Ordering::Refused(row, 0));
        }
        let said = self.ordering_answer(trace, p, q);
        Outcome { cleared: WORKSPACE + trace.len(), ..Outcome::untouched(said) }
    }
}

/// The starts of the arcs into each event of a trace that keeps the rules.
pub fn arcs(trace: &Trace) -> Vec<[Option<usize>; 2]> {
    let mut walk = Walk::start(names_resumed);
    let step = |p: usize| walk.step(trace, p).expect("the rules are kept");
    (0..trace.len()).map(step).collect()
}

/// Rows 1 to 3.
pub fn size_row(trace: &Trace, workspace: usize) -> Option<usize> {
    let n = trace.kinds.len();
    if trace.tasks.len() != n || trace.operands.len() != n {
        return Some(1);
    }
    if n > MAX_EVENTS {
        return Some(2);
    }
    if workspace < WORKSPACE + n {
        return Some(3);
    }
    None
}
