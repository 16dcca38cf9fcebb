//! A trace, the answers, and the limits of document 01, with the kinds and cards of document 02.

use std::fmt;

pub const READ: u8 = 0;
pub const WRITE: u8 = 1;
pub const FORK: u8 = 2;
pub const JOIN: u8 = 3;
pub const HALT: u8 = 4;
/// Adds to a location, as to a counter.
pub const SUM: u8 = 5;

pub const KINDS: [u8; 6] = [READ, WRITE, FORK, JOIN, HALT, SUM];

/// The kinds of access: those whose operand is a location.
pub const ACCESSES: [u8; 3] = [READ, WRITE, SUM];

/// The first number that stands for no kind.
pub const NO_KIND: u8 = KINDS.len() as u8;

pub fn is_access(kind: u8) -> bool {
    ACCESSES.contains(&kind)
}

/// Task numbers and locations go from 0 to 1,023.
pub const TASKS: usize = 1024;
pub const LOCATIONS: usize = 1024;
pub const MAX_EVENTS: usize = 32_768;
/// The workspace has at least this many cells more than the trace has events.
pub const WORKSPACE: usize = 12_288;

/// In the table of joins trees double along a chain, so from one of 1,024 tasks no more links lead to
/// its top.
pub const MAX_LINKS: usize = 10;

/// Two positions are close if they are no farther apart.
pub const CLOSE: usize = 256;

/// A trace can have no more close pairs: each event with the 256 before it, the first ones with as many
/// as there are.
pub const MAX_PAIRS: usize = CLOSE * MAX_EVENTS - CLOSE * (CLOSE + 1) / 2;

/// The first and last position on the card of a location that no event touches.
pub const NOWHERE: u16 = 65_535;

/// An event: task, kind and operand.
pub type Event = (u16, u8, u16);

/// Three slices; entry p of each makes event p. Their lengths may differ, which is refusal 1.
#[derive(Clone, Debug, Default, PartialEq)]
pub struct Trace {
    pub kinds: Vec<u8>,
    pub tasks: Vec<u16>,
    pub operands: Vec<u16>,
}

impl Trace {
    pub fn of(events: &[Event]) -> Self {
        let mut trace = Trace::default();
        for &(task, kind, operand) in events {
            trace.push(task, kind, operand);
        }
        trace
    }

    pub fn push(&mut self, task: u16, kind: u8, operand: u16) {
        self.insert(self.len(), (task, kind, operand));
    }

    pub fn insert(&mut self, p: usize, (task, kind, operand): Event) {
        self.kinds.insert(p, kind);
        self.tasks.insert(p, task);
        self.operands.insert(p, operand);
    }

    pub fn remove(&mut self, p: usize) {
        self.kinds.remove(p);
        self.tasks.remove(p);
        self.operands.remove(p);
    }

    pub fn truncate(&mut self, n: usize) {
        self.kinds.truncate(n);
        self.tasks.truncate(n);
        self.operands.truncate(n);
    }

    /// The same with 0 as the operand of every halt, as traces were stored before halts named a task.
    pub fn stored(&self) -> Self {
        let mut stored = self.clone();
        let halts = self.kinds.iter().zip(&mut stored.operands).filter(|(&kind, _)| kind == HALT);
        halts.for_each(|(_, operand)| *operand = 0);
        stored
    }

    pub fn event(&self, p: usize) -> Event {
        (self.tasks[p], self.kinds[p], self.operands[p])
    }

    /// The number of events, where the three lengths are the same.
    pub fn len(&self) -> usize {
        self.kinds.len()
    }

    pub fn is_empty(&self) -> bool {
        self.len() == 0
    }
}

/// The lengths, then one event a line in document 01's notation, `0 fork 1`.
impl fmt::Display for Trace {
    fn fmt(&self, f: &mut fmt::Formatter) -> fmt::Result {
        let lengths = [self.kinds.len(), self.tasks.len(), self.operands.len()];
        writeln!(f, "kinds {}, tasks {}, operands {}", lengths[0], lengths[1], lengths[2])?;
        for p in 0..lengths.into_iter().min().unwrap_or(0) {
            let (task, kind, operand) = self.event(p);
            let names = ["read", "write", "fork", "join", "halt", "sum"];
            match names.get(kind as usize) {
                Some(name) => writeln!(f, "{p}: {task} {name} {operand}")?,
                None => writeln!(f, "{p}: {task} kind-{kind} {operand}")?,
            }
        }
        Ok(())
    }
}

/// What the judge says of a whole trace.
#[derive(Clone, Copy, Debug, PartialEq, Eq)]
pub enum Answer {
    Clean,
    /// The positions s and t.
    Race(usize, usize),
    /// The number and the position.
    Refused(usize, usize),
}

/// What a clean trace does to a location.
#[derive(Clone, Copy, Debug, PartialEq, Eq)]
pub struct Card {
    pub reads: u16,
    pub writes: u16,
    pub sums: u16,
    /// The first and last position that touches it, or `NOWHERE` for both.
    pub first: u16,
    pub last: u16,
}

/// The card of a location that no event touches.
pub const UNTOUCHED: Card = Card { reads: 0, writes: 0, sums: 0, first: NOWHERE, last: NOWHERE };

/// What the ordering call says.
#[derive(Clone, Copy, Debug, PartialEq, Eq)]
pub enum Ordering {
    No,
    Yes,
    /// The number and the position.
    Refused(usize, usize),
}

/// What the call for pairs says.
#[derive(Clone, Copy, Debug, PartialEq, Eq)]
pub enum Listing {
    /// The number of close pairs.
    Pairs(usize),
    /// The number and the position.
    Refused(usize, usize),
}

/// What comes of the conversion of a stored trace.
#[derive(Clone, Copy, Debug, PartialEq, Eq)]
pub enum Conversion {
    Done,
    /// The number; the position is 0.
    Refused(usize),
}

/// What comes of a text or of a plan.
#[derive(Clone, Copy, Debug, PartialEq, Eq)]
pub enum Translation {
    /// The number of events.
    Events(usize),
    /// The number and the line, or the byte of a plan.
    Refused(usize, usize),
    /// A lent slice has too few cells for some texts. Never said of a plan.
    Short,
}
