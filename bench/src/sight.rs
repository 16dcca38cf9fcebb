//! What a read sees and what a location holds, written from the owner's sentences: the last write, and
//! the set of sums after that write.

use crate::trace::*;
use std::collections::{BTreeMap, BTreeSet};

#[derive(Clone, Debug, Default, PartialEq)]
pub struct Content {
    /// The last write; none where there was none.
    pub write: Option<usize>,
    /// The sums after it.
    pub sums: BTreeSet<usize>,
}

/// Events of a trace that have run in some order.
#[derive(Debug, Default, PartialEq)]
pub struct Run {
    holds: BTreeMap<u16, Content>,
    sees: BTreeMap<usize, Content>,
}

impl Run {
    pub fn of(trace: &Trace, order: impl IntoIterator<Item = usize>) -> Self {
        let mut run = Run::default();
        order.into_iter().for_each(|p| run.step(trace, p));
        run
    }

    fn step(&mut self, trace: &Trace, p: usize) {
        let (_, kind, operand) = trace.event(p);
        if !is_access(kind) {
            return;
        }
        let content = self.holds.entry(operand).or_default();
        match kind {
            READ => _ = self.sees.insert(p, content.clone()),
            WRITE => *content = Content { write: Some(p), ..Content::default() },
            _ => _ = content.sums.insert(p),
        }
    }

    /// What the location holds after all of them.
    pub fn holds(&self, location: u16) -> Content {
        self.holds.get(&location).cloned().unwrap_or_default()
    }

    /// What a read has seen that is among them.
    pub fn sees(&self, read: usize) -> Option<&Content> {
        self.sees.get(&read)
    }
}
