//! How near a trace comes to the limits, so that a test can tell whether it has met them.

use crate::trace::*;

#[derive(Clone, Copy, Debug, Default, PartialEq, Eq)]
pub struct Extent {
    pub events: usize,
    pub tasks: usize,
}

pub const LIMITS: Extent = Extent { events: MAX_EVENTS, tasks: TASKS };

impl Extent {
    /// Of a trace that keeps the rules.
    pub fn of(trace: &Trace) -> Self {
        let forks = trace.kinds.iter().filter(|&&kind| kind == FORK).count();
        Extent { events: trace.len(), tasks: 1 + forks }
    }

    /// The greater of each.
    pub fn max(self, other: Extent) -> Self {
        Extent { events: self.events.max(other.events), tasks: self.tasks.max(other.tasks) }
    }
}
