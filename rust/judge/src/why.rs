//! Why nothing orders the two accesses of a race.

use crate::graph::Graph;

/// Why nothing orders the two accesses of a race.
pub struct Why {
    /// The last event that comes before both: a fork.
    pub parted: usize,
    /// One path from there to s: it begins with the child that was forked.
    pub to_s: Vec<usize>,
    /// One path from there to t: it begins with the parent's next event.
    pub to_t: Vec<usize>,
    /// The tasks that the task of t would have had to join right before t, one after the other: its
    /// left neighbours, the nearest first. Of the last of them s reaches the halt.
    pub unjoined: Vec<u16>,
    /// The event after t that joins the last of them.
    pub joined_later: Option<usize>,
}

impl Why {
    /// For an event s of the graph and a later one t that it does not reach; `None` for others. A
    /// later join is found as far as the graph goes.
    pub fn new(graph: &Graph, s: usize, t: usize) -> Option<Why> {
        let (to_s, to_t) = (graph.reaching(s), graph.reaching(t));
        to_t.get(s).filter(|reached| !**reached)?;
        let parted = to_s.iter().zip(&to_t).rposition(|(s, t)| *s && *t)?;
        let after_s = graph.reached(s);
        let mut unjoined = graph.left_before(t);
        unjoined.retain(|&task| graph.joined_at(task) != Some(t));
        let ends_after_s = |&task: &u16| graph.halted_at(task).is_some_and(|halt| after_s[halt]);
        let last = unjoined.iter().rposition(ends_after_s)?;
        unjoined.drain(..last);
        unjoined.reverse();
        let joined_later = unjoined.last().and_then(|&task| graph.joined_at(task));
        Some(Why {
            parted,
            to_s: graph.path(parted, s),
            to_t: graph.path(parted, t),
            unjoined,
            joined_later,
        })
    }
}
