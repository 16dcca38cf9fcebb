//! The slow table of joins, written from the owner's sentences: each task starts as a tree of one. A
//! join hangs the top of the smaller tree, by number of tasks, under the top of the larger; at equal
//! size the joiner's top stays on top. No link changes otherwise. Tasks and links are counted by
//! walking up from each task, every time anew.

use crate::trace::*;

pub struct Table {
    /// For each task the one that it hangs under; none for the top of a tree.
    pub above: Vec<Option<usize>>,
}

impl Table {
    fn start() -> Self {
        Table { above: vec![None; TASKS] }
    }

    /// The links from a task to the top of its tree.
    pub fn links(&self, task: usize) -> usize {
        self.above[task].map_or(0, |above| 1 + self.links(above))
    }

    pub fn top(&self, task: usize) -> usize {
        self.above[task].map_or(task, |above| self.top(above))
    }

    /// The tasks of the tree that has this top.
    pub fn tree(&self, top: usize) -> impl Iterator<Item = usize> + '_ {
        (0..TASKS).filter(move |&task| self.top(task) == top)
    }

    pub fn join(&mut self, joiner: usize, joined: usize) {
        let (mine, other) = (self.top(joiner), self.top(joined));
        if self.tree(mine).count() < self.tree(other).count() {
            self.above[mine] = Some(other);
        } else {
            self.above[other] = Some(mine);
        }
    }
}

/// What the judge reports beside its answer: with clean or race the largest number of links that any
/// task has after the last event looked at; with a refusal, 0.
pub fn links(trace: &Trace, answer: Answer) -> usize {
    links_by(Table::join, trace, answer)
}

/// The same where this is what a join does to the table.
pub fn links_by(join: impl Fn(&mut Table, usize, usize), trace: &Trace, answer: Answer) -> usize {
    let looked_at = match answer {
        Answer::Clean => trace.len(),
        Answer::Race(_, t) => t + 1,
        Answer::Refused(..) => return 0,
    };
    let mut table = Table::start();
    for p in (0..looked_at).filter(|&p| trace.kinds[p] == JOIN) {
        join(&mut table, trace.tasks[p].into(), trace.operands[p].into());
    }
    (0..TASKS).map(|task| table.links(task)).max().unwrap_or(0)
}
