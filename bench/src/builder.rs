//! Writes traces that keep the line rules, and knows, in a plain way of its own, whether an access
//! would race.

use crate::rng::Rng;
use crate::trace::*;

pub struct Builder {
    pub trace: Trace,
    active: Vec<u16>,
    left: Vec<u16>,
    /// For each task the task of the line that it was joined into, directly or by way of others.
    holder: Vec<u16>,
    /// Numbers not used yet; the last is the next.
    numbers: Vec<u16>,
    /// For each location the tasks that have read it, written it or added to it.
    readers: Vec<Vec<u16>>,
    writers: Vec<Vec<u16>>,
    adders: Vec<Vec<u16>>,
}

/// Task 0 runs alone. Tasks will be numbered in the order in which they are forked.
impl Default for Builder {
    fn default() -> Self {
        Builder {
            trace: Trace::default(),
            active: vec![0],
            left: Vec::new(),
            holder: (0..TASKS as u16).collect(),
            numbers: (1..TASKS as u16).rev().collect(),
            readers: vec![Vec::new(); LOCATIONS],
            writers: vec![Vec::new(); LOCATIONS],
            adders: vec![Vec::new(); LOCATIONS],
        }
    }
}

impl Builder {
    /// Tasks will be numbered in any order.
    pub fn shuffled(rng: &mut Rng) -> Self {
        let mut builder = Builder::default();
        rng.shuffle(&mut builder.numbers);
        builder
    }

    pub fn numbers_left(&self) -> usize {
        self.numbers.len()
    }

    /// The running task and its paused ancestors, in number.
    pub fn depth(&self) -> usize {
        self.active.len()
    }

    /// The halted tasks that are not joined, in number.
    pub fn halted(&self) -> usize {
        self.left.len()
    }

    fn running(&self) -> u16 {
        *self.active.last().expect("task 0 has not halted")
    }

    pub fn fork(&mut self) {
        let child = self.numbers.pop().expect("a number is left");
        self.trace.push(self.running(), FORK, child);
        self.active.push(child);
    }

    pub fn halt(&mut self) {
        let task = self.active.pop().expect("task 0 has not halted");
        let resumed = self.active.last().copied().unwrap_or(0);
        self.trace.push(task, HALT, resumed);
        self.left.push(task);
    }

    pub fn join(&mut self) {
        let joined = self.left.pop().expect("a halted task stands to the left");
        let joiner = self.running();
        self.trace.push(joiner, JOIN, joined);
        for holder in self.holder.iter_mut().filter(|holder| **holder == joined) {
            *holder = joiner;
        }
    }

    /// Tasks halt until so many are left, the running one and its ancestors.
    pub fn halt_down_to(&mut self, depth: usize) {
        while self.depth() > depth {
            self.halt();
        }
    }

    /// The running task joins all that have halted.
    pub fn join_all(&mut self) {
        while self.halted() > 0 {
            self.join();
        }
    }

    /// Whether an access by the running task would race with an earlier one.
    pub fn would_race(&self, kind: u8, location: u16) -> bool {
        let unordered = |tasks: &Vec<u16>| {
            tasks.iter().any(|&task| self.left.contains(&self.holder[task as usize]))
        };
        let l = location as usize;
        unordered(&self.writers[l])
            || kind != READ && unordered(&self.readers[l])
            || kind != SUM && unordered(&self.adders[l])
    }

    pub fn access(&mut self, kind: u8, location: u16) {
        let task = self.running();
        self.trace.push(task, kind, location);
        let lists = match kind {
            READ => &mut self.readers,
            SUM => &mut self.adders,
            _ => &mut self.writers,
        };
        let list = &mut lists[location as usize];
        if !list.contains(&task) {
            list.push(task);
        }
    }

    pub fn read(&mut self, location: u16) {
        self.access(READ, location);
    }

    pub fn write(&mut self, location: u16) {
        self.access(WRITE, location);
    }

    pub fn sum(&mut self, location: u16) {
        self.access(SUM, location);
    }

    /// A read or a write, as likely.
    pub fn touch(&mut self, rng: &mut Rng, location: u16) {
        self.access([READ, WRITE][rng.below(2)], location);
    }
}
