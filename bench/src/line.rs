//! The line of tasks and its rules, kept literally as documents 01 and 02 have them: one list from
//! left to right, and a stack of the running task over its paused ancestors.

use crate::trace::*;

/// Row 12: whether a halt may have this operand where these tasks are active. The running one is the
/// last; below it stands the parent that it pauses, and so on.
pub type Halts = fn(&[u16], u16) -> bool;

/// A halt's operand names the task that resumes; for task 0's own halt it is 0.
pub fn names_resumed(active: &[u16], operand: u16) -> bool {
    match active {
        [.., parent, _] => operand == *parent,
        _ => operand == 0,
    }
}

/// Row 12 as it was before halts named a task.
pub fn names_nothing(_: &[u16], operand: u16) -> bool {
    operand == 0
}

pub struct Line {
    halts: Halts,
    /// The tasks in the line, from left to right.
    line: Vec<u16>,
    /// The active tasks: the running one is the last.
    active: Vec<u16>,
    used: [bool; TASKS],
}

impl Line {
    /// At the start the line holds task 0 alone, and it runs. Halts are held to this row 12.
    pub fn start(halts: Halts) -> Self {
        let mut used = [false; TASKS];
        used[0] = true;
        Line { halts, line: vec![0], active: vec![0], used }
    }

    /// Holds one event to the rules. `Err` is the number of the row that turns it back; nothing
    /// has changed then.
    pub fn step(&mut self, task: u16, kind: u8, operand: u16) -> Result<(), usize> {
        if kind >= NO_KIND {
            return Err(5);
        }
        let Some(&running) = self.active.last() else {
            return Err(6);
        };
        if task != running {
            return Err(7);
        }
        match kind {
            READ | WRITE | SUM => self.access(operand),
            FORK => self.fork(task, operand),
            JOIN => self.join(task, operand),
            _ => self.halt(operand),
        }
    }

    fn access(&self, location: u16) -> Result<(), usize> {
        if location as usize >= LOCATIONS {
            return Err(8);
        }
        Ok(())
    }

    /// A fork puts the child immediately left of its parent. The parent pauses, the child runs.
    fn fork(&mut self, parent: u16, child: u16) -> Result<(), usize> {
        if child as usize >= TASKS {
            return Err(9);
        }
        if self.used[child as usize] {
            return Err(10);
        }
        self.used[child as usize] = true;
        let at = self.place(parent);
        self.line.insert(at, child);
        self.active.push(child);
        Ok(())
    }

    /// The operand is the task immediately left of the actor. It leaves the line.
    fn join(&mut self, actor: u16, joined: u16) -> Result<(), usize> {
        let at = self.place(actor);
        if at == 0 || self.line[at - 1] != joined {
            return Err(11);
        }
        self.line.remove(at - 1);
        Ok(())
    }

    /// The task stops and stays in the line. Its paused parent runs again.
    fn halt(&mut self, operand: u16) -> Result<(), usize> {
        if !(self.halts)(&self.active, operand) {
            return Err(12);
        }
        self.active.pop();
        Ok(())
    }

    fn place(&self, task: u16) -> usize {
        let place = self.line.iter().position(|&t| t == task);
        place.expect("an actor stands in the line")
    }
}
