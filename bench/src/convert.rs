//! The slow conversion of stored traces, written from the owner's sentences alone: the operand of
//! each halt before the first event that breaks a rule, row 12 read as it was, becomes the task that
//! resumes; nothing else changes. Its only refusals are 1 to 3. The rules of the line are asked here
//! once more, by two stacks.

use crate::ancestors::size_row;
use crate::line::Halts;
use crate::trace::*;

/// Everything that the conversion leaves behind.
#[derive(Debug)]
pub struct Converted {
    pub said: Conversion,
    pub operands: Vec<u16>,
    /// Cells of the workspace, from the first, that are 0 afterwards; the rest is unchanged.
    pub cleared: usize,
}

/// How traces are brought over.
pub struct Way {
    /// Row 12.
    pub halts: Halts,
    /// A row that is not asked.
    pub unasked: Option<usize>,
    /// The kinds of event whose operand is set.
    pub sets: &'static [u8],
    /// What it is set to where these tasks are active, the running one last.
    pub named: fn(&[u16]) -> u16,
    /// Whether the event that breaks a rule is set too, and whether those behind it are looked at.
    pub breaking: bool,
    pub behind: bool,
}

/// The owner's.
pub const WAY: Way = Way {
    halts: |_, operand| operand == 0,
    unasked: None,
    sets: &[HALT],
    named: resumed,
    breaking: false,
    behind: false,
};

/// The task that resumes where the last of these halts; 0 where task 0 itself does.
pub fn resumed(active: &[u16]) -> u16 {
    active.iter().rev().nth(1).copied().unwrap_or(0)
}

/// The tasks of a run so far.
struct Run {
    /// The running task is the last; below it stands the parent that it pauses, and so on.
    active: Vec<u16>,
    /// Those that have halted and are not joined. They stand left of the running one, next to it the
    /// last to have halted.
    halted: Vec<u16>,
    used: Vec<u16>,
}

impl Run {
    fn breaks(&self, way: &Way, (task, kind, operand): Event) -> bool {
        let number = usize::from(operand);
        let rows = [
            (5, kind >= NO_KIND),
            (6, self.active.is_empty()),
            (7, self.active.last().is_some_and(|&running| task != running)),
            (8, is_access(kind) && number >= LOCATIONS),
            (9, kind == FORK && number >= TASKS),
            (10, kind == FORK && self.used.contains(&operand)),
            (11, kind == JOIN && self.halted.last() != Some(&operand)),
            (12, kind == HALT && !(way.halts)(&self.active, operand)),
        ];
        rows.into_iter().any(|(row, broken)| broken && way.unasked != Some(row))
    }

    fn go_on(&mut self, (task, kind, operand): Event) {
        match kind {
            FORK => {
                self.active.push(operand);
                self.used.push(operand);
            }
            JOIN => _ = self.halted.pop(),
            HALT => {
                self.active.pop();
                self.halted.push(task);
            }
            _ => {}
        }
    }
}

/// The operands after the conversion of a trace whose slices have one length.
pub fn operands(trace: &Trace) -> Vec<u16> {
    operands_by(&WAY, trace)
}

/// The same where traces are brought over in this way.
pub fn operands_by(way: &Way, trace: &Trace) -> Vec<u16> {
    let mut operands = trace.operands.clone();
    let mut run = Run { active: vec![0], halted: Vec::new(), used: vec![0] };
    for (p, operand) in operands.iter_mut().enumerate() {
        let event = trace.event(p);
        let breaks = run.breaks(way, event);
        if way.sets.contains(&trace.kinds[p]) && (!breaks || way.breaking) {
            *operand = (way.named)(&run.active);
        }
        if !breaks {
            run.go_on(event);
        } else if !way.behind {
            break;
        }
    }
    operands
}

/// The whole outcome of the conversion with a workspace of this length.
pub fn convert(trace: &Trace, workspace: usize) -> Converted {
    if let Some(row) = size_row(trace, workspace) {
        let said = Conversion::Refused(row);
        return Converted { said, operands: trace.operands.clone(), cleared: 0 };
    }
    let cleared = WORKSPACE + trace.len();
    Converted { said: Conversion::Done, operands: operands(trace), cleared }
}
