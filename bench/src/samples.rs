//! Random traces for the test: some keep the rules, some are damaged, some are noise.

use crate::builder::Builder;
use crate::rng::Rng;
use crate::trace::*;

/// What a trace is drawn from: a weight for each kind, and the bounds.
struct Mix {
    forks: usize,
    halts: usize,
    joins: usize,
    accesses: usize,
    locations: usize,
    /// In 100 accesses, those that change what the location holds.
    changes: usize,
    /// In 100 of these, the sums; the others are writes.
    sums: usize,
    /// In 100 accesses that would race, those that are left out.
    care: usize,
    /// Task numbers that are not used.
    reserve: usize,
    /// So many forks come first, one in the other: then few halts resume task 0.
    nest: usize,
}

impl Mix {
    fn drawn(rng: &mut Rng, numbers: usize, care: usize) -> Self {
        let tasks = rng.one_of(&[1, 3, 10, 100, 1_023]);
        Mix {
            locations: rng.one_of(&[1, 2, 8, 64, 1_024]),
            forks: 1 + rng.below(20),
            halts: 1 + rng.below(20),
            joins: rng.one_of(&[0, 4, 20]),
            accesses: rng.one_of(&[6, 20, 100]),
            changes: rng.below(101),
            sums: rng.one_of(&[0, 0, 50, 50, 90]),
            care,
            reserve: numbers - tasks,
            nest: rng.one_of(&[0, 0, 1, 3, 9]).min(tasks),
        }
    }

    /// One event more, or none where the one that is drawn cannot be or is left out.
    fn step(&self, b: &mut Builder, rng: &mut Rng) {
        let Mix { forks, halts, joins, accesses, .. } = *self;
        let pick = rng.below(forks + halts + joins + accesses);
        if pick < forks {
            if b.numbers_left() > self.reserve {
                b.fork();
            }
        } else if pick < forks + halts {
            if b.depth() > 1 {
                b.halt();
            }
        } else if pick < forks + halts + joins {
            if b.halted() > 0 {
                b.join();
            }
        } else {
            let (kind, l) = (self.access(rng), rng.cell(self.locations));
            if !(rng.chance(self.care, 100) && b.would_race(kind, l)) {
                b.access(kind, l);
            }
        }
    }

    fn access(&self, rng: &mut Rng) -> u8 {
        match (rng.chance(self.changes, 100), rng.chance(self.sums, 100)) {
            (false, _) => READ,
            (true, false) => WRITE,
            (true, true) => SUM,
        }
    }
}

/// A trace of about n events that keeps the rules, with its own mix of kinds, few or many tasks and
/// locations. Some have no sums, some as many as writes, some nearly no writes. `care` in 100 accesses
/// that would race are left out.
pub fn valid(rng: &mut Rng, n: usize, care: usize) -> Trace {
    let mut b = Builder::shuffled(rng);
    let mix = Mix::drawn(rng, b.numbers_left(), care);
    (0..mix.nest.min(n / 2)).for_each(|_| b.fork());
    for _ in 0..2 * n {
        if b.trace.len() >= n {
            break;
        }
        mix.step(&mut b, rng);
    }
    if rng.chance(1, 8) {
        b.halt_down_to(0);
    }
    b.trace
}

/// Events drawn at random from few kinds, tasks and operands: most break a rule soon.
pub fn noise(rng: &mut Rng, n: usize) -> Trace {
    let mut trace = Trace::default();
    for _ in 0..n {
        let task = if rng.chance(3, 4) { 0 } else { rng.cell(3) };
        trace.push(task, any_kind(rng), rng.cell(3));
    }
    trace
}

/// Each kind is as likely, and so is the first number that stands for none.
fn any_kind(rng: &mut Rng) -> u8 {
    rng.cell(usize::from(NO_KIND) + 1) as u8
}

/// Changes a trace in one place, in one of many ways. Mostly one of rows 5 to 12 then holds.
pub fn damage(rng: &mut Rng, trace: &Trace) -> Trace {
    let mut t = trace.clone();
    if t.is_empty() {
        return noise(rng, 1);
    }
    let p = rng.below(t.len());
    let (task, ..) = t.event(p);
    match rng.below(12) {
        0 => t.kinds[p] = NO_KIND + rng.cell(256 - usize::from(NO_KIND)) as u8,
        1 => t.tasks[p] = rng.cell(65_536),
        2 => t.tasks[p] = t.tasks[rng.below(t.len())],
        3 => t.operands[p] = 1_024 + rng.cell(64_512),
        4 => t.operands[p] = t.operands[rng.below(t.len())],
        5 => t.kinds[p] = rng.cell(usize::from(NO_KIND)) as u8,
        6 => t.remove(p),
        7 => t.insert(p, t.event(p)),
        8 => t.insert(p, (task, any_kind(rng), rng.cell(1_030))),
        9 => misname(rng, &mut t, p),
        10 => change_join(rng, &mut t, p),
        _ => follow_the_end(rng, &mut t, p),
    }
    t
}

/// The first event from p on that has this kind, if there is one.
fn next_of_kind(t: &Trace, p: usize, kind: u8) -> Option<usize> {
    (p..t.len()).find(|&at| t.kinds[at] == kind)
}

/// Gives the first join from p on another operand.
fn change_join(rng: &mut Rng, t: &mut Trace, p: usize) {
    if let Some(at) = next_of_kind(t, p, JOIN) {
        t.operands[at] = rng.cell(1_030);
    }
}

/// Gives the first halt from p on another operand: near the one it has, or one that is easily taken
/// for the task that resumes.
pub fn misname(rng: &mut Rng, t: &mut Trace, p: usize) {
    let Some(at) = next_of_kind(t, p, HALT) else {
        return;
    };
    let (active, operand) = (active_before(t, at), t.operands[at]);
    t.operands[at] = match rng.below(9) {
        // The bottom of the stack, too.
        0 => 0,
        1 => t.tasks[at],
        2 | 3 => active.get(rng.below(active.len())).map_or(1, |&task| task),
        4 => operand.wrapping_add(1),
        5 => operand.wrapping_sub(1),
        6 => operand.wrapping_add(TASKS as u16),
        7 => rng.cell(65_536),
        _ => u16::MAX,
    };
}

/// The running task and its ancestors before event p, task 0 first.
pub fn active_before(t: &Trace, p: usize) -> Vec<u16> {
    let mut active = vec![0];
    for i in 0..p {
        match t.kinds[i] {
            FORK => active.push(t.operands[i]),
            HALT => _ = active.pop(),
            _ => {}
        }
    }
    active
}

/// From event p on every task halts, then something follows.
fn follow_the_end(rng: &mut Rng, t: &mut Trace, p: usize) {
    t.truncate(p);
    let mut active = active_before(t, p);
    while let Some(task) = active.pop() {
        t.push(task, HALT, active.last().copied().unwrap_or(0));
    }
    t.push(rng.cell(2), any_kind(rng), rng.cell(2));
}
