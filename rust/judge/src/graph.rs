//! The task graph and the line of tasks, made from document 01's sentences on them. Nothing here is
//! proved, and no answer rests on it: it finds the words for what the proved judge has said.

use racejudge::{Event, Kind, Trace, LOCATIONS, TASKS};

/// The positions of a task's fork, its halt, the join that names it and its last event so far.
#[derive(Clone, Copy, Default)]
struct Life {
    forked: Option<usize>,
    halted: Option<usize>,
    joined: Option<usize>,
    last: Option<usize>,
}

/// The task graph of the first `events` events of a trace, which keep the line rules: made from
/// document 01's three sentences on arcs.
pub struct Graph {
    starts: Vec<[Option<usize>; 2]>,
    lives: Vec<Life>,
    columns: Vec<u16>,
}

/// The graph so far, and the line as two stacks that meet at the running task, the last of `active`:
/// on its left the halted tasks that are not joined, the nearest last; beneath it its paused
/// ancestors.
struct Walk {
    starts: Vec<[Option<usize>; 2]>,
    lives: Vec<Life>,
    left: Vec<u16>,
    active: Vec<u16>,
    /// All that have halted, joined or not.
    halted: Vec<u16>,
}

impl Walk {
    /// Task 0 runs alone.
    fn start() -> Self {
        Walk {
            starts: Vec::new(),
            lives: vec![Life::default(); TASKS],
            left: Vec::new(),
            active: vec![0],
            halted: Vec::new(),
        }
    }

    /// Takes the next event in; `None` where it breaks a rule, and then nothing has changed.
    fn step(&mut self, event: Event) -> Option<()> {
        let Event { task, operand, .. } = event;
        let kind = event.kind().filter(|_| self.active.last() == Some(&task))?;
        let p = self.starts.len();
        let Life { last, forked, .. } = *self.life(task)?;
        let mut starts = [last.or(forked), None];
        match kind {
            Kind::Read | Kind::Write | Kind::Sum => {
                (usize::from(operand) < LOCATIONS).then_some(())?;
            }
            Kind::Fork => self.fork(p, operand)?,
            Kind::Join => starts[1] = self.join(p, operand)?,
            Kind::Halt => self.halt(p, task, operand)?,
        }
        self.starts.push(starts);
        self.life(task)?.last = Some(p);
        Some(())
    }

    fn life(&mut self, task: u16) -> Option<&mut Life> {
        self.lives.get_mut(usize::from(task))
    }

    fn fork(&mut self, p: usize, child: u16) -> Option<()> {
        let life = self.life(child).filter(|life| child != 0 && life.forked.is_none())?;
        life.forked = Some(p);
        self.active.push(child);
        Some(())
    }

    /// Gives the halt of the joined task.
    fn join(&mut self, p: usize, joined: u16) -> Option<Option<usize>> {
        self.left.last().filter(|nearest| **nearest == joined)?;
        self.left.pop();
        let life = self.life(joined)?;
        life.joined = Some(p);
        Some(life.halted)
    }

    /// The task beneath resumes, and is named; beneath task 0 there is none, and 0 is named.
    fn halt(&mut self, p: usize, task: u16, named: u16) -> Option<()> {
        let resumes = self.active.iter().rev().nth(1).copied().unwrap_or(0);
        self.life(task).filter(|_| named == resumes)?.halted = Some(p);
        self.active.pop();
        self.left.push(task);
        self.halted.push(task);
        Some(())
    }
}

impl Graph {
    /// The first event that breaks a rule ends the graph before it.
    pub fn new(trace: &Trace, events: usize) -> Graph {
        let mut walk = Walk::start();
        let mut kept = (0..events).map_while(|p| trace.event(p));
        while kept.next().and_then(|event| walk.step(event)).is_some() {}
        // Tasks halt in the line's order from left to right; right of them stands what has not.
        let mut columns = walk.halted;
        columns.extend(walk.active.iter().rev());
        Graph { starts: walk.starts, lives: walk.lives, columns }
    }

    /// The number of its events.
    pub fn len(&self) -> usize {
        self.starts.len()
    }

    pub fn is_empty(&self) -> bool {
        self.starts.is_empty()
    }

    /// The starts of the arcs into p: the same task's event before it, or the fork that made the
    /// task; and for a join the halt of the joined task.
    pub fn starts(&self, p: usize) -> [Option<usize>; 2] {
        self.starts.get(p).copied().unwrap_or_default()
    }

    /// Which events reach q, q itself too, for the positions 0 to q; empty if there is no event q.
    pub fn reaching(&self, q: usize) -> Vec<bool> {
        if q >= self.len() {
            return Vec::new();
        }
        let mut reaching = vec![false; q + 1];
        reaching[q] = true;
        for p in (0..=q).rev() {
            if reaching[p] {
                self.starts(p).into_iter().flatten().for_each(|start| reaching[start] = true);
            }
        }
        reaching
    }

    /// One path from p to q, both included; empty if there is none. Of two starts it takes the same
    /// task's, so that it joins only where it must.
    pub fn path(&self, p: usize, q: usize) -> Vec<usize> {
        if q >= self.len() || p > q {
            return Vec::new();
        }
        let reached = self.reached(p);
        let start_of = |&at: &usize| {
            let mut starts = self.starts(at).into_iter().flatten();
            starts.find(|&start| at != p && reached[start])
        };
        let mut path: Vec<usize> = std::iter::successors(Some(q), start_of).collect();
        if path.last() != Some(&p) {
            return Vec::new();
        }
        path.reverse();
        path
    }

    /// Which events p reaches, p itself too, for all positions.
    pub fn reached(&self, p: usize) -> Vec<bool> {
        let mut reached = vec![false; self.len()];
        for q in p..self.len() {
            reached[q] = q == p || self.starts(q).into_iter().flatten().any(|start| reached[start]);
        }
        reached
    }

    /// Every task that appears, in the line's order from left to right: a fork puts the child
    /// immediately left of its parent. Tasks that were joined have kept their place.
    pub fn columns(&self) -> &[u16] {
        &self.columns
    }

    /// The fork that made the task.
    pub fn forked_at(&self, task: u16) -> Option<usize> {
        self.life(task).forked
    }

    pub fn halted_at(&self, task: u16) -> Option<usize> {
        self.life(task).halted
    }

    /// The join that took the task out of the line.
    pub fn joined_at(&self, task: u16) -> Option<usize> {
        self.life(task).joined
    }

    fn life(&self, task: u16) -> Life {
        self.lives.get(task as usize).copied().unwrap_or_default()
    }

    /// Before event p, the halted tasks that are not joined, from left to right: the last is the
    /// left neighbour of the running task.
    pub fn left_before(&self, p: usize) -> Vec<u16> {
        let halted = |task: u16| self.life(task).halted.is_some_and(|at| at < p);
        let joined = |task: u16| self.life(task).joined.is_some_and(|at| at < p);
        self.columns.iter().copied().filter(|&task| halted(task) && !joined(task)).collect()
    }

    /// Before event p, task 0 and so on to the running task, each the parent of the next: the last
    /// runs. Empty after task 0 has halted.
    pub fn active_before(&self, p: usize) -> Vec<u16> {
        let there = |task: u16| task == 0 || self.life(task).forked.is_some_and(|at| at < p);
        let halted = |task: u16| self.life(task).halted.is_some_and(|at| at < p);
        self.columns.iter().rev().copied().filter(|&task| there(task) && !halted(task)).collect()
    }

    /// Before event p, the parent of the running task, which resumes when that halts; task 0 has
    /// none.
    pub fn parent_before(&self, p: usize) -> Option<u16> {
        self.active_before(p).into_iter().rev().nth(1)
    }
}
