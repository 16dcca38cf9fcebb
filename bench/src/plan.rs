//! Plans in series and parallel, from the owner's sentences alone: the tree, its text, the events that
//! it makes, which leaf reaches which, and the first race by that.

use crate::ancestors::conflict;
use crate::trace::*;
use std::fmt;
use std::rc::Rc;

/// A plan may nest up to so deep.
pub const MAX_DEPTH: usize = 64;

/// The letters of the leaves, with the kinds that they stand for.
pub const LETTERS: [(char, u8); 3] = [('r', READ), ('w', WRITE), ('s', SUM)];

#[derive(Clone, Copy, Debug, PartialEq)]
pub enum Operator {
    S,
    P,
}

#[derive(Clone, Debug, PartialEq)]
pub enum Plan {
    /// A kind of access and a location.
    Leaf(u8, u16),
    /// An operator and its two operands.
    Of(Operator, Rc<[Plan; 2]>),
}

/// The text.
impl fmt::Display for Plan {
    fn fmt(&self, f: &mut fmt::Formatter) -> fmt::Result {
        match self {
            Plan::Leaf(kind, location) => {
                let letter = LETTERS.iter().find(|(_, other)| other == kind);
                write!(f, "{}{location}", letter.expect("a leaf is an access").0)
            }
            Plan::Of(operator, operands) => {
                write!(f, "{operator:?}({},{})", operands[0], operands[1])
            }
        }
    }
}

/// A leaf, and where it stands.
pub struct Leaf {
    pub kind: u8,
    pub location: u16,
    /// From the outermost on, each operator around it and in which of its operands it is, 0 or 1.
    path: Vec<(Operator, usize)>,
}

impl Plan {
    pub fn of(operator: Operator, first: Plan, second: Plan) -> Self {
        Plan::Of(operator, Rc::new([first, second]))
    }

    /// A lone leaf has depth 0.
    pub fn depth(&self) -> usize {
        match self {
            Plan::Leaf(..) => 0,
            Plan::Of(_, operands) => 1 + operands[0].depth().max(operands[1].depth()),
        }
    }

    /// How many P's it has: each forks a task.
    pub fn forks(&self) -> usize {
        match self {
            Plan::Leaf(..) => 0,
            Plan::Of(operator, operands) => {
                let here = usize::from(*operator == Operator::P);
                here + operands[0].forks() + operands[1].forks()
            }
        }
    }

    /// How many events it makes: a leaf is one, a P a fork, a halt and a join.
    pub fn events(&self) -> usize {
        match self {
            Plan::Leaf(..) => 1,
            Plan::Of(operator, operands) => {
                let here = if *operator == Operator::P { 3 } else { 0 };
                here + operands[0].events() + operands[1].events()
            }
        }
    }

    /// "P forks a task for G1, goes on with G2, then joins. Tasks are numbered 1, 2, 3 in fork order."
    /// The halt names the task that goes on.
    pub fn trace(&self) -> Trace {
        Trace::of(&self.run(0, 1))
    }

    /// Its events where this task runs it and `next` is the number of the next task.
    fn run(&self, task: u16, next: u16) -> Vec<Event> {
        let after = |forks: usize| next + forks as u16;
        match self {
            Plan::Leaf(kind, location) => vec![(task, *kind, *location)],
            Plan::Of(Operator::S, operands) => {
                let [g1, g2] = &**operands;
                [g1.run(task, next), g2.run(task, after(g1.forks()))].concat()
            }
            Plan::Of(Operator::P, operands) => {
                let [g1, g2] = &**operands;
                [
                    vec![(task, FORK, next)],
                    g1.run(next, after(1)),
                    vec![(next, HALT, task)],
                    g2.run(task, after(1 + g1.forks())),
                    vec![(task, JOIN, next)],
                ]
                .concat()
            }
        }
    }

    /// Its leaves in the order of the text.
    pub fn leaves(&self) -> Vec<Leaf> {
        match self {
            &Plan::Leaf(kind, location) => vec![Leaf { kind, location, path: Vec::new() }],
            Plan::Of(operator, operands) => {
                let mut leaves = Vec::new();
                for (side, operand) in operands.iter().enumerate() {
                    let inner = leaves.len();
                    leaves.append(&mut operand.leaves());
                    for leaf in &mut leaves[inner..] {
                        leaf.path.insert(0, (*operator, side));
                    }
                }
                leaves
            }
        }
    }
}

impl Leaf {
    /// The operator where the two meet, and in which of its operands the first is; none where they are
    /// one leaf.
    pub fn meets(&self, second: &Leaf) -> Option<(Operator, usize)> {
        let mut parted = self.path.iter().zip(&second.path).filter(|(one, other)| one != other);
        parted.next().map(|(&one, _)| one)
    }

    /// "Of two leaves, the first reaches the second exactly if the operator where they meet is S and
    /// the first is in its left operand." A leaf reaches itself.
    pub fn reaches(&self, second: &Leaf) -> bool {
        self.meets(second).is_none_or(|meet| meet == (Operator::S, 0))
    }

    /// Whether they touch one location in kinds that conflict.
    pub fn conflicts_with(&self, second: &Leaf) -> bool {
        self.location == second.location && conflict(self.kind, second.kind)
    }

    pub fn races_with(&self, second: &Leaf) -> bool {
        self.conflicts_with(second) && !self.reaches(second) && !second.reaches(self)
    }
}

/// The first of these leaves that races with an earlier one, by their places: the earliest that it
/// races with, and itself. The rule says whether two race, the earlier first.
pub fn first_race(leaves: &[Leaf], races: impl Fn(&Leaf, &Leaf) -> bool) -> Option<(usize, usize)> {
    (0..leaves.len()).find_map(|t| {
        let s = (0..t).find(|&s| races(&leaves[s], &leaves[t]))?;
        Some((s, t))
    })
}
