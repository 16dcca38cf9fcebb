//! How much of a plan is drawn.

use crate::study::Clash;
use racejudge::{Leaf, Node, Operator, Plan, Tree, MAX_DEPTH};

/// A plan of up to so many leaves and lanes is drawn whole.
pub const MOST_LEAVES: usize = 64;
pub const MOST_LANES: usize = 24;

/// A larger one so deep where it is clean.
pub const LEVELS: usize = 4;

/// A tree as it is drawn.
pub enum Sketch<'a> {
    Leaf(&'a Leaf),
    Node(&'a Node, Box<[Sketch<'a>; 2]>),
    /// It is left out.
    Rest(&'a Tree),
}

impl<'a> Sketch<'a> {
    /// Of a large plan with a race what leads to its two leaves.
    pub fn of(plan: &'a Plan, clash: Option<&Clash>) -> Self {
        let pair: Vec<&Leaf> = clash.iter().flat_map(|clash| [clash.s, clash.t]).collect();
        let whole = Sketch::new(plan.tree(), MAX_DEPTH, &pair);
        if plan.leaves().count() <= MOST_LEAVES && whole.lanes() <= MOST_LANES {
            return whole;
        }
        let levels = if pair.is_empty() { LEVELS } else { 0 };
        Sketch::new(plan.tree(), levels, &pair)
    }

    fn new(tree: &'a Tree, levels: usize, pair: &[&Leaf]) -> Self {
        let events = tree.events();
        let is_wanted = levels > 0 || pair.iter().any(|leaf| events.contains(&leaf.event));
        match tree {
            Tree::Leaf(leaf) => Sketch::Leaf(leaf),
            Tree::Node(node) if is_wanted => {
                let operand = |tree| Sketch::new(tree, levels.saturating_sub(1), pair);
                Sketch::Node(node, Box::new([&node.left, &node.right].map(operand)))
            }
            Tree::Node(_) => Sketch::Rest(tree),
        }
    }

    /// How many tasks run side by side, at the most.
    pub fn lanes(&self) -> usize {
        match self {
            Sketch::Leaf(_) | Sketch::Rest(_) => 1,
            Sketch::Node(node, operands) => {
                let [left, right] = [&operands[0], &operands[1]].map(Sketch::lanes);
                match node.operator {
                    Operator::Series => left.max(right),
                    Operator::Parallel => left + right,
                }
            }
        }
    }

    /// How many leaves are left out.
    pub fn left_out(&self) -> usize {
        match self {
            Sketch::Leaf(_) => 0,
            Sketch::Node(_, operands) => operands.iter().map(Sketch::left_out).sum(),
            Sketch::Rest(tree) => leaves(tree),
        }
    }
}

pub fn leaves(tree: &Tree) -> usize {
    match tree {
        Tree::Leaf(_) => 1,
        Tree::Node(node) => leaves(&node.left) + leaves(&node.right),
    }
}
