//! A plan beside the rows of its events: a strip for each operator, the outer ones left of the inner
//! ones, and the leaves in their rows.

use super::layout::{Row, LABEL};
use super::story::Tone;
use super::text::bold_width;
use crate::study::Planned;
use racejudge::{Leaf, Node, Operator, Tree};
use std::ops::Range;

/// From one strip to the next inner one.
pub const STRIP: i32 = 18;
/// From the innermost strip to its leaf.
pub const LEAF_GAP: i32 = 5;

/// So many strips stand within each other, and one more where two leaves meet that race.
const LEVELS: usize = 11;

/// An S or P. An S within an S is part of its strip: the order is the same.
pub struct Strip {
    pub operator: Operator,
    /// Its byte in the plan's text.
    pub position: usize,
    pub events: Range<usize>,
    /// How many strips stand left of it.
    pub level: usize,
    /// The first and the last row of what is drawn of it: of a P for each operand.
    pub pieces: Vec<Piece>,
}

pub struct Piece {
    pub rows: [usize; 2],
    /// That of the way to the leaf in it, where it is an operand of the P where two leaves meet.
    pub tone: Option<Tone>,
}

/// A leaf that is drawn.
pub struct Label {
    pub leaf: Leaf,
    pub row: usize,
    pub level: usize,
}

pub struct Strips {
    pub strips: Vec<Strip>,
    pub labels: Vec<Label>,
    /// There are operators deeper than those that are drawn.
    pub is_cut: bool,
}

impl Strips {
    /// None where there is no plan.
    pub fn new(planned: &Planned, rows: &[Row]) -> Option<Strips> {
        let drawn = rows.iter().enumerate().filter_map(|(row, it)| match *it {
            Row::Event(p) => Some((p, row)),
            _ => None,
        });
        let meet = planned.clash.as_ref().map(|clash| clash.meet.position);
        let strips = Strips { strips: Vec::new(), labels: Vec::new(), is_cut: false };
        let mut picker = Picker { drawn: drawn.collect(), meet, strips };
        picker.pick(planned.schedule.plan.as_ref().ok()?.tree(), 0, None);
        Some(picker.strips)
    }

    pub fn width(&self) -> i32 {
        let left = |level: usize| STRIP * level as i32;
        let strips = self.strips.iter().map(|strip| left(strip.level) + STRIP);
        let labels = self.labels.iter().map(|Label { leaf, level, .. }| {
            left(*level) + LEAF_GAP + bold_width(&leaf.to_string(), LABEL)
        });
        strips.chain(labels).max().unwrap_or(0)
    }
}

struct Picker {
    /// The events that are drawn, and their rows.
    drawn: Vec<(usize, usize)>,
    /// The byte of the P where two leaves meet that race.
    meet: Option<usize>,
    strips: Strips,
}

impl Picker {
    /// Takes what is drawn of a tree that stands right of so many strips, in an operand of this
    /// operator.
    fn pick(&mut self, tree: &Tree, level: usize, within: Option<Operator>) {
        let Some([row, _]) = self.rows(tree.events()) else { return };
        match tree {
            Tree::Leaf(leaf) => self.strips.labels.push(Label { leaf: *leaf, row, level }),
            Tree::Node(node) => {
                let is_own = [within, Some(node.operator)] != [Some(Operator::Series); 2];
                let has_room = level < LEVELS || self.meet == Some(node.position);
                self.strips.is_cut |= is_own && !has_room;
                let is_drawn = is_own && has_room;
                if is_drawn {
                    let strip = self.strip(node, tree.events(), level);
                    self.strips.strips.push(strip);
                }
                for operand in [&node.left, &node.right] {
                    self.pick(operand, level + usize::from(is_drawn), Some(node.operator));
                }
            }
        }
    }

    fn strip(&self, node: &Node, events: Range<usize>, level: usize) -> Strip {
        let Node { operator, position, .. } = *node;
        // Behind the left operand of a P its task halts.
        let halted = (node.left.events().end + 1).min(events.end);
        let parts = match operator {
            Operator::Series => vec![(events.clone(), None)],
            Operator::Parallel => {
                let is_meet = self.meet == Some(position);
                let tone = |tone: Tone| is_meet.then_some(tone);
                vec![(events.start..halted, tone(Tone::ToS)), (halted..events.end, tone(Tone::ToT))]
            }
        };
        let piece = |(events, tone)| Some(Piece { rows: self.rows(events)?, tone });
        Strip {
            operator,
            position,
            events,
            level,
            pieces: parts.into_iter().filter_map(piece).collect(),
        }
    }

    /// The first and the last row of those of these events that are drawn.
    fn rows(&self, events: Range<usize>) -> Option<[usize; 2]> {
        let below = |bound: usize| self.drawn.partition_point(|(p, _)| *p < bound);
        match self.drawn.get(below(events.start)..below(events.end))? {
            [] => None,
            [(_, row)] => Some([*row; 2]),
            [(_, first), .., (_, last)] => Some([*first, *last]),
        }
    }
}
