//! Plans that are drawn: those of the benchmark, in their shapes, and what all are drawn from.

use crate::plan::{Operator, Plan, MAX_DEPTH};
use crate::rng::Rng;
use crate::trace::*;
use crate::workloads::children;
use std::ops::Range;

/// Of so many leaves, two or more, how many the first operand gets.
pub type Split = fn(&mut Rng, usize) -> usize;

pub fn halves(_: &mut Rng, leaves: usize) -> usize {
    leaves / 2
}

pub fn first_alone(_: &mut Rng, _: usize) -> usize {
    1
}

pub fn last_alone(_: &mut Rng, leaves: usize) -> usize {
    leaves - 1
}

/// A sixth: a plan of 32,768 leaves then nests to the right, 55 deep.
pub fn less_first(_: &mut Rng, leaves: usize) -> usize {
    leaves / 6
}

pub fn less_last(_: &mut Rng, leaves: usize) -> usize {
    leaves - leaves / 6
}

pub fn anywhere(rng: &mut Rng, leaves: usize) -> usize {
    1 + rng.below(leaves - 1)
}

/// All of these.
pub const SPLITS: [Split; 6] = [halves, first_alone, last_alone, less_first, less_last, anywhere];

/// What a plan is drawn from.
pub struct Mix {
    pub leaves: usize,
    /// How many of the operators are P's: any, as likely.
    pub forks: usize,
    /// Followed as far as a plan may nest.
    pub split: Split,
    pub kinds: &'static [u8],
    pub locations: Range<u16>,
    /// In 100 leaves, those whose location is none of a leaf in the other operand of a P, as long as
    /// there is one for each.
    pub care: usize,
}

impl Mix {
    /// With up to so many leaves, and few or many P's, kinds and locations.
    pub fn any(rng: &mut Rng, most: usize) -> Self {
        const KINDS: [&[u8]; 5] =
            [&ACCESSES, &[READ, WRITE], &[READ, SUM], &[READ, READ, READ, WRITE, SUM], &[SUM]];
        let leaves = 1 + rng.below(most);
        Mix {
            leaves,
            forks: rng.one_of(&[0, leaves / 8, leaves / 2, leaves - 1]),
            split: SPLITS[rng.below(SPLITS.len())],
            kinds: KINDS[rng.below(KINDS.len())],
            locations: 0..rng.one_of(&[1, 3, 16, LOCATIONS]) as u16,
            care: rng.one_of(&[0, 95, 100]),
        }
    }

    pub fn draw(&self, rng: &mut Rng) -> Plan {
        let Mix { leaves, forks, ref locations, .. } = *self;
        let mut drawing = Drawing { mix: self, rng, operators: leaves - 1, forks };
        drawing.plan(leaves, MAX_DEPTH, locations.clone())
    }
}

/// A plan on the way: the operators that are still to come, and how many of them are P's.
struct Drawing<'a> {
    mix: &'a Mix,
    rng: &'a mut Rng,
    operators: usize,
    forks: usize,
}

impl Drawing<'_> {
    /// So many leaves within so many levels, those with care with these locations.
    fn plan(&mut self, leaves: usize, levels: usize, own: Range<u16>) -> Plan {
        if leaves == 1 {
            return self.leaf(own);
        }
        // An operand has as many leaves as its levels can hold, and one at least.
        let most = 1 << (levels - 1).min(32);
        let first = (self.mix.split)(self.rng, leaves);
        let first = first.clamp(leaves.saturating_sub(most).max(1), most.min(leaves - 1));
        let operator = self.operator();
        let [left, right] = match operator {
            Operator::P if own.len() > 1 => {
                let middle = own.start + own.len() as u16 / 2;
                [own.start..middle, middle..own.end]
            }
            _ => [own.clone(), own],
        };
        let g1 = self.plan(first, levels - 1, left);
        let g2 = self.plan(leaves - first, levels - 1, right);
        Plan::of(operator, g1, g2)
    }

    fn operator(&mut self) -> Operator {
        let forks = self.rng.chance(self.forks, self.operators);
        self.operators -= 1;
        if forks {
            self.forks -= 1;
            return Operator::P;
        }
        Operator::S
    }

    fn leaf(&mut self, own: Range<u16>) -> Plan {
        let care = self.rng.chance(self.mix.care, 100);
        let Range { start, end } = if care { own } else { self.mix.locations.clone() };
        let kind = self.mix.kinds[self.rng.below(self.mix.kinds.len())];
        Plan::Leaf(kind, start + self.rng.cell((end - start).into()))
    }
}

/// Plans that are measured.
#[derive(Clone)]
pub struct Shape {
    pub name: &'static str,
    split: Split,
    parallel: bool,
    locations: Range<u16>,
}

const ALL: Range<u16> = 0..LOCATIONS as u16;

pub const HALVED: Shape = Shape { name: "halved", split: halves, parallel: true, locations: ALL };
pub const RANDOM: Shape =
    Shape { name: "at random", split: anywhere, parallel: true, locations: ALL };

/// Those of the table, in its order.
pub const SHAPES: [Shape; 7] = [
    Shape { name: "halved, S alone", parallel: false, ..HALVED },
    HALVED,
    Shape { name: "nested to the right", split: less_first, ..HALVED },
    Shape { name: "nested to the left", split: less_last, ..HALVED },
    RANDOM,
    Shape { name: "at random, locations of one digit", locations: 0..10, ..RANDOM },
    Shape { name: "at random, locations of four digits", locations: 1_000..1_024, ..RANDOM },
];

impl Shape {
    /// A plan that makes n events, with about one task for every 32 of them: 1,024 for 32,768.
    pub fn plan(&self, n: usize, rng: &mut Rng) -> Plan {
        let forks = if self.parallel { children(n) } else { 0 };
        let (split, locations) = (self.split, self.locations.clone());
        let leaves = n - 3 * forks;
        Mix { leaves, forks, split, kinds: &ACCESSES, locations, care: 0 }.draw(rng)
    }
}
