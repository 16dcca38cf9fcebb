//! The close pairs of a run: which accesses are of one, and which pairs are connected by brackets.

use crate::groups::Groups;
use crate::study::Scene;
use racejudge::{Pair, Pairs};

/// Of each group so many pairs are drawn, if there is room.
const OF_GROUP: usize = 3;

/// So many pairs are connected by brackets, and so many brackets stand beside each other.
const CONNECTED: usize = 24;
const LANES: usize = 12;

pub struct Listing<'a> {
    pub pairs: &'a Pairs,
    /// With the pairs that matter the most, the first of each.
    pub groups: Groups,
    /// For each event, whether it is of a pair.
    racing: Vec<bool>,
}

impl<'a> Listing<'a> {
    /// None where there is no pair.
    pub fn of(scene: &Scene, pairs: &'a Pairs) -> Option<Self> {
        let mut racing = vec![false; scene.trace.len()];
        for p in pairs.clone().flat_map(|Pair { s, t }| [s, t]) {
            racing.get_mut(p).into_iter().for_each(|racing| *racing = true);
        }
        let groups = Groups::of(scene, pairs.clone(), OF_GROUP);
        (pairs.len() > 0).then_some(Listing { pairs, groups, racing })
    }

    pub fn is_racing(&self, p: usize) -> bool {
        self.racing.get(p).is_some_and(|&racing| racing)
    }

    /// How many accesses are of a pair, of those that are drawn or of all.
    pub fn accesses(&self, drawn: impl Fn(usize) -> bool) -> usize {
        (0..self.racing.len()).filter(|&p| self.is_racing(p) && drawn(p)).count()
    }

    /// The pairs that are to be drawn, the most important first: one of each group, then another.
    pub fn chosen(&self) -> impl Iterator<Item = Pair> + '_ {
        let groups = &self.groups.list;
        (0..OF_GROUP)
            .flat_map(move |i| groups.iter().filter_map(move |it| it.pairs.get(i).copied()))
    }

    /// The pairs that are connected, each in a lane where it meets no other, as far as there are lanes; the
    /// short ones in the inner lanes.
    pub fn brackets(&self, drawn: impl Fn(usize) -> bool) -> Vec<Bracket> {
        let mut pairs = self.connected(drawn);
        pairs.sort_by_key(|pair| pair.t - pair.s);
        let mut lanes: Vec<Vec<Pair>> = vec![Vec::new(); LANES];
        let mut brackets = Vec::new();
        for pair in pairs {
            let is_free = |lane: &Vec<Pair>| lane.iter().all(|it| pair.t < it.s || it.t < pair.s);
            if let Some(lane) = lanes.iter().position(is_free) {
                lanes[lane].push(pair);
                brackets.push(Bracket { pair, lane });
            }
        }
        brackets
    }

    /// Of the pairs whose two accesses are both drawn all, or where they are many some of each group.
    fn connected(&self, drawn: impl Fn(usize) -> bool) -> Vec<Pair> {
        let is_drawn = |pair: &Pair| drawn(pair.s) && drawn(pair.t);
        if self.pairs.len() <= CONNECTED {
            return self.pairs.clone().filter(is_drawn).collect();
        }
        self.chosen().filter(is_drawn).take(CONNECTED).collect()
    }
}

/// Connects the two accesses of a pair.
pub struct Bracket {
    pub pair: Pair,
    /// The lane that it stands in, from the innermost.
    pub lane: usize,
}
