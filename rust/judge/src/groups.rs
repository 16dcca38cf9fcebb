//! The close pairs of a trace in groups, by the places that they come from: many pairs are often of few.

use crate::phrases::count;
use crate::study::Scene;
use racejudge::{Kind, Pair, Pairs, CLOSE};
use std::collections::{BTreeMap, BTreeSet};

/// What the pairs of a group have in common beside their location, the lower of two first.
#[derive(Clone, Copy, PartialEq, Eq, PartialOrd, Ord)]
pub enum Ends {
    /// Of a text, the source lines of the two accesses.
    Sources([u16; 2]),
    /// Of a file with no source lines, what the two do: the numbers of their kinds.
    Kinds([u8; 2]),
}

impl Ends {
    fn of(scene: &Scene, Pair { s, t }: Pair) -> Ends {
        match (scene.place(s), scene.place(t)) {
            (Some(s), Some(t)) => Ends::Sources(sorted(s.source, t.source)),
            _ => {
                let kind = |p| scene.trace.event(p).map_or(0, |event| event.kind);
                Ends::Kinds(sorted(kind(s), kind(t)))
            }
        }
    }

    pub fn sources(&self) -> Option<[u16; 2]> {
        match *self {
            Ends::Sources(sources) => Some(sources),
            Ends::Kinds(_) => None,
        }
    }

    pub fn kinds(&self) -> Option<[Kind; 2]> {
        match *self {
            Ends::Sources(_) => None,
            Ends::Kinds([one, other]) => Some([one.try_into().ok()?, other.try_into().ok()?]),
        }
    }
}

fn sorted<T: Ord>(one: T, other: T) -> [T; 2] {
    if one <= other {
        [one, other]
    } else {
        [other, one]
    }
}

pub struct Group {
    pub location: u16,
    pub ends: Ends,
    /// How many pairs it has.
    pub count: usize,
    /// The first of them.
    pub pairs: Vec<Pair>,
    /// Whose accesses they are, in the order of the numbers.
    pub tasks: Vec<u16>,
}

impl Group {
    fn take(&mut self, scene: &Scene, pair: Pair, most: usize) {
        self.count += 1;
        if self.pairs.len() < most {
            self.pairs.push(pair);
        }
        for task in [pair.s, pair.t].map(|p| scene.task(p)) {
            if let Err(at) = self.tasks.binary_search(&task) {
                self.tasks.insert(at, task);
            }
        }
    }
}

pub struct Groups {
    /// In the order of the locations, and of one location in that of its places.
    pub list: Vec<Group>,
    /// Whether the pairs are of a text: the binary form has no source lines.
    is_text: bool,
}

impl Groups {
    /// All pairs are counted, and so many of each group are kept.
    pub fn of(scene: &Scene, pairs: Pairs, most: usize) -> Groups {
        let mut groups = BTreeMap::new();
        for pair in pairs {
            let location = scene.trace.event(pair.t).map_or(0, |event| event.operand);
            let ends = Ends::of(scene, pair);
            let new = || Group { location, ends, count: 0, pairs: vec![], tasks: vec![] };
            groups.entry((location, ends)).or_insert_with(new).take(scene, pair, most);
        }
        let is_text = scene.recording.text.is_some();
        Groups { list: groups.into_values().collect(), is_text }
    }

    /// How many pairs there are.
    pub fn pairs(&self) -> usize {
        self.list.iter().map(|group| group.count).sum()
    }

    pub fn locations(&self) -> usize {
        self.list.chunk_by(|one, other| one.location == other.location).count()
    }

    /// How many source lines they come from, 0 where there is no pair; none in the binary form.
    pub fn sources(&self) -> Option<usize> {
        let sources = self.list.iter().filter_map(|group| group.ends.sources()).flatten();
        let sources: BTreeSet<u16> = sources.collect();
        self.is_text.then_some(sources.len())
    }

    pub fn tasks(&self) -> usize {
        let tasks: BTreeSet<u16> =
            self.list.iter().flat_map(|group| group.tasks.iter().copied()).collect();
        tasks.len()
    }

    /// How many pairs there are, how far apart they are at most, and what they come down to.
    pub fn summary(&self) -> String {
        let locations = count(self.locations(), "location");
        let places = match self.sources() {
            Some(sources) => count(sources, "source line"),
            None => count(self.tasks(), "task"),
        };
        let to = format!("down to {locations} and {places}.");
        match self.pairs() {
            1 => format!(
                "1 pair of accesses at most {CLOSE} events apart races: either can come first. It \
                 comes {to}"
            ),
            pairs => format!(
                "{} of accesses at most {CLOSE} events apart race: in each of them either can come \
                 first. They come {to}",
                count(pairs, "pair")
            ),
        }
    }
}
