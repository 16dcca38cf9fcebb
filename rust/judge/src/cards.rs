//! The cards of a clean trace: how busy each location was.

use crate::study::{Scene, Study};
use racejudge::Card;
use std::cmp::Reverse;

/// A count of a card, under the name of its column and its field.
type Count = (&'static str, fn(&Card) -> u16);

pub const COUNTS: &[Count] =
    &[("reads", |card| card.reads), ("writes", |card| card.writes), ("sums", |card| card.sums)];

/// A location that was touched.
pub struct Touched {
    pub location: usize,
    pub card: Card,
    /// The first and the last event that touched it.
    pub first: usize,
    pub last: usize,
}

impl Touched {
    /// None where no event touches the location.
    fn of((location, card): (usize, Card)) -> Option<Touched> {
        let (first, last) = card.span()?;
        Some(Touched { location, card, first, last })
    }
}

/// The locations that a clean trace touches.
pub struct Cards<'a> {
    pub scene: &'a Scene<'a>,
    pub touched: Vec<Touched>,
}

impl<'a> Cards<'a> {
    /// In the order of the locations, or the busiest first. None where the trace is not clean.
    pub fn of(study: &'a Study<'a>, busiest: bool) -> Option<Self> {
        let scene = study.scene.as_ref()?;
        let cards = racejudge::cards(scene.trace).ok()??;
        let mut touched: Vec<_> = cards.into_iter().enumerate().filter_map(Touched::of).collect();
        if busiest {
            // Those that are as busy as others stay in the order of their locations.
            touched.sort_by_key(|it| Reverse(it.card.accesses()));
        }
        Some(Cards { scene, touched })
    }
}
