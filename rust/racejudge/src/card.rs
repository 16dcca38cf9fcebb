//! A location's card.

use crate::raw::NOWHERE;

/// What a trace does to one location. [`cards`](crate::cards) has those of a clean trace.
///
/// ```
/// use racejudge::Card;
///
/// let card = Card { reads: 2, writes: 1, sums: 3, first: 4, last: 9 };
/// assert_eq!(card.accesses(), 6);
/// assert_eq!(card.span(), Some((4, 9)));
/// assert_eq!(Card::UNTOUCHED.span(), None);
/// ```
#[derive(Clone, Copy, Debug, PartialEq, Eq, Hash)]
#[repr(C)]
pub struct Card {
    /// How many reads the location has.
    pub reads: u16,
    /// How many writes it has.
    pub writes: u16,
    /// How many sums it has.
    pub sums: u16,
    /// The position of the first of them all; [`NOWHERE`] where there is none.
    pub first: u16,
    /// The position of the last of them all; [`NOWHERE`] where there is none.
    pub last: u16,
}

impl Card {
    /// The card of a location that no event touches.
    pub const UNTOUCHED: Card =
        Card { reads: 0, writes: 0, sums: 0, first: NOWHERE, last: NOWHERE };

    /// How often the location is touched.
    #[must_use]
    pub fn accesses(&self) -> usize {
        [self.reads, self.writes, self.sums].map(usize::from).iter().sum()
    }

    /// The first and the last position that touch the location, if any does.
    #[must_use]
    pub fn span(&self) -> Option<(usize, usize)> {
        (self.first != NOWHERE).then(|| (self.first.into(), self.last.into()))
    }
}
