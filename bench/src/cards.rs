//! The slow cards, written from the owner's sentences: for each location, the number of reads, the
//! number of writes, the count of sums, and the first and last position that touched it, 65,535 for
//! both where none did. The whole trace is gone through for each location.

use crate::trace::*;

/// The card of each location, in a trace that keeps the rules.
pub fn cards(trace: &Trace) -> Vec<Card> {
    (0..LOCATIONS as u16).map(|location| card(trace, location)).collect()
}

fn card(trace: &Trace, location: u16) -> Card {
    let touches = |&p: &usize| trace.operands[p] == location && is_access(trace.kinds[p]);
    let touched: Vec<usize> = (0..trace.len()).filter(touches).collect();
    let count = |kind: u8| touched.iter().filter(|&&p| trace.kinds[p] == kind).count() as u16;
    let position = |p: Option<&usize>| p.map_or(NOWHERE, |&p| p as u16);
    Card {
        reads: count(READ),
        writes: count(WRITE),
        sums: count(SUM),
        first: position(touched.first()),
        last: position(touched.last()),
    }
}
