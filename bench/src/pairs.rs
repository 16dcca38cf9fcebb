//! The slow list of close pairs, written from the owner's sentences: for a trace that keeps the line
//! rules, all racing pairs s, t with t - s at most 256, in order of t and then of s, each pair once. A
//! refusal writes none; row 20, either slice is shorter than the list, comes after every other check.
//! Each of the 256 events before t is looked at, by the ancestors of t.

use crate::ancestors::{size_row, Ancestors};
use crate::trace::*;

/// The positions s and t.
pub type Pair = (u16, u16);

/// The pairs of a trace; or why it is refused, whatever is lent: the number and the position.
pub type Found = Result<Vec<Pair>, (usize, usize)>;

/// Everything that the call for pairs leaves behind.
#[derive(Debug)]
pub struct Listed {
    pub said: Listing,
    /// What the two slices begin with; the rest of them is unchanged.
    pub earlier: Vec<u16>,
    pub later: Vec<u16>,
    /// Cells of the workspace, from the first, that are 0 afterwards; the rest is unchanged.
    pub cleared: usize,
}

/// Which pairs are listed.
pub struct Way {
    /// What t - s is at most.
    pub close: usize,
    /// Whether s and t race, where the ancestors of all events are stored.
    pub race: fn(&Ancestors, &Trace, usize, usize) -> bool,
}

/// The owner's.
pub const WAY: Way = Way { close: CLOSE, race: races };

/// They conflict, and neither is an ancestor of the other: arcs lead to later events alone.
fn races(stored: &Ancestors, trace: &Trace, s: usize, t: usize) -> bool {
    stored.conflict(trace, s, t) && !stored.reaches(s, t)
}

pub fn pairs(slow: &mut Ancestors, trace: &Trace) -> Found {
    pairs_by(&WAY, slow, trace)
}

/// The same where these pairs are listed.
pub fn pairs_by(way: &Way, slow: &mut Ancestors, trace: &Trace) -> Found {
    if let Some(row) = size_row(trace, usize::MAX) {
        return Err((row, 0));
    }
    slow.store_all(trace)?;
    let mut pairs = Vec::new();
    for t in 0..trace.len() {
        let close = t.saturating_sub(way.close)..t;
        let racing = close.filter(|&s| (way.race)(slow, trace, s, t));
        pairs.extend(racing.map(|s| (s as u16, t as u16)));
    }
    Ok(pairs)
}

/// The whole outcome of the call for these pairs, with a workspace and two slices of these lengths.
pub fn listed(trace: &Trace, found: &Found, [workspace, earlier, later]: [usize; 3]) -> Listed {
    let refused = |row: usize, position: usize, cleared: usize| {
        let said = Listing::Refused(row, position);
        Listed { said, earlier: Vec::new(), later: Vec::new(), cleared }
    };
    if let Some(row) = size_row(trace, workspace) {
        return refused(row, 0, 0);
    }
    let cleared = WORKSPACE + trace.len();
    match found {
        Err((row, position)) => refused(*row, *position, cleared),
        Ok(pairs) if earlier < pairs.len() || later < pairs.len() => refused(20, 0, cleared),
        Ok(pairs) => {
            let (earlier, later) = pairs.iter().copied().unzip();
            Listed { said: Listing::Pairs(pairs.len()), earlier, later, cleared }
        }
    }
}
