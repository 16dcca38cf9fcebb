//! Every close pair of accesses that race.

use crate::raw;
use crate::verdict::workspace;
use crate::{Refusal, Trace, CLOSE, MAX_EVENTS};
use std::fmt;
use std::iter::FusedIterator;
use std::vec::IntoIter;

/// Two accesses that race.
#[derive(Clone, Copy, Debug, PartialEq, Eq, Hash)]
pub struct Pair {
    /// The position of the earlier one.
    pub s: usize,
    /// That of the later one.
    pub t: usize,
}

/// The close pairs of a trace, in order of `t` and then of `s`. [`pairs`] gives them. How many are
/// left, `len` has.
///
/// No more memory is held than they take, 4 bytes for each.
#[derive(Clone)]
#[must_use = "the pairs that race are in it"]
pub struct Pairs {
    earlier: IntoIter<u16>,
    later: IntoIter<u16>,
}

/// Lists every close pair: all accesses `s` and `t` that race, with `s` before `t` and `t - s` at most
/// [`CLOSE`], in order of `t` and then of `s`, each pair once.
///
/// [`judge`](crate::judge) names the first race alone, and the first one hides the next; here the
/// others count too. Where there is no close pair, two accesses that are farther apart may still race:
/// whether any do, `judge` says.
///
/// ```
/// use racejudge::{pairs, Event, Pair, Trace};
///
/// // Two children write location 5 and are not joined. Task 0 reads it.
/// let mut trace = Trace::default();
/// for child in [1, 2] {
///     trace.extend([Event::fork(0, child), Event::write(child, 5), Event::halt(child, 0)]);
/// }
/// trace.push(Event::read(0, 5));
/// let told = pairs(&trace)?;
/// assert_eq!(told.len(), 3);
/// assert!(told.eq([Pair { s: 1, t: 4 }, Pair { s: 1, t: 6 }, Pair { s: 4, t: 6 }]));
/// # Ok::<(), racejudge::Refusal>(())
/// ```
///
/// # Errors
///
/// A refusal by one of the rows 1, 2 and 5 to 12: the whole trace must keep the rules. It may break off.
pub fn pairs(trace: &Trace) -> Result<Pairs, Refusal> {
    let cells = max_pairs(trace.len());
    // Of room that is zero from the start the system provides what is written, and no more.
    let (mut earlier, mut later) = (vec![0; cells], vec![0; cells]);
    let told = raw::pairs(
        trace.kinds(),
        trace.tasks(),
        trace.operands(),
        &mut workspace(trace),
        &mut earlier,
        &mut later,
    );
    if told.code != raw::LISTED {
        return Err(Refusal::told(told));
    }
    let [earlier, later] = [earlier, later].map(|cells| first(cells, told.values[0] as usize));
    Ok(Pairs { earlier, later })
}

/// The first `number` of the cells. The room of the others is given back.
fn first(mut cells: Vec<u16>, number: usize) -> IntoIter<u16> {
    cells.truncate(number);
    cells.shrink_to_fit();
    cells.into_iter()
}

/// A trace of so many events has no more close pairs than this: 8,355,712 at the most, for
/// [`MAX_EVENTS`] and also beyond them, where a trace is refused.
///
/// ```
/// use racejudge::{max_pairs, MAX_EVENTS};
///
/// assert_eq!([0, 1, 2, 3, 256, 257].map(max_pairs), [0, 0, 1, 3, 32_640, 32_896]);
/// assert_eq!(max_pairs(MAX_EVENTS), 8_355_712);
/// ```
#[must_use]
pub const fn max_pairs(events: usize) -> usize {
    let events = if events < MAX_EVENTS { events } else { MAX_EVENTS };
    // Among the first events each has all before it close by; each of the others has CLOSE.
    let first = if events < CLOSE { events } else { CLOSE };
    first * first.saturating_sub(1) / 2 + (events - first) * CLOSE
}

fn pair((s, t): (u16, u16)) -> Pair {
    Pair { s: s.into(), t: t.into() }
}

impl Iterator for Pairs {
    type Item = Pair;

    fn next(&mut self) -> Option<Pair> {
        self.earlier.next().zip(self.later.next()).map(pair)
    }

    fn size_hint(&self) -> (usize, Option<usize>) {
        self.later.size_hint()
    }
}

impl DoubleEndedIterator for Pairs {
    fn next_back(&mut self) -> Option<Pair> {
        self.earlier.next_back().zip(self.later.next_back()).map(pair)
    }
}

impl ExactSizeIterator for Pairs {}

impl FusedIterator for Pairs {}

/// Those that are left.
impl fmt::Debug for Pairs {
    fn fmt(&self, f: &mut fmt::Formatter<'_>) -> fmt::Result {
        let (earlier, later) = (self.earlier.as_slice().iter(), self.later.as_slice().iter());
        f.debug_list().entries(earlier.copied().zip(later.copied()).map(pair)).finish()
    }
}
