//! The questions about a trace, with buffers of their own.

use crate::raw::{self, WORKSPACE};
use crate::{Card, Refusal, Trace, LOCATIONS, MAX_EVENTS};

/// What the judge says of a trace that keeps the rules up to the first race.
#[derive(Clone, Debug, PartialEq, Eq)]
#[must_use = "a race is told by the verdict, and not by an error"]
pub enum Verdict {
    /// The rules are kept, and every two accesses that conflict are joined by a path: whatever
    /// order the cores take, each read sees the same last write and the same sums after it, and so
    /// each location ends.
    Clean {
        /// The most links from a task to its top, after the last event: [`Verdict::links`].
        links: usize,
    },
    /// Two accesses of one location, neither both reads nor both sums, with no path between them.
    Race {
        /// The smallest position that `t` races with.
        s: usize,
        /// The first access that races with an earlier one.
        t: usize,
        /// The most links from a task to its top, after `t`: [`Verdict::links`].
        links: usize,
        /// An order of the events 0 to `t` that the cores may take, in which `s` comes immediately
        /// before `t`.
        first: Vec<u16>,
        /// The same order with `t` immediately before `s`.
        second: Vec<u16>,
    },
}

impl Verdict {
    /// How long the chains of the table of joins are, after the last event that was looked at: the
    /// most links that lead from a task to the top of its tree.
    ///
    /// ```
    /// use racejudge::{judge, Event, Trace};
    ///
    /// let mut trace = Trace::default();
    /// trace.extend([Event::fork(0, 1), Event::fork(1, 2), Event::halt(2, 1)]);
    /// assert_eq!(judge(&trace)?.links(), 0);
    ///
    /// // Task 2 comes to hang under task 1, task 3 under task 0.
    /// trace.extend([Event::join(1, 2), Event::halt(1, 0)]);
    /// trace.extend([Event::fork(0, 3), Event::halt(3, 0), Event::join(0, 3)]);
    /// assert_eq!(judge(&trace)?.links(), 1);
    ///
    /// // The two trees are of equal size: task 0, the joiner, stays on top, over task 1 and task 2.
    /// trace.push(Event::join(0, 1));
    /// assert_eq!(judge(&trace)?.links(), 2);
    /// # Ok::<(), racejudge::Refusal>(())
    /// ```
    #[must_use]
    pub fn links(&self) -> usize {
        match *self {
            Verdict::Clean { links } | Verdict::Race { links, .. } => links,
        }
    }
}

/// Judges the whole trace: whether two of its accesses race.
///
/// ```
/// use racejudge::{judge, Event, Trace, Verdict};
///
/// let mut trace = Trace::default();
/// trace.extend([Event::fork(0, 1), Event::read(1, 5), Event::halt(1, 0), Event::read(0, 5)]);
/// assert_eq!(judge(&trace), Ok(Verdict::Clean { links: 0 }));
///
/// trace.push(Event::write(0, 5));
/// assert!(matches!(judge(&trace), Ok(Verdict::Race { s: 1, t: 4, .. })));
/// ```
///
/// Tasks may add to a counter in any order. Who reads it must have joined them:
///
/// ```
/// use racejudge::{judge, Event, Trace, Verdict};
///
/// let mut trace = Trace::default();
/// trace.extend([Event::fork(0, 1), Event::sum(1, 5), Event::halt(1, 0), Event::sum(0, 5)]);
/// assert_eq!(judge(&trace), Ok(Verdict::Clean { links: 0 }));
///
/// trace.push(Event::read(0, 5));
/// assert!(matches!(judge(&trace), Ok(Verdict::Race { s: 1, t: 4, .. })));
/// ```
///
/// # Errors
///
/// A refusal by row 1 or 2 or, where no access before it races, by one of the rows 5 to 12.
pub fn judge(trace: &Trace) -> Result<Verdict, Refusal> {
    let (mut workspace, mut first, mut second) = judge_buffers(trace);
    let told = raw::judge(
        trace.kinds(),
        trace.tasks(),
        trace.operands(),
        &mut workspace,
        &mut first,
        &mut second,
    );
    let [s, t, links] = told.values.map(|value| value as usize);
    match told.code {
        raw::CLEAN => Ok(Verdict::Clean { links }),
        raw::RACE => {
            first.truncate(t + 1);
            second.truncate(t + 1);
            Ok(Verdict::Race { s, t, links, first, second })
        }
        _ => Err(Refusal::told(told)),
    }
}

/// What a clean trace does to each location: the [`LOCATIONS`] cards, that of location l at l. None
/// where the trace has a race, which [`judge`] names.
///
/// ```
/// use racejudge::{cards, Card, Event, Trace};
///
/// let mut trace = Trace::default();
/// trace.extend([Event::fork(0, 1), Event::read(1, 5), Event::halt(1, 0), Event::read(0, 5)]);
/// let told = cards(&trace)?.expect("no race");
/// assert_eq!(told[5], Card { reads: 2, writes: 0, sums: 0, first: 1, last: 3 });
/// assert_eq!(told[6], Card::UNTOUCHED);
///
/// trace.push(Event::write(0, 5));
/// assert_eq!(cards(&trace)?, None);
/// # Ok::<(), racejudge::Refusal>(())
/// ```
///
/// # Errors
///
/// A refusal, exactly where [`judge`] gives it.
pub fn cards(trace: &Trace) -> Result<Option<Vec<Card>>, Refusal> {
    let (mut workspace, mut first, mut second) = judge_buffers(trace);
    let mut cards = vec![Card::UNTOUCHED; LOCATIONS];
    let told = raw::judge_cards(
        trace.kinds(),
        trace.tasks(),
        trace.operands(),
        &mut workspace,
        &mut first,
        &mut second,
        &mut cards,
    );
    match told.code {
        raw::CLEAN => Ok(Some(cards)),
        raw::RACE => Ok(None),
        _ => Err(Refusal::told(told)),
    }
}

/// Whether event `p` reaches event `q`: they are the same, or a path leads from `p` to `q`, from
/// each event to the same task's next one, from a fork to its child's first event, and from a halt
/// to the join that names its task. Races do not matter.
///
/// ```
/// use racejudge::{reaches, Event, Trace};
///
/// let events = [Event::fork(0, 1), Event::halt(1, 0), Event::write(0, 5), Event::join(0, 1)];
/// let trace: Trace = events.into_iter().collect();
/// assert_eq!(reaches(&trace, 1, 2), Ok(false));
/// assert_eq!(reaches(&trace, 1, 3), Ok(true));
/// assert_eq!(reaches(&trace, 3, 1), Ok(false));
/// ```
///
/// # Errors
///
/// A refusal by one of the rows 1, 2 and 5 to 12; by row 13 where the trace keeps the rules, but
/// `p` or `q` is not below the number of its events.
pub fn reaches(trace: &Trace, p: usize, q: usize) -> Result<bool, Refusal> {
    let mut workspace = workspace(trace);
    let told = raw::ordering(trace.kinds(), trace.tasks(), trace.operands(), &mut workspace, p, q);
    match told.code {
        raw::NO => Ok(false),
        raw::YES => Ok(true),
        _ => Err(Refusal::told(told)),
    }
}

/// The workspace and the two order buffers.
fn judge_buffers(trace: &Trace) -> (Vec<u16>, Vec<u16>, Vec<u16>) {
    let n = judged_events(trace);
    (workspace(trace), vec![0; n], vec![0; n])
}

pub(crate) fn workspace(trace: &Trace) -> Vec<u16> {
    vec![0; WORKSPACE + judged_events(trace)]
}

/// For how many events buffers are needed: a longer trace is refused before their lengths count.
fn judged_events(trace: &Trace) -> usize {
    trace.len().min(MAX_EVENTS)
}
