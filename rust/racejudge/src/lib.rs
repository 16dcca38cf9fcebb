//! A proved judge of data races in fork-join traces.
//!
//! A [`Trace`] is what one serial run of a fork-join program did, event by event. [`judge`] says
//! whether two of its accesses could happen in either order; [`pairs`] which all do, as far as they
//! stand close to each other; [`cards`] what a clean trace does to each location; [`reaches`] whether a
//! path of forks and joins leads from one event to another. A [`Plan`] is a schedule in series and
//! parallel, which has a trace before any program runs.
//! [`Trace::convert`] brings over what was stored before halts named the task that resumes.
//! The answers come from a library whose every answer is proved: *clean* means that there is no
//! race, and not that none was seen.
//!
//! # A worked example
//!
//! Task 0 forks task 1, which writes location 5. Task 0 reads that location and has not joined
//! task 1, so nothing orders the two:
//!
//! ```
//! use racejudge::{cards, judge, reaches, Card, Trace, Verdict};
//!
//! let trace = Trace::from_text("T0|fork(T1)|10\nT1|w(V5)|20\nT0|r(V5)|30\n")?;
//!
//! // Halts have no lines: that of task 1 was put in where task 0 acts again. It names task 0.
//! let events: Vec<String> = trace.events().map(|event| event.to_string()).collect();
//! assert_eq!(events, ["0 fork 1", "1 write 5", "1 halt 0", "0 read 5"]);
//!
//! // Events 1 and 3 race. Two orders of the events differ only in which of them comes first.
//! let Verdict::Race { s, t, first, second, .. } = judge(&trace)? else { panic!("a race") };
//! assert_eq!((s, t), (1, 3));
//! assert_eq!((first, second), (vec![0, 1, 3, 2], vec![0, 3, 1, 2]));
//! assert!(!reaches(&trace, s, t)?);
//!
//! // Where they stand in the source that was traced.
//! let sources = [s, t].map(|p| trace.place(p).map(|place| place.source));
//! assert_eq!(sources, [Some(20), Some(30)]);
//!
//! // With task 1 joined before the read there is a path, and no race. In the table of joins task 1
//! // hangs under task 0, by one link.
//! let joined = Trace::from_text("T0|fork(T1)|10\nT1|w(V5)|20\nT0|join(T1)|25\nT0|r(V5)|30\n")?;
//! assert_eq!(judge(&joined)?, Verdict::Clean { links: 1 });
//! assert!(reaches(&joined, 1, 4)?);
//!
//! // What the clean trace does to location 5.
//! let told = cards(&joined)?.expect("no race");
//! assert_eq!(told[5], Card { reads: 1, writes: 1, sums: 0, first: 1, last: 4 });
//! # Ok::<(), racejudge::Refusal>(())
//! ```
//!
//! # The rules of a trace
//!
//! At the start the line of tasks holds task 0 alone, and it runs. Only the running task acts. A
//! fork puts the child, whose number is new, immediately left of its parent; the parent pauses and
//! the child runs. A halt ends the running task: it stays in the line, and its paused parent
//! resumes, which the halt names. Task 0 has no parent: its own halt names 0, and no event follows
//! it. A join takes the task immediately left of the running one out of the line. A trace may end
//! anywhere. One that breaks a rule is refused, with the number of the rule and the event's position:
//! [`Refusal`].
//!
//! # What conflicts
//!
//! Reads, writes and sums are accesses. A sum adds to a location, as to a counter, so that the order
//! of sums among themselves does not matter. Two accesses of one location conflict unless both are
//! reads or both are sums. They race if they conflict and no path leads from one to the other.
//!
//! # The table of joins
//!
//! It puts the tasks in trees, each task in one of its own at the start. A join makes one of the
//! joiner's tree and the joined task's: it hangs the top of the smaller, by number of tasks, under
//! the top of the larger; at equal size the joiner's top stays on top. How many links lead from a
//! task to its top, at the most, [`Verdict::links`] has; never more than [`MAX_LINKS`].
//!
//! # What there is
//!
//! Traces come from events ([`Trace::push`], `collect`), from slices ([`Trace::from_slices`]), from
//! text ([`Trace::from_text`], which has no sums), from bytes ([`Trace::from_binary`]) or from a plan
//! ([`Plan::trace`]). No call panics on any of them, keeps anything between calls, or reads or writes
//! a file. [`raw`] has the C interface itself, for callers who lend the buffers.

#![warn(missing_docs)]
#![deny(unsafe_code, unsafe_op_in_unsafe_fn)]

mod binary;
mod card;
mod conversion;
mod event;
mod pair;
mod plan;
#[allow(unsafe_code)]
pub mod raw;
mod refusal;
mod trace;
mod verdict;

pub use binary::Damage;
pub use card::Card;
pub use conversion::Conversion;
pub use event::{Event, Kind, UnknownKind};
pub use pair::{max_pairs, pairs, Pair, Pairs};
pub use plan::{Leaf, Needs, Node, Operator, Plan, PlanError, Tree};
pub use refusal::Refusal;
pub use trace::{Place, Trace};
pub use verdict::{cards, judge, reaches, Verdict};

/// The most events that a trace may have.
pub const MAX_EVENTS: usize = 32_768;

/// Task numbers go from 0 to one below this.
pub const TASKS: usize = 1_024;

/// Locations go from 0 to one below this.
pub const LOCATIONS: usize = 1_024;

/// Two positions are close to each other if they differ by no more than this: [`pairs`].
pub const CLOSE: usize = 256;

/// In the table of joins no more links than these lead from a task to the top of its tree.
pub const MAX_LINKS: usize = 10;

/// The most levels that S and P of a plan may open within each other.
pub const MAX_DEPTH: usize = 64;

/// The most events that a text may make, implied halts included.
pub const MAX_TEXT_EVENTS: usize = 2_048;

/// The longest line of a text, `T65535|fork(T65535)|65535` and its line feed.
const LINE_BYTES: usize = 26;

/// So many bytes of a text decide, whatever follows: each line makes an event, so the 2,049th line
/// is refused by row 15 at the latest, and a line that is not of the form by row 14 before. Who
/// reads a text from a file or a pipe need not read more.
pub const TEXT_BYTES: usize = (MAX_TEXT_EVENTS + 1) * LINE_BYTES;
