//! Why a trace, a text or a plan is turned back.

use crate::raw::Told;
use std::error::Error;
use std::fmt;

/// Why a trace, a question about it, a text or a plan is turned back: the first condition of the
/// table that holds, which document 01 begins and document 02 goes on with.
///
/// ```
/// use racejudge::{judge, Event, Refusal, Trace};
///
/// let trace: Trace = [Event::fork(0, 1), Event::read(0, 7)].into_iter().collect();
/// let refusal = judge(&trace).unwrap_err();
/// assert_eq!(refusal, Refusal { row: 7, position: 1 });
/// assert_eq!(refusal.meaning(), "the actor is not the running task");
/// assert_eq!(
///     refusal.to_string(),
///     "event 1, counted from 0, is refused by row 7: the actor is not the running task"
/// );
/// ```
#[derive(Clone, Copy, Debug, PartialEq, Eq, Hash)]
pub struct Refusal {
    /// The condition's number, 1 to 20.
    pub row: usize,
    /// The event for rows 5 to 12, the text's line for rows 14 and 15 and the plan's byte for rows
    /// 17 and 18, counted from 0; else 0.
    pub position: usize,
}

/// What the position of a row counts.
enum Counted {
    Nothing,
    Events,
    Lines,
    Bytes,
    Unknown,
}

impl Refusal {
    /// The refusal that a call told. What is no answer of that call is taken for one too, so that
    /// nothing passes for clean by mistake.
    pub(crate) fn told<const VALUES: usize>(told: Told<VALUES>) -> Self {
        Refusal { row: told.values[0] as usize, position: told.values[1] as usize }
    }

    /// What the row refuses, as a clause.
    #[must_use]
    pub fn meaning(&self) -> &'static str {
        match self.row {
            1 => "the three slices of the trace differ in length",
            2 => "the trace has more than 32,768 events",
            3 => "the workspace is too short for the trace",
            4 => "an order buffer has fewer cells than the trace has events",
            5 => "the kind is above 5",
            6 => "task 0 has halted",
            7 => "the actor is not the running task",
            8 => "the location is above 1,023",
            9 => "the forked number is above 1,023",
            10 => "the forked number was used before",
            11 => "the joined task is not the left neighbour of the actor",
            12 => {
                "the operand of the halt is not the task that resumes, or not 0 for task 0's own halt"
            }
            13 => "a position that was asked for is not below the number of events",
            14 => {
                "the line is not of the form `Ta|r(Vb)|c`, `Ta|w(Vb)|c`, `Ta|fork(Tb)|c` or \
                 `Ta|join(Tb)|c` with numbers from 0 to 65,535 and a line feed at its end"
            }
            15 => "with this line the text makes more than 2,048 events",
            16 => "there are fewer than 1,024 cards",
            17 => "the byte cannot continue a plan, or the plan breaks off there",
            18 => "the byte is an S or P that opens level 65",
            19 => {
                "a slice has fewer cells than the plan has events, or the plan needs more than 1,024 \
                 tasks or more than 32,768 events"
            }
            20 => "a slice for the pairs has fewer cells than there are close pairs",
            _ => "no row of the table has this number",
        }
    }

    /// What is refused and by which row, as a clause.
    pub(crate) fn head(&self) -> String {
        let Refusal { row, position } = self;
        let counted = match self.counted() {
            Counted::Nothing => return format!("the call is refused by row {row}"),
            Counted::Events => "event",
            Counted::Lines => "line",
            Counted::Bytes => "byte",
            Counted::Unknown => return format!("refused by row {row} at position {position}"),
        };
        format!("{counted} {position}, counted from 0, is refused by row {row}")
    }

    fn counted(&self) -> Counted {
        match self.row {
            1..=4 | 13 | 16 | 19 | 20 => Counted::Nothing,
            5..=12 => Counted::Events,
            14 | 15 => Counted::Lines,
            17 | 18 => Counted::Bytes,
            _ => Counted::Unknown,
        }
    }
}

/// One sentence, with no full stop: errors are often put behind a colon.
impl fmt::Display for Refusal {
    fn fmt(&self, f: &mut fmt::Formatter<'_>) -> fmt::Result {
        write!(f, "{}: {}", self.head(), self.meaning())
    }
}

impl Error for Refusal {}
