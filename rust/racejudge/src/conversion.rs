//! Traces that were stored before halts named a task, brought over to the rules as they are now.

use crate::raw;
use crate::verdict::{reaches, workspace};
use crate::{Event, Kind, Refusal, Trace};

/// What [`Trace::convert`] has done.
#[derive(Clone, Copy, Debug, PartialEq, Eq, Hash)]
#[non_exhaustive]
#[must_use = "it says where the conversion stopped, and whether a rule is still broken"]
pub struct Conversion {
    /// How many halts were set: all before the stop. Where task 0 resumes, 0 has stayed 0.
    pub halts: usize,
    /// The first event that broke a rule of then. From there on nothing has changed. None where all
    /// events kept them: then the whole trace is converted.
    pub stopped: Option<usize>,
    /// The first rule of now that the trace still breaks; none where it keeps them all. Where it is
    /// not the event of the stop that breaks one, that is a halt which names its task already: the
    /// trace may have been converted before.
    pub broken: Option<Refusal>,
}

impl Trace {
    /// Brings the trace over if it was stored when the operand of every halt had to be 0: sets that of
    /// each halt to the task that resumes, up to the first event that breaks a rule of then, and
    /// changes nothing else. Those rules are the ones of now, with another row 12: a halt broke it
    /// whose operand was not 0. Races do not matter.
    ///
    /// What was called clean or a race by the rules of then is now called the same, with the same
    /// positions.
    ///
    /// ```
    /// use racejudge::{judge, Event, Refusal, Trace, Verdict};
    ///
    /// // Task 2 halts, and task 1 resumes.
    /// let events = [Event::fork(0, 1), Event::fork(1, 2), Event::halt(2, 0), Event::write(1, 5)];
    /// let mut trace: Trace = events.into_iter().collect();
    /// assert_eq!(judge(&trace), Err(Refusal { row: 12, position: 2 }));
    ///
    /// let told = trace.convert()?;
    /// assert_eq!((told.halts, told.stopped), (1, None));
    /// assert_eq!(trace.event(2), Some(Event::halt(2, 1)));
    /// assert_eq!(judge(&trace), Ok(Verdict::Clean { links: 0 }));
    ///
    /// // Once more it stops at the halt that names its task already. The rules are kept all the same.
    /// let told = trace.convert()?;
    /// assert_eq!((told.halts, told.stopped, told.broken), (0, Some(2), None));
    /// assert_eq!(trace.event(2), Some(Event::halt(2, 1)));
    /// # Ok::<(), Refusal>(())
    /// ```
    ///
    /// # Errors
    ///
    /// A refusal by row 1 or 2. The trace is then as it was.
    pub fn convert(&mut self) -> Result<Conversion, Refusal> {
        let named = self.events().position(|event| is_halt(&event) && event.operand != 0);
        let mut workspace = workspace(self);
        let (kinds, tasks, operands) = self.slices();
        let told = raw::convert(kinds, tasks, operands, &mut workspace);
        if told.code != raw::CONVERTED {
            return Err(Refusal::told(told));
        }
        let broken = self.broken();
        // Up to the stop the rules of now are kept. The event there is a halt that named a task, or
        // it breaks a row that is now as it was then.
        let stopped = named.into_iter().chain(broken.map(|refusal| refusal.position)).min();
        let before = self.events().take(stopped.unwrap_or(self.len()));
        Ok(Conversion { halts: before.filter(is_halt).count(), stopped, broken })
    }

    /// The first rule that is broken, in a trace that has the right sizes. The ordering call holds the
    /// rules to the whole trace, whatever is asked, and behind them the question to row 13.
    fn broken(&self) -> Option<Refusal> {
        reaches(self, 0, 0).err().filter(|refusal| refusal.row != 13)
    }
}

fn is_halt(event: &Event) -> bool {
    event.kind() == Some(Kind::Halt)
}
