//! The proved judge's answer, and the line that says it.

use crate::recording::Recording;
use racejudge::{Refusal, Verdict};

pub type Answer = Result<Verdict, Refusal>;

/// What the proved judge says of a recording; a text that makes no trace is refused.
pub fn judged(recording: &Recording) -> Answer {
    recording.trace.as_ref().map_err(|refusal| *refusal).and_then(racejudge::judge)
}

/// The answer's own line, as the program `racejudge` prints it, for a trace of so many events.
pub fn line(answer: &Answer, events: usize) -> String {
    match answer {
        Ok(Verdict::Clean { .. }) => format!("clean {events}"),
        Ok(Verdict::Race { s, t, .. }) => format!("race {s} {t}"),
        Err(refusal) => refused(refusal),
    }
}

/// The line of a refusal.
pub fn refused(refusal: &Refusal) -> String {
    format!("refused {} {}", refusal.row, refusal.position)
}
