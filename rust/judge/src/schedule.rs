//! What a plan's file holds.

use crate::phrases::grouped;
use crate::recording::Recording;
use crate::standard;
use racejudge::{Plan, PlanError};
use std::ffi::OsStr;
use std::fs::File;
use std::io::{self, Read};

/// A plan's file may have so many bytes: of one some 50 times as long as any that is accepted it is
/// still told how large it is.
const PLAN_BYTES: usize = 1 << 24;

pub struct Schedule {
    /// As far as it decides, without the line feed at its end.
    pub text: Vec<u8>,
    pub plan: Result<Plan, PlanError>,
    /// The plan's trace, or why there is none. It has no lines.
    pub recording: Recording,
}

impl Schedule {
    /// Reads a file, or says why it cannot be judged.
    pub fn read(file: &OsStr) -> Result<Schedule, String> {
        Schedule::of(standard::read(file, start)?)
    }

    /// The schedule of what `start` gives of a file. One line feed at the end is the file's, and not
    /// the plan's.
    pub fn of(mut text: Vec<u8>) -> Result<Schedule, String> {
        let is_cut = text.len() > PLAN_BYTES;
        if !is_cut && text.ends_with(b"\n") {
            text.pop();
        }
        let plan = Plan::parse(&text);
        // What follows matters unless a byte that is there is refused.
        let is_decided = plan.as_ref().is_err_and(|error| error.byte.is_some());
        if is_cut && !is_decided {
            return Err(format!("is too long for a plan: more than {} bytes", grouped(PLAN_BYTES)));
        }
        let trace = plan.as_ref().map(|plan| plan.trace().clone()).map_err(|error| error.refusal);
        Ok(Schedule { text, plan, recording: Recording { text: None, trace } })
    }
}

/// As much of a file as decides: an endless one is not waited for.
fn start(file: &File) -> io::Result<Vec<u8>> {
    let mut bytes = Vec::new();
    file.take(PLAN_BYTES as u64 + 1).read_to_end(&mut bytes)?;
    Ok(bytes)
}
