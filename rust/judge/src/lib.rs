//! The command `judge`: judges trace files by the proved library, and explains in words what it
//! said. What the library says is printed as it is; nothing else here has to be believed.
//!
//! Reading order: `words` (the command line), `recording`, `schedule` and `standard` (traces and plans
//! that are read, and what is written), `answer`, `graph`, `why`, `study`, `cards` and `groups` (what is
//! known of a trace), `phrases` and `explain` (the words for people), `json` and `objects` (the same
//! for programs), `svg` (the picture).

#![deny(unsafe_code)]

pub mod answer;
mod arguments;
pub mod cards;
pub mod explain;
pub mod graph;
pub mod groups;
pub mod json;
pub mod objects;
pub mod phrases;
pub mod recording;
pub mod schedule;
#[allow(unsafe_code)]
mod standard;
pub mod study;
pub mod svg;
pub mod why;
pub mod words;
