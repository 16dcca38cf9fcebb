//! Measures and tests the race judge from outside, over its static library.
//!
//! Reading order: `trace` (what goes in and comes out), `line`, `ancestors`, `cards` and `joins` (the
//! slow judge, written from document 01 and the owner's sentences alone), `sight` (what the answers
//! are about: what reads see), `pairs` (the slow list of close pairs), `convert` (the slow conversion
//! of stored traces), `text` (the text form), `plan` and `grammar` (plans, and which texts are some),
//! `ffi` (the linked judges, calls for pairs, readers and conversions), `twoorders.c`, `unionfind.c`,
//! `fasttrack`, `pass.c`, `pairs.c`, `planread.c` and `resume.c` (the peers), `planted.c` (the library
//! with two parameters exchanged), `rng`, `builder`, `workloads`, `samples` and `shapes` (the traces and
//! the plans), `extent` (how near a trace comes to the limits), `program` and `words` (input, output and
//! command lines).

pub mod ancestors;
pub mod builder;
pub mod cards;
pub mod convert;
pub mod extent;
pub mod fasttrack;
#[cfg(feature = "linked")]
pub mod ffi;
pub mod grammar;
pub mod joins;
pub mod line;
pub mod pairs;
pub mod plan;
pub mod program;
pub mod rng;
pub mod samples;
pub mod shapes;
pub mod sight;
pub mod text;
pub mod trace;
pub mod words;
pub mod workloads;
