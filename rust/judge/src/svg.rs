//! The picture of a run: what ran beside what, which two accesses race, why nothing orders them.
//!
//! `story`, `listing` and `words` know what is to be told, `choice` which events and tasks are drawn,
//! `layout` where they stand, `lines` what runs between them, and `strips` a plan beside them. `page`,
//! `figure` and `legend` put it on a `canvas`, which writes SVG.

mod canvas;
mod choice;
mod figure;
mod layout;
mod legend;
mod lines;
mod listing;
mod page;
mod story;
mod strips;
mod style;
mod text;
mod words;

use crate::answer::Answer;
use crate::graph::Graph;
use crate::study::{Listed, Planned};
use crate::why::Why;
use racejudge::Trace;

/// Draws the run: a column for each task in the line's order, time downward, and the race marked.
/// `graph` is that of the first events that keep the rules, and `why` that of the race. Long runs
/// are cut to what the answer needs, and say so. The same run gives the same text.
pub fn draw(
    trace: &Trace,
    graph: &Graph,
    answer: &Answer,
    why: Option<&Why>,
    title: &str,
) -> String {
    let story = story::Story::new(trace, graph, answer, why);
    page::page(&story, &choice::Choice::new(&story), title)
}

/// Draws a plan, and its run in the same rows. None where there is no plan.
pub fn draw_plan(planned: &Planned, title: &str) -> Option<String> {
    let story = story::Story::of_plan(planned)?;
    Some(page::page(&story, &choice::Choice::new(&story), title))
}

/// Draws the run with every access marked that is of a close pair. Where there is none, what the judge
/// says is drawn. None where there is no trace.
pub fn draw_pairs(listed: &Listed, title: &str) -> Option<String> {
    let story = story::Story::of_pairs(listed)?;
    Some(page::page(&story, &choice::Choice::new(&story), title))
}
