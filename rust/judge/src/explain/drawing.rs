//! A plan in plain text: as a tree, and as the task graph that it makes.

mod lanes;
mod sketch;
mod tree;

use super::page::Page;
use crate::phrases::{count, grouped};
use crate::study::{Clash, Scene};
use racejudge::Plan;
use sketch::{Sketch, LEVELS, MOST_LANES, MOST_LEAVES};

/// What stands behind each of two leaves that race.
const RACES: &str = "   <- races";

pub fn draw(page: &mut Page, scene: &Scene, plan: &Plan, clash: Option<&Clash>) {
    let sketch = Sketch::of(plan, clash);
    page.say("The plan as a tree, each operator above its operands:");
    page.rows(tree::rows(&sketch, clash));
    let pair = if clash.is_some() { "X one of the two that race, " } else { "" };
    page.say(&format!("The task graph downward: * is an event, {pair}and lines are the arcs:"));
    page.rows(lanes::rows(&sketch, scene, clash));
    cut(page, plan, &sketch, clash);
    // The words for a race say it.
    if clash.is_none() {
        page.say("Bytes and events count from 0.");
    }
}

/// How much is left out, if anything is.
fn cut(page: &mut Page, plan: &Plan, sketch: &Sketch, clash: Option<&Clash>) {
    let left_out = sketch.left_out();
    if left_out == 0 {
        return;
    }
    let drawn = match clash {
        Some(_) => "only as far as it leads to the two leaves that race".to_string(),
        None => format!("{LEVELS} levels deep"),
    };
    page.say(&format!(
        "Of {} {} are left out: a plan of more than {MOST_LEAVES} leaves, or with more than \
         {MOST_LANES} tasks side by side, is drawn {drawn}.",
        count(plan.leaves().count(), "leaf"),
        grouped(left_out),
    ));
}
