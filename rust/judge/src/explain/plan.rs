//! A plan in words: how much was judged, or which two leaves race and where they meet.

use super::excerpt::excerpt;
use super::misread::Misread;
use super::no_race;
use super::page::Page;
use super::race::Race;
use super::rows::append;
use crate::phrases::count;
use crate::schedule::Schedule;
use crate::study::{Clash, Scene};
use racejudge::{Leaf, Plan};

/// Of a long plan so many letters are shown before and behind each mark.
const AROUND: [usize; 2] = [10, 10];

pub fn clean(page: &mut Page, scene: &Scene, schedule: &Schedule) {
    page.say(&no_race(scene.trace, "the plan allows"));
    let leaves = schedule.plan.iter().flat_map(Plan::leaves).count();
    let (leaves, tasks) = (count(leaves, "leaf"), count(scene.graph.columns().len(), "task"));
    page.say(&format!("Judged: {leaves}, {} by {tasks}.", count(scene.trace.len(), "event")));
}

pub fn refused(page: &mut Page, schedule: &Schedule) {
    if let Some(misread) = Misread::of(schedule) {
        misread.tell(page);
    }
}

pub fn race(page: &mut Page, scene: &Scene, race: &Race, clash: &Clash, text: &[u8]) {
    let Clash { s, t, meet } = clash;
    page.say(&race.head(scene));
    let marked = [s.range(), t.range(), meet.position..meet.position + 1];
    let around = if text.len() <= Page::row_width() { [text.len(); 2] } else { AROUND };
    page.rows(excerpt(text, &marked, around));
    page.rows(rows(scene, [s, t]));
    page.say(&format!(
        "They meet at the {} at byte {}, which has the one in its left and the other in its right \
         operand. Operands of P run side by side, so neither leaf reaches the other.",
        meet.operator, meet.position
    ));
    page.add("With an S in its place the first would always come before the second.");
    race.orders(page, "judge plan --orders");
    if let Some(outcome) = race.outcome(scene) {
        page.say(&outcome);
    }
    race.outlook(page, scene, "plan");
    page.say("Bytes and events count from 0. P makes three events: a fork, a halt and a join.");
}

/// A row for each leaf, set under each other.
fn rows(scene: &Scene, leaves: [&Leaf; 2]) -> Vec<String> {
    let mut rows = leaves.map(Leaf::to_string).to_vec();
    append(&mut rows, leaves.iter().map(|leaf| Some(format!("   byte {}", leaf.position))));
    append(&mut rows, leaves.iter().map(|leaf| Some(format!("   event {}", leaf.event))));
    append(&mut rows, leaves.iter().map(|leaf| Some(format!("   {}", scene.deed(leaf.event)))));
    rows
}
