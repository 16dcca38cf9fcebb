//! Paths in words: the way from one event to another, and where the ways to two events part.

use super::page::Page;
use crate::phrases::{count, tasks};
use crate::study::Scene;
use crate::why::Why;
use racejudge::Kind;

/// Longer ways are shown by so many rows at each end.
const SHOWN_END: usize = 6;

/// The rows of a path, with those in the middle left out where they are many.
pub fn way(scene: &Scene, path: &[usize], widest: usize) -> Vec<String> {
    let mut rows = scene.rows(&turns(scene, path), widest);
    if rows.len() > 2 * SHOWN_END + 1 {
        let left_out = rows.len() - 2 * SHOWN_END;
        let note = format!("({} left out; --json has all)", count(left_out, "row"));
        rows.splice(SHOWN_END..SHOWN_END + left_out, [note]);
    }
    rows
}

/// Where a path goes over to another task, and its last event: the forks whose children it follows,
/// and the halts with the joins that take them up, but no fork or join that it passes by.
fn turns(scene: &Scene, path: &[usize]) -> Vec<usize> {
    let turns = |&at: &usize| {
        let leaves = path.get(at + 1).is_none_or(|&next| scene.task(next) != scene.task(path[at]));
        // From a halt the only arc is that to its join.
        let joins = at > 0 && scene.kind(path[at - 1]) == Some(Kind::Halt);
        leaves || joins
    };
    (0..path.len()).filter(turns).map(|at| path[at]).collect()
}

/// Why nothing leads from s to t: where the ways to them part, and which join is missing.
pub fn ways(page: &mut Page, scene: &Scene, why: &Why, t: usize) {
    let s = why.to_s.last().copied().unwrap_or_default();
    page.say("The last event that comes before both is a fork:");
    page.rows(scene.rows(&[why.parted], t));
    page.say(&format!("From there the child's side leads to event {s}:"));
    page.rows(way(scene, why.to_s.get(1..).unwrap_or_default(), t));
    page.say(&format!("and the parent's side to event {t}:"));
    page.rows(way(scene, why.to_t.get(1..).unwrap_or_default(), t));
    page.say(&format!("The two sides do not meet: {}.", unmet(scene, why, s, t)));
}

/// Which tasks should have been joined to lead from s to t.
fn unmet(scene: &Scene, why: &Why, s: usize, t: usize) -> String {
    let named = tasks(&why.unjoined);
    let halted = match why.unjoined.len() {
        1 => format!("{named} has halted, but is not joined"),
        _ => format!("{named} have halted, but are not joined"),
    };
    match why.unjoined.last() {
        Some(&last) if last != scene.task(s) => {
            format!("event {s} comes before the halt of task {last}; {halted} when event {t} runs")
        }
        _ => format!("{halted} when event {t} runs"),
    }
}
