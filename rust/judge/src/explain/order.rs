//! The answer to a question about two events, in words.

use super::page::Page;
use super::ways::{way, ways};
use crate::study::{Question, Scene};

pub fn ordered(page: &mut Page, scene: &Scene, question: &Question) {
    let Question { p, q, .. } = *question;
    if p == q {
        page.say("The two are one event:");
        page.rows(scene.full_rows(&[p], p));
        return;
    }
    page.say(&format!("Event {p} comes before event {q}, whatever order the cores take:"));
    page.rows(scene.full_rows(&[p, q], q));
    if scene.task(p) == scene.task(q) {
        let task = scene.task(p);
        page.say(&format!("Both are of task {task}, and a task acts in the order of its events."));
        return;
    }
    page.say("One path makes it so. It goes over from task to task here:");
    page.rows(way(scene, &scene.graph.path(p, q), q));
}

pub fn unordered(page: &mut Page, scene: &Scene, question: &Question) {
    let Question { p, q, .. } = *question;
    page.say(&if p < q {
        format!("Event {p} came before event {q} in this trace, but nothing makes it so:")
    } else {
        format!("Event {p} came after event {q} in this trace, so nothing leads there:")
    });
    page.rows(scene.full_rows(&[p, q], p.max(q)));
    if question.reverse == Ok(true) {
        page.say(&format!("It is the other way round: event {q} always comes before event {p}."));
    }
    if let Some(why) = &question.why {
        page.say("Nor is it the other way round: the cores may take either first.");
        ways(page, scene, why, p.max(q));
    }
}
