//! What the proved library said, in words for people.

mod cards;
mod collision;
mod conversion;
mod drawing;
mod excerpt;
mod form;
mod misfit;
mod misread;
mod order;
mod page;
mod pairs;
mod plan;
mod race;
mod refusal;
mod rows;
mod ways;

pub use misread::Misread;
pub use refusal::{Reason, Refused};

use crate::cards::Cards;
use crate::phrases::{clean_before, count, has_sums};
use crate::recording::Recording;
use crate::study::{Converted, Listed, Planned, Question, Scene, Study};
use page::Page;
use race::Race;
use racejudge::{Pair, Trace, Verdict, MAX_LINKS};
use std::io::{self, Write};

/// The proved answer's line, and what it means. The orders of a race are shown whole where that is
/// wanted.
pub fn judged(study: &Study, whole: bool) -> String {
    let mut page = Page::default();
    page.add(&study.line());
    match (&study.answer, &study.scene, Race::of(study, None, whole)) {
        (Ok(_), Some(scene), None) => clean(&mut page, scene),
        (Ok(_), Some(scene), Some(race)) => {
            race.tell(&mut page, scene);
            counting(&mut page, scene.recording);
        }
        (Err(refusal), scene, _) => {
            let refused = Refused::of(study.recording, scene.as_ref(), refusal);
            refused.tell(&mut page, refusal);
            if let Refused::Event(_, p) = refused {
                page.say(&format!("{} Nothing is said of what follows.", clean_before(p)));
                counting(&mut page, study.recording);
            }
        }
        (Ok(_), None, _) => {}
    }
    page.text()
}

/// The proved answer's line, and what it means for the plan.
pub fn planned(planned: &Planned, whole: bool) -> String {
    let Planned { schedule, study, clash } = planned;
    let mut page = Page::default();
    page.add(&study.line());
    match (&study.scene, Race::of(study, clash.as_ref(), whole), clash) {
        (Some(scene), Some(race), Some(clash)) => {
            plan::race(&mut page, scene, &race, clash, &schedule.text);
        }
        (Some(scene), ..) => plan::clean(&mut page, scene, schedule),
        (None, ..) => plan::refused(&mut page, schedule),
    }
    page.text()
}

/// The plan and its task graph, drawn behind what is said of the file.
pub fn drawn(planned: &Planned) -> String {
    let Planned { schedule, study, clash } = planned;
    let mut page = Page::default();
    match (&schedule.plan, &study.scene) {
        (Ok(plan), Some(scene)) => drawing::draw(&mut page, scene, plan, clash.as_ref()),
        _ => page.say("There is no drawing: the file makes no trace."),
    }
    behind(page)
}

/// A page that stands behind another.
fn behind(page: Page) -> String {
    format!("\n{}", page.text())
}

/// How long the chains of the table of joins are: a paragraph behind what is said of a file.
pub fn links(study: &Study) -> String {
    let links = study.answer.as_ref().map(Verdict::links);
    let told = match links {
        Err(_) => "no links are counted in a file that is refused.".to_string(),
        Ok(0) => "no task is joined, so each is the top of a tree of its own.".to_string(),
        Ok(links) => format!(
            "at most {} {} from a task to the top of its tree. A join hangs the smaller tree under \
             the larger, so there are never more than {MAX_LINKS}.",
            count(links, "link"),
            if links == 1 { "leads" } else { "lead" },
        ),
    };
    let mut page = Page::default();
    page.add(&format!("Joins: {told}"));
    behind(page)
}

fn clean(page: &mut Page, scene: &Scene) {
    if scene.trace.is_empty() {
        page.say("There is no event in the file, so nothing can race.");
        return;
    }
    page.say(&no_race(scene.trace, "the forks and joins allow"));
    let tasks = count(scene.graph.columns().len(), "task");
    page.say(&format!("Judged: {} by {tasks}.", count(scene.trace.len(), "event")));
}

/// What clean means.
fn no_race(trace: &Trace, allowed: &str) -> String {
    format!(
        "No race: whatever order the cores take that {allowed}, each read sees the same write{sums}, \
         and each location ends with the same last write{sums}.",
        sums = if has_sums(trace) { " and the same sums after it" } else { "" },
    )
}

/// How events and lines are numbered.
fn counting(page: &mut Page, recording: &Recording) {
    page.say(match recording.text {
        Some(_) => {
            "Events count from 0, lines from 1. Halts are put in: they are events with no line."
        }
        None => "Events count from 0.",
    });
}

/// The proved answer to a question, and what it means.
pub fn asked(question: &Question) -> String {
    let mut page = Page::default();
    page.add(&question.line());
    match (&question.answer, &question.scene) {
        (Ok(true), Some(scene)) => order::ordered(&mut page, scene, question),
        (Ok(false), Some(scene)) => order::unordered(&mut page, scene, question),
        (Err(refusal), scene) => {
            Refused::of(question.recording, scene.as_ref(), refusal).tell(&mut page, refusal);
        }
        (Ok(_), None) => {}
    }
    if question.answer.is_ok() {
        counting(&mut page, question.recording);
    }
    page.text()
}

/// The proved answer's line, and the cards where it is clean; else what it means.
pub fn counted(study: &Study, busiest: bool) -> String {
    let Some(cards) = Cards::of(study, busiest) else {
        return judged(study, false);
    };
    let mut page = Page::default();
    page.add(&study.line());
    cards::tell(&mut page, &cards);
    page.text()
}

/// The proved answer's line, and the close pairs in groups, of each the first or all; it is printed as it
/// is made.
pub fn listed(listed: &Listed, all: bool, out: &mut dyn Write) -> io::Result<()> {
    let mut page = Page::default();
    page.add(&listed.line());
    match (&listed.answer, &listed.study.scene) {
        (Ok(list), Some(scene)) if list.len() > 0 => {
            out.write_all(page.text().as_bytes())?;
            return pairs::tell(out, listed, scene, list, all);
        }
        (Ok(_), Some(scene)) => pairs::none(&mut page, listed, scene),
        (Err(refusal), scene) => {
            let refused = Refused::of(listed.study.recording, scene.as_ref(), refusal);
            refused.tell(&mut page, refusal);
            if let Refused::Event(_, p) = refused {
                page.say(&before_refused(listed, p));
                counting(&mut page, listed.study.recording);
            }
        }
        (Ok(_), None) => {}
    }
    out.write_all(page.text().as_bytes())
}

/// What is known of the events before one for which the list is refused.
fn before_refused(listed: &Listed, p: usize) -> String {
    match listed.first_race() {
        Some(Pair { s, t }) => format!(
            "Pairs are listed where the whole trace keeps the rules. Before event {p} there is a race, \
             of events {s} and {t}: `judge FILE` explains it."
        ),
        None => format!("{} Nothing is said of what follows.", clean_before(p)),
    }
}

/// The proved answer's line, and how far the trace was brought over.
pub fn converted(converted: &Converted) -> String {
    let mut page = Page::default();
    page.add(&converted.line());
    let scene = Scene::new(&converted.recording);
    match (&converted.answer, &scene) {
        (Ok(conversion), Some(scene)) => conversion::tell(&mut page, scene, conversion),
        (Err(refusal), scene) => {
            Refused::of(&converted.recording, scene.as_ref(), refusal).tell(&mut page, refusal);
        }
        (Ok(_), None) => {}
    }
    page.text()
}
