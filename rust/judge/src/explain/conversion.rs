//! A trace that is brought over, in words: how many halts were set, and where and why that ended.

use super::page::Page;
use super::refusal::Refused;
use crate::answer;
use crate::phrases::count;
use crate::study::Scene;
use racejudge::{Conversion, Refusal};

/// Why a halt is not set whose operand is not 0.
const CONVERTED_BEFORE: &str =
    "A halt that names a task already is not set: the trace may have been converted before.";

pub fn tell(page: &mut Page, scene: &Scene, conversion: &Conversion) {
    let Conversion { halts, stopped, broken, .. } = *conversion;
    let Some(stop) = stopped else {
        let events = count(scene.trace.len(), "event");
        page.say(&format!("{} The whole trace is converted: {events}.", set(halts, "")));
        return;
    };
    let before = format!(" before event {stop}");
    page.say(&format!("{} There the conversion ended.", set(halts, &before)));
    match broken.filter(|refusal| refusal.position == stop) {
        Some(refusal) => {
            Refused::of(scene.recording, Some(scene), &refusal).tell(page, &refusal);
            if refusal.row == 12 {
                page.say(CONVERTED_BEFORE);
            }
        }
        None => named(page, scene, stop, broken),
    }
    page.say(&format!("From event {stop} on the trace is as it was."));
    page.say("Events count from 0.");
}

/// How many halts were set up to somewhere.
fn set(halts: usize, before: &str) -> String {
    match halts {
        0 => format!("There is no halt{before} to be set."),
        1 => format!("1 halt{before} was set: it names the task that resumes."),
        _ => {
            format!("{}{before} were set: each names the task that resumes.", count(halts, "halt"))
        }
    }
}

/// The halt at the stop has named the task that resumes before.
fn named(page: &mut Page, scene: &Scene, stop: usize, broken: Option<Refusal>) {
    page.say(&format!("Event {stop} is a halt that names the task that resumes already:"));
    page.rows(scene.full_rows(&[stop], stop));
    page.say(CONVERTED_BEFORE);
    page.add(&match broken {
        None => "It keeps the rules as it is, and needs no conversion.".to_string(),
        Some(refusal) => {
            let (line, meaning) = (answer::refused(&refusal), refusal.meaning());
            format!("Later a rule is broken: {line} ({meaning}).")
        }
    });
}
