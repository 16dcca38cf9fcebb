//! A refusal in words: what is refused, what it collides with, and what that usually comes from.

use super::collision::collision;
use super::misfit::{Line, Misfit};
use super::page::Page;
use crate::phrases::{capital, count, fitting, grouped, visible};
use crate::recording::Recording;
use crate::study::Scene;
use racejudge::{Refusal, MAX_EVENTS, MAX_TEXT_EVENTS};

/// Of a line that takes more letters the beginning is shown.
const SHOWN_LINE: usize = 56;

/// Why something is refused.
pub struct Reason {
    /// What it collides with, in sentences.
    pub state: Vec<String>,
    pub hint: Hint,
}

/// Both may be empty.
#[derive(Clone, Copy, Default)]
pub struct Hint {
    /// What it usually comes from, as a clause.
    pub cause: &'static str,
    /// What can be done, in sentences.
    pub advice: &'static str,
}

impl Hint {
    pub fn sentences(&self) -> Vec<String> {
        let cause = (!self.cause.is_empty()).then(|| format!("Likely cause: {}.", self.cause));
        let advice = (!self.advice.is_empty()).then(|| self.advice.to_string());
        cause.into_iter().chain(advice).collect()
    }
}

/// What is refused.
pub enum Refused<'a> {
    Event(&'a Scene<'a>, usize),
    /// A line that is not of the form.
    Line(&'a [u8], Misfit),
    /// A line with which the text makes too many events.
    LineTooMany(&'a [u8]),
    /// A trace of so many events, or a question about it.
    Whole(usize),
}

impl<'a> Refused<'a> {
    pub fn of(recording: &'a Recording, scene: Option<&'a Scene<'a>>, refusal: &Refusal) -> Self {
        match (refusal.row, scene, recording.line(refusal.position)) {
            (5..=12, Some(scene), _) => Refused::Event(scene, refusal.position),
            (14, _, Some((bytes, is_ended))) => {
                let is_first = refusal.position == 0;
                Refused::Line(bytes, Misfit::of(Line { bytes, is_ended, is_first }))
            }
            (15, _, Some((text, _))) => Refused::LineTooMany(text),
            _ => Refused::Whole(scene.map_or(0, |scene| scene.trace.len())),
        }
    }

    pub fn reason(&self, refusal: &Refusal) -> Reason {
        match self {
            Refused::Event(scene, p) => collision(scene, refusal.row, *p),
            Refused::Line(_, misfit) => {
                Reason { state: vec![capital(&misfit.found) + "."], hint: misfit.hint }
            }
            Refused::LineTooMany(_) => too_many_lines(),
            Refused::Whole(events) => whole(refusal.row, *events),
        }
    }

    pub fn tell(&self, page: &mut Page, refusal: &Refusal) {
        page.say(&self.head(refusal));
        match self {
            Refused::Event(scene, p) => page.rows(scene.full_rows(&[*p], *p)),
            Refused::Line(text, misfit) => page.rows([shown(text), mark(misfit)]),
            Refused::LineTooMany(text) => page.rows([shown(text)]),
            Refused::Whole(_) => {}
        }
        let Reason { state, hint } = self.reason(refusal);
        // The mark beneath a line has said what is wrong.
        let is_marked = matches!(self, Refused::Line(..));
        if !is_marked {
            page.list(&state);
        }
        page.list(&hint.sentences());
        if is_marked {
            page.say(&format!("Row {} says: {}.", refusal.row, refusal.meaning()));
        }
    }

    fn head(&self, refusal: &Refusal) -> String {
        let Refusal { position, .. } = refusal;
        let meaning = refusal.meaning();
        let line = format!("Line {} of the file (the answer counts from 0)", position + 1);
        match self {
            Refused::Event(..) => format!("Event {position} breaks a rule: {meaning}."),
            Refused::Line(..) => format!("{line} is not of the text form:"),
            Refused::LineTooMany(_) => format!("{line} is one too many: {meaning}."),
            Refused::Whole(_) => capital(meaning) + ".",
        }
    }
}

const CUT: &str = "A trace may end anywhere: the beginning of a long one can be judged by itself.";

fn too_many_lines() -> Reason {
    let (text, binary) = (grouped(MAX_TEXT_EVENTS), grouped(MAX_EVENTS));
    let limits = format!(
        "A text makes at most {text} events, with the halts that are put in. The binary form takes \
         {binary} events."
    );
    Reason { state: vec![limits], hint: Hint { cause: "", advice: CUT } }
}

fn whole(row: usize, events: usize) -> Reason {
    let has = format!("The trace has {}", count(events, "event"));
    let last = events.checked_sub(1).map(|last| format!(", from 0 to {last}"));
    let advice = match row {
        2 => CUT,
        13 => "Events are not lines: they count from 0, and halts are events too.",
        _ => "",
    };
    Reason { state: vec![has + &last.unwrap_or_default() + "."], hint: Hint { cause: "", advice } }
}

/// The line as far as it is shown. Of a long text not all is read: what follows is not counted.
fn shown(text: &[u8]) -> String {
    let end = fitting(text, SHOWN_LINE);
    let start = visible(&text[..end]);
    match text.len() {
        read if read == end => start,
        read => format!("{start} .. ({} of the line were read)", count(read, "byte")),
    }
}

/// A mark beneath the line where it stops being of the form. What stands before is shown as it is.
fn mark(misfit: &Misfit) -> String {
    format!("{}^ {}", " ".repeat(misfit.at), misfit.found)
}
