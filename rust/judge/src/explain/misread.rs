//! A text that is no plan, or too large a one: what stands where it stops being one, what should
//! stand there, and what that usually comes from.

use super::excerpt::excerpt;
use super::misfit::{hint, BYTE_ORDER_MARK, MARK, WINDOWS};
use super::page::Page;
use super::refusal::{Hint, Reason};
use crate::phrases::{capital, count, grouped, unseen};
use crate::schedule::Schedule;
use racejudge::{Needs, Trace, MAX_DEPTH, MAX_EVENTS, TASKS};

/// So many letters stand before and behind a byte that is refused, so that there is room beside its
/// mark.
const AROUND: [usize; 2] = [38, 18];

pub struct Misread<'a> {
    text: &'a [u8],
    /// The byte that is refused.
    at: usize,
    head: String,
    /// What stands there: a clause that begins with a word of its own, so that it may have a large
    /// letter. None where the whole plan is refused.
    found: Option<String>,
    /// What should, in a sentence.
    wanted: String,
    hint: Hint,
}

impl<'a> Misread<'a> {
    /// None where there is a plan.
    pub fn of(schedule: &'a Schedule) -> Option<Self> {
        let error = schedule.plan.as_ref().err()?;
        let (text, at) = (&schedule.text, error.refusal.position);
        Some(match (error.refusal.row, error.needs) {
            (18, _) => too_deep(text, at),
            (_, Some(needs)) => too_large(text, needs),
            _ => stray(text, at.min(text.len())),
        })
    }

    pub fn tell(&self, page: &mut Page) {
        page.say(&self.head);
        if let Some(found) = self.found.as_ref().filter(|_| !self.text.is_empty()) {
            let byte = self.at..self.at + 1;
            let [shown, marks] = excerpt(self.text, &[byte], AROUND);
            page.rows([shown, format!("{marks} {found}")]);
        }
        page.say(&self.wanted);
        page.list(&self.hint.sentences());
    }

    /// For programs, which see no mark: what stands there is a sentence too.
    pub fn reason(&self) -> Reason {
        let found = self.found.iter().map(|found| capital(found) + ".");
        Reason { state: found.chain([self.wanted.clone()]).collect(), hint: self.hint }
    }
}

const CUT_OFF: Hint = hint("the file was cut off, or a parenthesis is missing", "");
const DEEP: Hint = hint(
    "",
    "Chains nest less where they are split in the middle: S(S(a,b),S(c,d)) is ordered as \
     S(a,S(b,S(c,d))) is. So it is with P.",
);
const LARGE: Hint =
    hint("", "A leaf makes an event, a P a task and three events: a fork, a halt and a join.");
const LOCATIONS: Hint = hint("", "Locations go from 0 to 1,023, without leading zeros.");
const LINE_FEEDS: Hint =
    hint("", "A plan stands on one line, and at most one line feed stands behind it.");
const NO_BLANKS: Hint = hint("", "There may be no blanks and no tabs in a plan, nor around it.");
const LETTERS: Hint = hint(
    "",
    "Leaves are written with small letters, r, w and s, operators with large ones, S and P.",
);
const OPERANDS: Hint = hint("", "S and P have two operands: three plans are S(a,S(b,c)).");
const ONE_PLAN: Hint = hint("", "A file has one plan: two are one as S(a,b) or P(a,b).");
const TRACE: Hint = hint("the file is a trace", "Traces are judged by judge FILE.");
const NO_TEXT: Hint = hint("the file is damaged, or of another kind", "");

/// Row 18.
fn too_deep(text: &[u8], at: usize) -> Misread<'_> {
    Misread {
        text,
        at,
        head: format!("Byte {at} opens level {}:", MAX_DEPTH + 1),
        found: Some(format!("an operator stands here, within {MAX_DEPTH} others")),
        wanted: format!("A plan may nest {MAX_DEPTH} deep: a leaf should stand here."),
        hint: DEEP,
    }
}

/// Row 19.
fn too_large(text: &[u8], needs: Needs) -> Misread<'_> {
    let (tasks, events) = (count(needs.tasks, "task"), count(needs.events, "event"));
    let (most_tasks, most_events) = (grouped(TASKS), grouped(MAX_EVENTS));
    Misread {
        text,
        at: 0,
        head: format!("The plan is too large: it takes {tasks}, task 0 among them, and {events}."),
        found: None,
        wanted: format!(
            "There are {most_tasks} tasks, and a trace has at most {most_events} events."
        ),
        hint: LARGE,
    }
}

/// Row 17.
fn stray(text: &[u8], at: usize) -> Misread<'_> {
    let (beginning, rest) = text.split_at(at);
    let wanted = Wanted::behind(beginning);
    let head = match rest {
        [] if text.is_empty() => "There is no plan: the file is empty.".to_string(),
        [] => format!("The plan breaks off at byte {at}:"),
        _ => format!("Byte {at} cannot continue the plan:"),
    };
    let found = Some(found(beginning, rest));
    Misread { text, at, head, found, wanted: wanted.sentence(), hint: likely(text, rest, &wanted) }
}

/// What stands behind a plan's beginning.
fn found(beginning: &[u8], rest: &[u8]) -> String {
    match (beginning, rest) {
        ([], []) => "the file is empty".to_string(),
        (_, []) => "the file ends here".to_string(),
        ([.., b'r' | b'w' | b's', b'0'], [b'0'..=b'9', ..]) => {
            "a digit stands here, behind a leading zero".to_string()
        }
        ([.., b'0'..=b'9'], [b'0'..=b'9', ..]) => {
            "a digit stands here that makes the location too large".to_string()
        }
        _ if rest.starts_with(BYTE_ORDER_MARK) => "a byte-order mark stands here".to_string(),
        (_, [byte, ..]) => unseen(*byte).unwrap_or_else(|| seen(*byte)),
    }
}

fn seen(byte: u8) -> String {
    let what = match byte {
        b'0'..=b'9' => "digit",
        b'A'..=b'Z' | b'a'..=b'z' => "letter",
        _ => "sign",
    };
    format!("the {what} {} stands here", char::from(byte))
}

/// What that usually comes from.
fn likely(text: &[u8], rest: &[u8], wanted: &Wanted) -> Hint {
    match (rest, wanted) {
        ([], _) if text.is_empty() => Hint::default(),
        ([], _) => CUT_OFF,
        (b"\r", _) => WINDOWS,
        ([b'\r' | b'\n', ..], _) => LINE_FEEDS,
        ([b' ' | b'\t', ..], _) => NO_BLANKS,
        _ if rest.starts_with(BYTE_ORDER_MARK) => MARK,
        _ if is_trace(text) => TRACE,
        ([b'0'..=b'9', ..], Wanted::Closing { .. } | Wanted::End) => LOCATIONS,
        ([b'R' | b'W' | b'p', ..], Wanted::Plan(_)) => LETTERS,
        ([b'(', ..], Wanted::Location(_)) => LETTERS,
        ([b')', ..], Wanted::Closing(Operand { side: Side::Left, .. })) => OPERANDS,
        ([b',', ..], Wanted::Closing(Operand { side: Side::Right, .. })) => OPERANDS,
        ([b'S' | b'P' | b'r' | b'w' | b's' | b',', ..], Wanted::End) => ONE_PLAN,
        ([byte, ..], _) if !byte.is_ascii_graphic() => NO_TEXT,
        _ => Hint::default(),
    }
}

/// Whether the text is what `judge` takes.
fn is_trace(text: &[u8]) -> bool {
    Trace::from_text([text, b"\n"].concat()).is_ok()
}

/// What a plan goes on with.
enum Wanted {
    /// The plan itself, or an operand.
    Plan(Option<Operand>),
    /// The parenthesis behind this operator.
    Opening(char),
    /// The location behind this letter of a leaf.
    Location(char),
    /// What stands behind an operand.
    Closing(Operand),
    /// Nothing: the plan is whole.
    End,
}

/// An operand of the operator at a byte.
#[derive(Clone, Copy)]
struct Operand {
    side: Side,
    operator: char,
    at: usize,
}

#[derive(Clone, Copy)]
enum Side {
    Left,
    Right,
}

impl Wanted {
    /// Behind the beginning of some plan.
    fn behind(beginning: &[u8]) -> Wanted {
        let mut open: Vec<Operand> = Vec::new();
        for (at, byte) in beginning.iter().enumerate() {
            match byte {
                b'S' | b'P' => {
                    open.push(Operand { side: Side::Left, operator: char::from(*byte), at });
                }
                b',' => open.last_mut().into_iter().for_each(|operand| operand.side = Side::Right),
                b')' => _ = open.pop(),
                _ => {}
            }
        }
        let operand = open.last().copied();
        match (beginning.last().map(|&byte| char::from(byte)), operand) {
            (None | Some('(' | ','), _) => Wanted::Plan(operand),
            (Some(operator @ ('S' | 'P')), _) => Wanted::Opening(operator),
            (Some(letter @ ('r' | 'w' | 's')), _) => Wanted::Location(letter),
            (_, Some(operand)) => Wanted::Closing(operand),
            (_, None) => Wanted::End,
        }
    }

    fn sentence(&self) -> String {
        let plan = "with r, w or s and a location, or with S( or P(";
        match self {
            Wanted::Plan(None) => format!("A plan begins {plan}."),
            Wanted::Plan(Some(operand)) => {
                format!("{} should begin here, {plan}.", capital(&operand.mention()))
            }
            Wanted::Opening(operator) => format!("A ( should stand here, behind the {operator}."),
            Wanted::Location(letter) => {
                format!("A location should stand here, behind the {letter}.")
            }
            Wanted::Closing(operand) => {
                let sign = operand.sign();
                format!("A {sign} should stand here, behind {}.", operand.mention())
            }
            Wanted::End => "The plan is whole, and should end here.".to_string(),
        }
    }
}

impl Operand {
    fn mention(&self) -> String {
        let Operand { side, operator, at } = self;
        let side = match side {
            Side::Left => "left",
            Side::Right => "right",
        };
        format!("the {side} operand of the {operator} at byte {at}")
    }

    /// What stands behind it.
    fn sign(&self) -> &'static str {
        match self.side {
            Side::Left => "comma",
            Side::Right => ")",
        }
    }
}
