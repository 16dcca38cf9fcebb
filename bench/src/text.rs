//! The text form, written from document 01 and the owner's sentences on halts: a subset of the STD
//! lines, with implied halts.

use crate::ancestors::Ancestors;
use crate::trace::*;

/// The most events that a text may make.
pub const MAX_TEXT_EVENTS: usize = 2_048;

/// The longest line, `T65535|fork(T65535)|65535` and its line feed.
const LINE_BYTES: usize = 26;

/// So many bytes of a text decide, however long it is: each line makes an event, so the 2,049th
/// line of the form is refused by 15 at the latest, and a line that is not of it by 14 before.
pub const DECISIVE_BYTES: usize = (MAX_TEXT_EVENTS + 1) * LINE_BYTES;

/// What is left of the text.
struct Rest<'a>(&'a [u8]);

impl Rest<'_> {
    fn word(&mut self, word: &[u8]) -> Option<()> {
        self.0 = self.0.strip_prefix(word)?;
        Some(())
    }

    /// Decimal, 0 to 65,535, no leading zero.
    fn number(&mut self) -> Option<u16> {
        let digits = self.0.iter().take_while(|b| b.is_ascii_digit()).count();
        let (number, rest) = self.0.split_at(digits);
        if digits > 1 && number[0] == b'0' {
            return None;
        }
        let value = std::str::from_utf8(number).ok()?.parse().ok()?;
        self.0 = rest;
        Some(value)
    }

    /// `Ta|r(Vb)|c`, `Ta|w(Vb)|c`, `Ta|fork(Tb)|c` or `Ta|join(Tb)|c` and a line feed: task, kind
    /// and operand.
    fn line(&mut self) -> Option<Event> {
        self.word(b"T")?;
        let task = self.number()?;
        let forms: [(&[u8], u8); 4] =
            [(b"|r(V", READ), (b"|w(V", WRITE), (b"|fork(T", FORK), (b"|join(T", JOIN)];
        let kind = forms.into_iter().find_map(|(form, kind)| self.word(form).map(|()| kind))?;
        let operand = self.number()?;
        self.word(b")|")?;
        self.number()?;
        self.word(b"\n")?;
        Some((task, kind, operand))
    }
}

/// The tasks above a place of the stack halt. The next lower one resumes each time.
fn halt_above(stack: &mut Vec<u16>, place: usize, trace: &mut Trace) {
    for at in (place + 1..stack.len()).rev() {
        trace.push(stack[at], HALT, stack[at - 1]);
    }
    stack.truncate(place + 1);
}

/// The whole text as a trace, or the refusal: 14 or 15 and the line's number from 0.
pub fn translate(text: &[u8]) -> Result<Trace, (usize, usize)> {
    let mut rest = Rest(text);
    let mut trace = Trace::default();
    let mut stack: Vec<u16> = vec![0];
    let mut number = 0;
    while !rest.0.is_empty() {
        let Some((task, kind, operand)) = rest.line() else {
            return Err((14, number));
        };
        if let Some(place) = stack.iter().rposition(|&t| t == task) {
            halt_above(&mut stack, place, &mut trace);
        }
        trace.push(task, kind, operand);
        if kind == FORK {
            stack.push(operand);
        }
        if trace.len() > MAX_TEXT_EVENTS {
            return Err((15, number));
        }
        number += 1;
    }
    Ok(trace)
}

/// The program's output for a trace of `events` events.
fn output(said: Answer, events: usize, orders: Option<(Vec<u16>, Vec<u16>)>) -> String {
    let mut output = match said {
        Answer::Clean => format!("clean {events}\n"),
        Answer::Race(s, t) => format!("race {s} {t}\n"),
        Answer::Refused(number, position) => format!("refused {number} {position}\n"),
    };
    for order in orders.into_iter().flat_map(|(first, second)| [first, second]) {
        let words: Vec<String> = order.iter().map(u16::to_string).collect();
        output += &words.join(" ");
        output.push('\n');
    }
    output
}

/// The whole output for a text, as the slow judge has it.
pub fn answer(text: &[u8]) -> String {
    match translate(text) {
        Err((number, line)) => output(Answer::Refused(number, line), 0, None),
        Ok(trace) => {
            let n = trace.len();
            let outcome = Ancestors::default().judge(&trace, WORKSPACE + n, n, n);
            output(outcome.said, n, outcome.orders)
        }
    }
}
