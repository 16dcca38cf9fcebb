//! A line that is not of the text form: what stands where it stops being so, and what that probably
//! comes from.

use super::form::{fitting, is_operation, Wanted};
use super::refusal::Hint;
use crate::phrases;
use racejudge::Plan;

/// What a recorder may write for a sum, which only the binary form has.
const SUM_OPERATIONS: [&str; 3] = ["s", "sum", "add"];
/// Operations of the STD format that the form does not have.
const LOCK_OPERATIONS: [&str; 3] = ["acq", "rel", "req"];
const OTHER_OPERATIONS: [&str; 6] = ["begin", "end", "branch", "enter", "exit", "dummy"];

pub const BYTE_ORDER_MARK: &[u8] = b"\xef\xbb\xbf";

/// A line of a text, without its line feed.
#[derive(Clone, Copy)]
pub struct Line<'a> {
    pub bytes: &'a [u8],
    /// It has a line feed; else the text ends with it.
    pub is_ended: bool,
    /// It is the first of the text.
    pub is_first: bool,
}

/// A line that is not of the form.
pub struct Misfit {
    /// The first byte that does not fit: what stands before it is the beginning of some line of the
    /// form, and with it no more.
    pub at: usize,
    /// What stands there, or does not: a clause that begins with a word of its own, so that it may
    /// have a large letter.
    pub found: String,
    pub hint: Hint,
}

impl Misfit {
    pub fn of(line: Line) -> Misfit {
        let (at, wanted) = fitting(line.bytes);
        let (found, hint) = broken_off(line, at, wanted)
            .or_else(|| no_text(line, at))
            .or_else(|| too_short(line.bytes, at, wanted))
            .or_else(|| unseen(&line.bytes[at..], wanted))
            .or_else(|| hexadecimal(line.bytes, at, wanted))
            .unwrap_or_else(|| instead_of(line.bytes, at, wanted));
        Misfit { at, found, hint }
    }
}

/// What is found, and what that usually comes from.
type Told = (String, Hint);

pub const fn hint(cause: &'static str, advice: &'static str) -> Hint {
    Hint { cause, advice }
}

const NO_END: Hint = hint(
    "the file was cut off, or its last line was written without its end",
    "If the line is whole, add a line feed behind it.",
);
const CUT_OFF: Hint = hint(
    "the file breaks off: the recording was stopped, the disk was full, or a copy was cut",
    "Without this line, what stands before it can be judged.",
);
pub const MARK: Hint = hint("an editor put it there", "Save the file as plain text without it.");
const MARK_WITHIN: Hint =
    hint("files with such marks at their beginnings were put together", "Take it out.");
const NO_TEXT: Hint =
    hint("it is a binary trace whose first four bytes are damaged, or a file of another kind", "");
const EMPTY: Hint =
    hint("", "There may be no empty line, not even at the end of the file. Remove it.");
const TOO_SHORT: Hint = hint("the recorder left out the rest of the line", "");
const NO_SOURCE: Hint = hint("the recorder left out the source line", "");
pub const WINDOWS: Hint = hint(
    "the file has the line ends of Windows",
    "Take the carriage returns out, with dos2unix or with tr -d '\\r'.",
);
const NO_LINE_FEEDS: Hint = hint(
    "the file has carriage returns where line feeds belong",
    "Change them, with mac2unix or with tr '\\r' '\\n'.",
);
const NO_BLANKS: Hint = hint("", "There may be no blanks and no tabs in a line, nor around it.");
const LETTERS: Hint = hint("", "Tasks are written with a large T, locations with a large V.");
const NUMBERS: Hint = hint(
    "the recorder numbers what it sees in another way",
    "Numbers are decimal, from 0 to 65,535, without leading zeros.",
);
const SUMS: Hint = hint(
    "the recorder writes sums",
    "No line of a text makes a sum. The binary form has them, as kind 5.",
);
const LOCKS: Hint = hint(
    "the trace is of the full STD format",
    "Locks are not part of the form. Leave their lines out: a clean answer still holds then, but a \
     race may be one that a lock keeps apart.",
);
const FULL_FORMAT: Hint =
    hint("the trace is of the full STD format", "Leave the lines of this operation out.");
const SMALL_LETTERS: Hint = hint("", "Operations are written in small letters.");
const PLAN: Hint = hint("the file is a plan", "Plans are judged by judge plan FILE.");
const TOO_LONG: Hint =
    hint("something was added to the line, or a line feed is missing between two lines", "");
const NO_TRACE: Hint =
    hint("the line is damaged, or is a heading, a comment or another format", "");
const OTHER_FORM: Hint = hint("the line is damaged, or the recorder writes another form", "");

/// The text ends with the line, which is of the form as far as it goes. That is asked first: what
/// would follow is not known.
fn broken_off(line: Line, at: usize, wanted: Wanted) -> Option<Told> {
    let is_broken = !line.is_ended && at == line.bytes.len();
    is_broken.then(|| match wanted {
        Wanted::End => ("the file ends here, with no line feed".into(), NO_END),
        _ => {
            let advice = if line.is_first { "" } else { CUT_OFF.advice };
            let hint = Hint { advice, ..CUT_OFF };
            ("the file breaks off here, in the middle of a line".into(), hint)
        }
    })
}

/// What is no letter of a text.
fn no_text(line: Line, at: usize) -> Option<Told> {
    let is_marked = line.bytes[at..].starts_with(BYTE_ORDER_MARK);
    if is_marked && line.is_first && at == 0 {
        Some(("the file begins with a byte-order mark".into(), MARK))
    } else if is_marked {
        Some(("a byte-order mark stands here".into(), MARK_WITHIN))
    } else if line.is_first && !is_text(line.bytes) {
        Some(("the file is no text: this line has bytes that no text has".into(), NO_TEXT))
    } else {
        None
    }
}

/// Letters and signs of any language are text too, as in a heading.
fn is_text(line: &[u8]) -> bool {
    let is_letter = |letter: char| !letter.is_control() || matches!(letter, '\t' | '\r');
    std::str::from_utf8(line).is_ok_and(|text| text.chars().all(is_letter))
}

fn too_short(line: &[u8], at: usize, wanted: Wanted) -> Option<Told> {
    let is_short = at == line.len();
    is_short.then(|| match (line.last(), wanted) {
        (None, _) => ("the line is empty".into(), EMPTY),
        (_, Wanted::Source) | (Some(b'|'), Wanted::Number) => {
            ("the line ends here, with no source line".into(), NO_SOURCE)
        }
        _ => ("the line ends here, too early".into(), TOO_SHORT),
    })
}

/// What a reader of the line may not see.
fn unseen(rest: &[u8], wanted: Wanted) -> Option<Told> {
    if rest == b"\r" {
        return Some(("a carriage return stands at the end of the line".into(), WINDOWS));
    }
    let byte = *rest.first()?;
    let hint = match (byte, wanted) {
        (b'\r', _) => NO_LINE_FEEDS,
        (b' ' | b'\t', _) => NO_BLANKS,
        (_, Wanted::Task) => NO_TRACE,
        _ => OTHER_FORM,
    };
    Some((phrases::unseen(byte)?, hint))
}

/// A number goes on with letters, as 0x1F and 1F do.
fn hexadecimal(line: &[u8], at: usize, wanted: Wanted) -> Option<Told> {
    if !matches!(wanted, Wanted::Operation | Wanted::Closed | Wanted::End) {
        return None;
    }
    let begins = line[..at].iter().rposition(|byte| !byte.is_ascii_digit())? + 1;
    let number = start(&line[begins..], u8::is_ascii_alphanumeric).to_ascii_lowercase();
    let digits = number.strip_prefix("0x").unwrap_or(&number);
    let ends = begins + number.len();
    let is_number = ends > at && digits.bytes().all(|byte| byte.is_ascii_hexdigit());
    let is_closed = matches!(line.get(ends), None | Some(b'|' | b')'));
    (is_number && is_closed).then(|| ("a letter stands here, in a number".into(), NUMBERS))
}

/// What stands in the place of what is wanted.
fn instead_of(line: &[u8], at: usize, wanted: Wanted) -> Told {
    let rest = &line[at..];
    match wanted {
        Wanted::Task => task(rest),
        // `Trace of run 7` begins like a line.
        Wanted::Number if at == 1 => ("a number should stand here".into(), NO_TRACE),
        Wanted::Number => ("a number should stand here".into(), NUMBERS),
        Wanted::Smaller(start) if line[start] == b'0' => {
            ("a digit stands here, behind a leading zero".into(), NUMBERS)
        }
        Wanted::Smaller(_) => {
            ("a digit stands here that makes the number too large".into(), NUMBERS)
        }
        Wanted::Operation => ("a | should stand here, behind the task".into(), OTHER_FORM),
        Wanted::Name(start) => operation(&line[start..]),
        Wanted::Letter(wanted) => (letter(wanted, rest), LETTERS),
        Wanted::Closed => ("a ) should stand here, behind the number".into(), OTHER_FORM),
        Wanted::Source => ("a | should stand here, before the source line".into(), OTHER_FORM),
        Wanted::End => ("the line should end here, behind the source line".into(), TOO_LONG),
    }
}

fn task(rest: &[u8]) -> Told {
    match rest {
        [b't', ..] => ("a small t stands here".into(), LETTERS),
        [b'0'..=b'9', ..] => ("the T before the task's number is missing".into(), LETTERS),
        _ if Plan::parse(rest).is_ok() => ("a plan stands here".into(), PLAN),
        _ => ("a line begins with T and a number".into(), NO_TRACE),
    }
}

/// What is wrong with the operation that these bytes begin with.
fn operation(bytes: &[u8]) -> Told {
    let name = start(bytes, u8::is_ascii_alphabetic);
    let small = name.to_ascii_lowercase();
    let is_among = |names: &[&str]| names.contains(&small.as_str());
    if is_among(&SUM_OPERATIONS) {
        (format!("the operation {name} is not part of the form"), SUMS)
    } else if is_among(&LOCK_OPERATIONS) {
        (format!("the operation {name} is not part of the form"), LOCKS)
    } else if is_among(&OTHER_OPERATIONS) {
        (format!("the operation {name} is not part of the form"), FULL_FORMAT)
    } else if !is_operation(&small) {
        ("the operation should be r, w, fork or join".into(), OTHER_FORM)
    } else if name != small {
        (format!("the operation {name} has a large letter"), SMALL_LETTERS)
    } else {
        ("a ( should stand here, behind the operation".into(), OTHER_FORM)
    }
}

fn letter(wanted: &str, rest: &[u8]) -> String {
    match rest {
        [b'0'..=b'9', ..] => format!("the {wanted} before the number is missing"),
        _ => format!("a large {wanted} should stand here"),
    }
}

/// What the bytes begin with: digits, or letters.
fn start(bytes: &[u8], belongs: impl Fn(&u8) -> bool) -> String {
    bytes.iter().take_while(|&byte| belongs(byte)).map(|&byte| char::from(byte)).collect()
}

#[cfg(test)]
mod tests {
    use super::*;

    fn second(bytes: &[u8], is_ended: bool) -> Misfit {
        Misfit::of(Line { bytes, is_ended, is_first: false })
    }

    /// Where the line stops being of the form, and what is found there.
    #[track_caller]
    fn check(line: &str, is_ended: bool, at: usize, found: &str) {
        let misfit = second(line.as_bytes(), is_ended);
        assert_eq!((misfit.at, misfit.found.as_str()), (at, found), "{line:?}");
    }

    #[test]
    fn each_part_of_a_line_is_found_missing() {
        check("", true, 0, "the line is empty");
        check("x", true, 0, "a line begins with T and a number");
        check("t0|r(V5)|1", true, 0, "a small t stands here");
        check("0|r(V5)|1", true, 0, "the T before the task's number is missing");
        check("T|r(V5)|1", true, 1, "a number should stand here");
        check("T0r(V5)|1", true, 2, "a | should stand here, behind the task");
        check("T0|x(V5)|1", true, 3, "the operation should be r, w, fork or join");
        check("T0|rr(V5)|1", true, 4, "the operation should be r, w, fork or join");
        check("T0|for(T1)|1", true, 6, "the operation should be r, w, fork or join");
        check("T0|fork[T1]|1", true, 7, "a ( should stand here, behind the operation");
        check("T0|r(5)|1", true, 5, "the V before the number is missing");
        check("T0|fork(1)|1", true, 8, "the T before the number is missing");
        check("T0|w(v5)|1", true, 5, "a large V should stand here");
        check("T0|fork(V1)|1", true, 8, "a large T should stand here");
        check("T0|r(V5|1", true, 7, "a ) should stand here, behind the number");
        check("T0|r(V5)1", true, 8, "a | should stand here, before the source line");
        check("T0|r(V5)|x", true, 9, "a number should stand here");
        check("T0|r(V5)|1|", true, 10, "the line should end here, behind the source line");
        check("T0|r(V", true, 6, "the line ends here, too early");
        check("T0|", true, 3, "the line ends here, too early");
        check("T0|r(V5)", true, 8, "the line ends here, with no source line");
        check("T0|r(V5)|", true, 9, "the line ends here, with no source line");
    }

    #[test]
    fn numbers_keep_their_bounds() {
        check("T00|r(V5)|1", true, 2, "a digit stands here, behind a leading zero");
        check("T0|r(V05)|1", true, 7, "a digit stands here, behind a leading zero");
        check("T0|r(V5)|65535", false, 14, "the file ends here, with no line feed");
        check("T0|r(V5)|65536", true, 13, "a digit stands here that makes the number too large");
        check("T999999|r(V5)|1", true, 5, "a digit stands here that makes the number too large");
        check("T655350|r(V5)|1", true, 6, "a digit stands here that makes the number too large");
        for (line, at) in [("T0|r(V0x1F)|1", 7), ("T1f|r(V1)|1", 2), ("T0|r(V1)|1F", 10)] {
            check(line, true, at, "a letter stands here, in a number");
        }
    }

    #[test]
    fn operations_of_the_std_format_are_known() {
        check("T0|acq(L1)|1", true, 3, "the operation acq is not part of the form");
        check("T0|rel(L1)|1", true, 4, "the operation rel is not part of the form");
        check("T0|begin(1)|1", true, 3, "the operation begin is not part of the form");
        check("T0|Fork(T1)|1", true, 3, "the operation Fork has a large letter");
        check("T0|fOrk(T1)|1", true, 4, "the operation fOrk has a large letter");
        assert!(second(b"T0|rel(L1)|1", true).hint.advice.starts_with("Locks"));
    }

    #[test]
    fn sums_are_known_to_be_of_the_binary_form() {
        check("T0|s(V1)|1", true, 3, "the operation s is not part of the form");
        check("T0|SUM(V1)|1", true, 3, "the operation SUM is not part of the form");
        check("T0|add(V1)|1", true, 3, "the operation add is not part of the form");
        let advice = second(b"T0|s(V1)|1", true).hint.advice;
        assert!(advice.contains("kind 5"), "{advice}");
        check("T0|su(V1)|1", true, 3, "the operation should be r, w, fork or join");
    }

    #[test]
    fn bytes_that_are_not_seen_are_named() {
        check("T0|r(V5)|1\r", true, 10, "a carriage return stands at the end of the line");
        check("T0|r(V5)|1\rT0", true, 10, "a carriage return stands here");
        check("T0 |r(V5)|1", true, 2, "a blank stands here");
        check("T0|r(V5)|1\t", true, 10, "a tab stands here");
        check("T0|r(V\u{1}5)|1", true, 6, "the byte 0x01 stands here");
        check("\u{feff}T0|r(V5)|1", true, 0, "a byte-order mark stands here");
    }

    /// Whatever it stops in, a text that breaks off says so.
    #[test]
    fn the_beginning_of_a_line_breaks_off() {
        let line = "T10|fork(T12)|34";
        for at in 1..line.len() - 1 {
            check(&line[..at], false, at, "the file breaks off here, in the middle of a line");
            assert!(second(&line.as_bytes()[..at], false).hint.cause.contains("breaks off"));
        }
        check(line, false, line.len(), "the file ends here, with no line feed");
    }
}
