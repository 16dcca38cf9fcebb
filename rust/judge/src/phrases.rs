//! Words for events, tasks, numbers and bytes.

use racejudge::{Event, Kind, Leaf, Pair, Place, Trace};
use std::ffi::OsStr;

/// What an access does to its location, which follows.
pub fn verb(kind: Kind) -> Option<&'static str> {
    match kind {
        Kind::Read => Some("reads"),
        Kind::Write => Some("writes"),
        Kind::Sum => Some("adds to"),
        Kind::Fork | Kind::Join | Kind::Halt => None,
    }
}

/// What the event does, in words.
pub fn deed(event: Event) -> String {
    let Event { kind, task, operand } = event;
    if let Some(verb) = event.kind().and_then(verb) {
        return format!("task {task} {verb} location {operand}");
    }
    match event.kind() {
        Some(Kind::Fork) => format!("task {task} forks task {operand}"),
        Some(Kind::Join) => format!("task {task} joins task {operand}"),
        // Nothing resumes when task 0 has ended.
        Some(Kind::Halt) if (task, operand) == (0, 0) => "task 0 halts".to_string(),
        Some(Kind::Halt) => format!("task {task} halts, task {operand} resumes"),
        _ => format!("task {task} does something of kind {kind} with {operand}"),
    }
}

/// `the w3 at byte 2`.
pub fn leaf(leaf: &Leaf) -> String {
    format!("the {leaf} at byte {}", leaf.position)
}

/// Whether a task of the trace adds to a location, so that sums are to be spoken of.
pub fn has_sums(trace: &Trace) -> bool {
    trace.kinds().contains(&Kind::Sum.number())
}

/// The line that made event p, from 1 as people count, and its source line. A halt has none: it was
/// put in before that of the event behind it.
pub fn place(trace: &Trace, p: usize) -> Option<Place> {
    let made = trace.event(p)?.kind() != Some(Kind::Halt);
    let place = trace.place(p).filter(|_| made)?;
    Some(Place { line: place.line + 1, ..place })
}

/// `task 5`, or `tasks 5, 4 and 3`; of many the first few and the last.
pub fn tasks(tasks: &[u16]) -> String {
    const MOST: usize = 12;
    match tasks {
        [] => "no task".to_string(),
        [one] => format!("task {one}"),
        [shown @ .., last] if tasks.len() <= MOST => format!("tasks {} and {last}", list(shown)),
        [shown @ .., last] => {
            format!("tasks {}, .. and {last} ({} in all)", list(&shown[..MOST - 2]), tasks.len())
        }
    }
}

fn list(numbers: &[u16]) -> String {
    numbers.iter().map(u16::to_string).collect::<Vec<_>>().join(", ")
}

/// `1 event`, `1,234 events`, `2 accesses`, `3 leaves`.
pub fn count(number: usize, one: &str) -> String {
    let (stem, end) = match (number, one.strip_suffix('f')) {
        (1, _) => (one, ""),
        (_, Some(stem)) => (stem, "ves"),
        _ if one.ends_with('s') => (one, "es"),
        _ => (one, "s"),
    };
    format!("{} {stem}{end}", grouped(number))
}

/// A number as people write it, `32,768`.
pub fn grouped(number: usize) -> String {
    match number {
        0..1_000 => number.to_string(),
        _ => format!("{},{:03}", grouped(number / 1_000), number % 1_000),
    }
}

/// What is known of the events before one that is refused.
pub fn clean_before(p: usize) -> String {
    format!("No two accesses before event {p} race.")
}

/// That the first race is not among the close pairs.
pub fn first_is_far(Pair { s, t }: Pair) -> String {
    format!("The first race of the trace is farther apart: events {s} and {t}.")
}

/// A sentence's first letter made large.
pub fn capital(sentence: &str) -> String {
    let mut letters = sentence.chars();
    letters.next().map_or(String::new(), |first| first.to_uppercase().chain(letters).collect())
}

/// The bytes of a line as they may go to a terminal: all but visible letters and blanks escaped.
pub fn visible(line: &[u8]) -> String {
    let letter = |&byte: &u8| match byte {
        b'\r' => "\\r".to_string(),
        b'\t' => "\\t".to_string(),
        b' '..=b'~' => char::from(byte).to_string(),
        _ => format!("\\x{byte:02x}"),
    };
    line.iter().map(letter).collect()
}

/// So many of the first bytes fit in a width, as they may go to a terminal.
pub fn fitting(line: &[u8], width: usize) -> usize {
    let fits = |end: &usize| visible(&line[..*end]).len() <= width;
    (0..=line.len().min(width)).rev().find(fits).unwrap_or(0)
}

/// What stands where a reader of a text may not see it, as a clause.
pub fn unseen(byte: u8) -> Option<String> {
    Some(match byte {
        b'\n' => "a line feed stands here".to_string(),
        b'\r' => "a carriage return stands here".to_string(),
        b' ' => "a blank stands here".to_string(),
        b'\t' => "a tab stands here".to_string(),
        _ if byte.is_ascii_graphic() => return None,
        _ => format!("the byte {byte:#04x} stands here"),
    })
}

/// A name as it may go to a terminal: what would not be seen as itself is escaped, and so is the
/// escape.
pub fn printable(name: &OsStr) -> String {
    let mut printable = String::new();
    for letter in name.to_string_lossy().chars() {
        if letter == '\\' || misleads(letter) {
            printable.extend(letter.escape_default());
        } else {
            printable.push(letter);
        }
    }
    printable
}

/// Controls, letters of no width, those that end a line or turn the direction of the text around
/// them, and what is no character.
pub fn misleads(letter: char) -> bool {
    let unseen = matches!(letter, '\u{200b}'..='\u{200f}' | '\u{2060}'..='\u{206f}' | '\u{feff}');
    let turns = matches!(letter, '\u{2028}'..='\u{202e}');
    let none = u32::from(letter) & 0xfffe == 0xfffe || matches!(letter, '\u{fdd0}'..='\u{fdef}');
    letter.is_control() || unseen || turns || none
}

/// The text in lines that fit, broken at blanks; a word that does not fit has a line of its own.
pub fn wrapped(text: &str, fits: impl Fn(&str) -> bool) -> Vec<String> {
    let mut lines: Vec<String> = Vec::new();
    for word in text.split_whitespace() {
        let longer = lines.last().map(|line| format!("{line} {word}"));
        match (lines.last_mut(), longer) {
            (Some(line), Some(longer)) if fits(&longer) => *line = longer,
            _ => lines.push(word.to_string()),
        }
    }
    lines
}

#[cfg(test)]
mod tests {
    use super::*;

    #[test]
    fn a_halt_says_who_resumes() {
        let deeds = [Event::halt(2, 1), Event::halt(1, 0), Event::halt(0, 0), Event::halt(0, 7)];
        let words = [
            "task 2 halts, task 1 resumes",
            "task 1 halts, task 0 resumes",
            "task 0 halts",
            "task 0 halts, task 7 resumes",
        ];
        assert_eq!(deeds.map(deed), words);
    }

    #[test]
    fn limits_are_grouped() {
        assert_eq!([0, 999, 1_023, 1_000_007].map(grouped), ["0", "999", "1,023", "1,000,007"]);
    }

    #[test]
    fn one_is_no_plural() {
        assert_eq!([0, 1, 2].map(|it| count(it, "event")), ["0 events", "1 event", "2 events"]);
        assert_eq!([1, 1_234].map(|it| count(it, "access")), ["1 access", "1,234 accesses"]);
        assert_eq!([1, 2].map(|it| count(it, "leaf")), ["1 leaf", "2 leaves"]);
    }

    #[test]
    fn many_tasks_are_cut() {
        assert_eq!(tasks(&[]), "no task");
        assert_eq!(tasks(&[7]), "task 7");
        assert_eq!(tasks(&[3, 2, 1]), "tasks 3, 2 and 1");
        let many: Vec<u16> = (1..=13).collect();
        assert_eq!(tasks(&many), "tasks 1, 2, 3, 4, 5, 6, 7, 8, 9, 10, .. and 13 (13 in all)");
    }

    #[test]
    fn a_name_is_seen_as_it_is() {
        assert_eq!(printable("a b-é.std".as_ref()), "a b-é.std");
        assert_eq!(printable("\n".as_ref()), "\\n");
        assert_eq!(printable("\\n".as_ref()), "\\\\n");
        assert_eq!(printable("\u{202e}\u{200b}\u{2028}".as_ref()), "\\u{202e}\\u{200b}\\u{2028}");
    }

    #[test]
    fn lines_are_broken_at_blanks() {
        let fits = |line: &str| line.len() <= 5;
        assert_eq!(wrapped("a bc def ghijklm n", fits), ["a bc", "def", "ghijklm", "n"]);
        assert!(wrapped("", fits).is_empty());
    }

    #[test]
    fn no_byte_of_a_line_reaches_the_terminal_as_a_control() {
        assert_eq!(visible(b"T0|r(V5)|1\r"), "T0|r(V5)|1\\r");
        assert_eq!(visible(b"a \t\x1b[2J\x00\x7f\xc3\xa9"), "a \\t\\x1b[2J\\x00\\x7f\\xc3\\xa9");
        let all: Vec<u8> = (0..=255).collect();
        assert!(visible(&all).bytes().all(|byte| (b' '..=b'~').contains(&byte)));
    }
}
