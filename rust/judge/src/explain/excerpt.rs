//! What is shown of a text that may be long, with marks beneath.

use crate::phrases::{fitting, visible};
use std::ops::Range;

/// Stands for what is left out. No plan has it.
const CUT: &str = "..";

/// The marked parts of a text with so many letters before and behind each, and a row of marks beneath
/// them. A mark may stand at the text's end.
pub fn excerpt(text: &[u8], marked: &[Range<usize>], [before, behind]: [usize; 2]) -> [String; 2] {
    let shown = shown(text, marked, [before, behind]);
    let (mut letters, mut marks, mut end) = (String::new(), String::new(), 0);
    for part in shown {
        letters += if part.start > end { CUT } else { "" };
        end = part.end;
        for at in part {
            let letter = text.get(at..=at).map_or(String::new(), visible);
            if marked.iter().any(|range| range.contains(&at)) {
                let sign = "^".repeat(letter.len().max(1));
                marks = format!("{marks:<0$}{sign}", letters.len());
            }
            letters += &letter;
        }
    }
    letters += if end < text.len() { CUT } else { "" };
    [letters, marks]
}

/// The parts that are shown, in their order and with gaps between them that are worth it.
fn shown(text: &[u8], marked: &[Range<usize>], [before, behind]: [usize; 2]) -> Vec<Range<usize>> {
    let widened = |range: &Range<usize>| {
        let rest = text.get(range.start..).unwrap_or_default();
        let start = range.start.saturating_sub(before);
        start..range.end.max(range.start + fitting(rest, range.len() + behind))
    };
    let mut parts: Vec<Range<usize>> = marked.iter().map(widened).collect();
    parts.sort_by_key(|part| part.start);
    parts.dedup_by(|next, part| {
        let is_near = next.start <= part.end + CUT.len();
        part.end = if is_near { part.end.max(next.end) } else { part.end };
        is_near
    });
    if let Some(first) = parts.first_mut().filter(|first| first.start <= CUT.len()) {
        first.start = 0;
    }
    parts
}

#[cfg(test)]
mod tests {
    use super::*;

    fn byte(at: usize) -> Range<usize> {
        at..at + 1
    }

    #[track_caller]
    fn check(text: &str, marked: &[Range<usize>], around: [usize; 2], wanted: [&str; 2]) {
        assert_eq!(excerpt(text.as_bytes(), marked, around), wanted);
    }

    #[test]
    fn short_texts_are_shown_whole() {
        check("P(w3,r3)", &[2..4, 5..7, 0..1], [98, 98], ["P(w3,r3)", "^ ^^ ^^"]);
        check("S(r1,", &[byte(5)], [98, 98], ["S(r1,", "     ^"]);
        check("", &[byte(0)], [98, 98], ["", "^"]);
        check("r1\n", &[byte(2)], [98, 98], ["r1\\x0a", "  ^^^^"]);
    }

    #[test]
    fn long_texts_are_shown_around_the_marks() {
        check("0123456789", &[byte(5)], [1, 2], ["..4567..", "   ^"]);
        check("0123456789", &[byte(3)], [1, 2], ["012345..", "   ^"]);
        check("0123456789", &[1..2, 8..9], [0, 0], ["01..8..", " ^  ^"]);
        check("0123456789", &[9..10, 4..5], [0, 1], ["..45..9", "  ^   ^"]);
        check("0123456789", &[7..8, 4..5], [0, 0], ["..4567..", "  ^  ^"]);
        check("0123456789", &[byte(10)], [2, 9], ["..89", "    ^"]);
    }

    #[test]
    fn what_is_escaped_takes_more_room() {
        let [shown, marks] = excerpt(b"r1\xff\xff\xff\xff", &[byte(2)], [9, 8]);
        assert_eq!((shown.as_str(), marks.as_str()), ("r1\\xff\\xff..", "  ^^^^"));
    }
}
