//! The library's translation of texts held against the slow judge's own.

use crate::compare::known;
use crate::reading::{Form, Reading, Slices, Wanted};
use racejudge_bench::ffi::TRANSLATION;
use racejudge_bench::rng::Rng;
use racejudge_bench::text::{translate, DECISIVE_BYTES, MAX_TEXT_EVENTS};
use racejudge_bench::trace::*;
use std::fmt;

pub const TEXTS: Form = Form {
    name: "text",
    readers: &[&TRANSLATION],
    need: |_| MAX_TEXT_EVENTS,
    wanted,
    behind: b"\n",
    bytes: b"0123456789TV|()rwforkjoin\n",
    answers: ["events", "refused 14", "refused 15", "short"],
    answer: |said| match said {
        Translation::Events(_) => 0,
        Translation::Refused(14, _) => 1,
        Translation::Refused(..) => 2,
        Translation::Short => 3,
    },
};

fn wanted(text: &[u8], lent: Slices) -> Wanted {
    if lent.into_iter().any(|cells| cells < MAX_TEXT_EVENTS) {
        return Wanted::nothing(Translation::Short);
    }
    translate(text).into()
}

pub fn all(texts: &mut Reading, times: usize) {
    document(texts);
    numbers(texts);
    limits(texts);
    slice_lengths(texts);
    random(texts, times);
}

/// The forms of a line, up to the operand.
const READS: &str = "r(V";
const WRITES: &str = "w(V";
const FORKS: &str = "fork(T";
const JOINS: &str = "join(T";

const DOCUMENT: &str = "T0|fork(T1)|10\nT1|w(V5)|20\nT0|r(V5)|30\n";
const LINE: &str = "T0|r(V5)|1\n";
const LONGEST: &str = "T65535|fork(T65535)|65535\n";

/// Some texts of the form.
pub const SHORT: [&str; 3] = [DOCUMENT, LINE, LONGEST];

fn document(texts: &mut Reading) {
    texts.expect(DOCUMENT, Translation::Events(4));
    texts.expect("", Translation::Events(0));
    // No line makes a sum.
    texts.expect("T0|s(V1)|1\n", Translation::Refused(14, 0));
    texts.expect("T0|sum(V1)|1\n", Translation::Refused(14, 0));
    for cut in 1..DOCUMENT.len() {
        texts.read(&DOCUMENT[..cut]);
    }
}

/// Numbers that are of the form or nearly, in each place of each line. The large ones are small
/// where they overflow.
fn numbers(texts: &mut Reading) {
    let good = ["0", "9", "10", "65535"].map(|number| (number, Translation::Events(1)));
    let bad =
        ["", "00", "01", "+1", "-1", " 1", "1 ", "1x", "65536", "70000", "655350", "4294967296"];
    let large = ["18446744073709551616", "340282366920938463463374607431768211457"];
    let bad = bad.into_iter().chain(large).map(|number| (number, Translation::Refused(14, 0)));
    for (number, said) in good.into_iter().chain(bad) {
        for form in [READS, WRITES, FORKS, JOINS] {
            for place in 0..3 {
                let mut numbers = ["7"; 3];
                numbers[place] = number;
                let [task, operand, source] = numbers;
                texts.expect(line(task, form, operand, source), said);
            }
        }
    }
}

fn line(
    task: impl fmt::Display,
    form: &str,
    operand: impl fmt::Display,
    source: impl fmt::Display,
) -> String {
    format!("T{task}|{form}{operand})|{source}\n")
}

/// As many events as a text may make and one more, by lines and by implied halts.
fn limits(texts: &mut Reading) {
    const MOST: usize = MAX_TEXT_EVENTS;
    for line in [LINE, LONGEST] {
        let most = line.repeat(MOST);
        texts.expect(&most[..], Translation::Events(MOST));
        texts.expect(line.repeat(MOST + 1), Translation::Refused(15, MOST));
        texts.expect(line.repeat(2 * MOST), Translation::Refused(15, MOST));
        // What is no line is no event.
        texts.expect(most.clone() + "\n", Translation::Refused(14, MOST));
        texts.expect(most + line.trim_end(), Translation::Refused(14, MOST));
    }
    let decisive = LONGEST.repeat(MOST + 1);
    known(decisive.len(), DECISIVE_BYTES, "the decisive bytes");
    texts.expect(&decisive[..DECISIVE_BYTES - 1], Translation::Refused(14, MOST));

    // So many forks, one in the other, are as many halts before the next line of task 0.
    for forks in [1, 2, 100, MOST / 2 - 1] {
        let most = nested(forks) + &LINE.repeat(MOST - 2 * forks);
        texts.expect(&most[..], Translation::Events(MOST));
        texts.expect(most + LINE, Translation::Refused(15, MOST - forks));
    }
    for forks in [MOST / 2, MOST / 2 + 1, MOST - 1, MOST] {
        texts.expect(nested(forks), Translation::Events(forks));
        texts.expect(nested(forks) + LINE, Translation::Refused(15, forks));
    }
    texts.expect(nested(MOST + 1), Translation::Refused(15, MOST));
}

/// Each task forks the next.
fn nested(forks: usize) -> String {
    (0..forks).map(|task| line(task, FORKS, task + 1, 1)).collect()
}

/// Slices of every length around the needed one in each place, whatever the text is.
fn slice_lengths(texts: &mut Reading) {
    const NEED: usize = MAX_TEXT_EVENTS;
    let (most, over) = (LINE.repeat(NEED), LINE.repeat(NEED + 1));
    for text in ["", DOCUMENT, "no line", &most, &over] {
        for place in 0..3 {
            for cells in [0, 1, NEED / 2].into_iter().chain(NEED - 9..NEED + 9).chain([2 * NEED]) {
                for others in [NEED, NEED + 1] {
                    let mut lent = [others; 3];
                    lent[place] = cells;
                    let short = texts.read_with(text, lent) == Translation::Short;
                    known(short, cells < NEED, format_args!("slices of {lent:?}"));
                }
            }
        }
        let near = [NEED - 1, NEED, NEED + 1];
        for kinds in near {
            for tasks in near {
                for operands in near {
                    texts.read_with(text, [kinds, tasks, operands]);
                }
            }
        }
    }
}

/// Texts of the form, short and long, the same damaged in one byte, and noise.
fn random(texts: &mut Reading, times: usize) {
    for (count, most) in [(20_000, 8), (4_000, 60), (400, MAX_TEXT_EVENTS + 50)] {
        for _ in 0..count * times {
            let text = lines(&mut texts.rng, most);
            texts.read_damaged(text, most);
        }
    }
}

/// A number of one to five digits.
fn number(rng: &mut Rng) -> u16 {
    let bound = rng.one_of(&[2, 10, 100, 1_000, 10_000, 65_536]);
    rng.cell(bound)
}

/// Up to `most` lines of the form. Mostly the task that was forked last acts; one below it implies
/// halts. Few forks or many.
pub fn lines(rng: &mut Rng, most: usize) -> Vec<u8> {
    let forks = rng.one_of(&[0, 1, 10, 50]);
    let mut stack = vec![0];
    let mut text = String::new();
    for _ in 0..rng.below(most + 1) {
        if rng.chance(1, 8) {
            stack.truncate(1 + rng.below(stack.len()));
        }
        let top = stack[stack.len() - 1];
        let task = if rng.chance(1, 40) { number(rng) } else { top };
        let (operand, source) = (number(rng), number(rng));
        let form = if rng.chance(forks, 100) {
            stack.push(operand);
            FORKS
        } else {
            [READS, WRITES, JOINS][rng.below(3)]
        };
        text += &line(task, form, operand, source);
    }
    text.into_bytes()
}
