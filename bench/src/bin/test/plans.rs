//! The plan reader held against the slow one: every short text, every plan with one byte wrong,
//! locations, depths, the limits, slices of every length, and plans at random.

use crate::compare::known;
use crate::document::trace;
use crate::reading::{Form, Reading, Slices};
use racejudge_bench::ffi::{PLAN, PLAN_C};
use racejudge_bench::grammar::{self, Language};
use racejudge_bench::plan::{Operator, Plan, LETTERS, MAX_DEPTH};
use racejudge_bench::shapes::{self, Mix, Split, SHAPES, SPLITS};
use racejudge_bench::trace::Translation::{Events, Refused};
use racejudge_bench::trace::*;
use std::collections::HashSet;

pub const PLANS: Form = Form {
    name: "plan",
    readers: &[&PLAN, &PLAN_C],
    need: |text| grammar::read(text).map_or(0, |plan| plan.events()),
    wanted: |text, lent| grammar::translate(text, lent).into(),
    behind: b"0,)",
    bytes: b"0123456789rwsSP(),",
    answers: ["events", "refused 17", "refused 18", "refused 19"],
    answer: |said| match said {
        Refused(row, _) => row - 16,
        _ => 0,
    },
};

pub fn all(plans: &mut Reading, times: usize) {
    every_short(plans);
    every_slip(plans);
    locations(plans);
    depths(plans);
    limits(plans);
    slice_lengths(plans);
    shapes(plans);
    random(plans, times);
}

/// Plans with their events, in document 01's notation.
pub const RUNS: [(&str, &str); 7] = [
    ("w1023", "0 write 1023"),
    ("S(s0,r10)", "0 sum 0, 0 read 10"),
    ("S(w3,P(r3,r3))", "0 write 3, 0 fork 1, 1 read 3, 1 halt, 0 read 3, 0 join 1"),
    (
        "P(P(r1,w2),s3)",
        "0 fork 1, 1 fork 2, 2 read 1, 2 halt 1, 1 write 2, 1 join 2, 1 halt, 0 sum 3, 0 join 1",
    ),
    (
        "P(P(P(r1,w2),s3),r4)",
        "0 fork 1, 1 fork 2, 2 fork 3, 3 read 1, 3 halt 2, 2 write 2, 2 join 3, 2 halt 1, \
         1 sum 3, 1 join 2, 1 halt, 0 read 4, 0 join 1",
    ),
    (
        "P(r1,P(w2,s3))",
        "0 fork 1, 1 read 1, 1 halt, 0 fork 2, 2 write 2, 2 halt, 0 sum 3, 0 join 2, 0 join 1",
    ),
    (
        "S(P(r1,w2),P(s3,r4))",
        "0 fork 1, 1 read 1, 1 halt, 0 write 2, 0 join 1, \
         0 fork 2, 2 sum 3, 2 halt, 0 read 4, 0 join 2",
    ),
];

/// What is no plan, and the byte at which that shows.
const STRAYS: [(&str, usize); 16] = [
    ("", 0),
    ("r", 1),
    ("r01", 2),
    ("r1024", 4),
    ("r3\n", 2),
    (" r3", 0),
    ("r3r3", 2),
    ("R3", 0),
    ("x(r3,r3)", 0),
    ("S", 1),
    ("S(r3)", 4),
    ("S(r3,)", 5),
    ("S(r3, r3)", 5),
    ("S(r3,r3", 7),
    ("S(r3,r3,r3)", 7),
    ("S(r3,r3))", 8),
];

/// What the owner's sentences say of these, by hand.
pub fn runs(plans: &mut Reading) {
    for (plan, run) in RUNS {
        let events = trace(run);
        plans.expect(plan, Events(events.len()));
        known(grammar::translate(plan.as_bytes(), [events.len(); 3]), Ok(events), plan);
    }
    for (text, at) in STRAYS {
        plans.expect(text, Refused(17, at));
    }
}

/// Few bytes, which still make leaves of every length, and one that no plan has.
const FEW: &[u8] = b"rwsSP(),012\n";

/// Every text of up to 6 of these bytes; and all of them that begins a plan, with each byte behind it
/// but for the other digits: then that one alone can be wrong.
fn every_short(plans: &mut Reading) {
    let language = Language::over(FEW, 10);
    let mut texts = vec![Vec::new()];
    while let Some(text) = texts.pop() {
        plans.expect(&text[..], language.said(&text));
        if text.len() < 6 {
            texts.extend(FEW.iter().map(|&byte| [&text[..], &[byte]].concat()));
        }
    }
    let digit = |byte: &u8| byte.is_ascii_digit() && !FEW.contains(byte);
    let any: Vec<u8> = any_byte().into_iter().filter(|byte| !digit(byte)).collect();
    for text in language.begun().filter(|text| text.len() < 10) {
        for &byte in if text.len() < 8 { &any } else { FEW } {
            let longer = [&text[..], &[byte]].concat();
            plans.expect(&longer[..], language.said(&longer));
        }
    }
}

/// Letters, the most of them that a word has, how many words that makes and how many of them are plans.
const WORDS: [(&[&str], u32, usize, usize); 3] = [
    (&["S", "P", "(", ",", ")", "r", "0", "1"], 6, 299_593, 12),
    (&["r", "w", "s", "0", "1", "2", "3", "4", "9"], 6, 597_871, 696),
    (&["S(", "P(", ",", ")", "w1"], 9, 2_441_406, 11),
];

/// Every word over few letters, also what follows a wrong byte.
pub fn every_word(plans: &mut Reading) {
    for (letters, most, words, accepted) in WORDS {
        let mut met = [0; 2];
        for length in 0..=most {
            for number in 0..letters.len().pow(length) {
                let said = plans.read(word(letters, length, number));
                met[usize::from(matches!(said, Events(_)))] += 1;
            }
        }
        known(met, [words - accepted, accepted], format_args!("words over {letters:?}"));
    }
}

/// The word of so many letters that has this number.
fn word(letters: &[&str], length: u32, mut number: usize) -> String {
    let mut word = String::new();
    for _ in 0..length {
        word += letters[number % letters.len()];
        number /= letters.len();
    }
    word
}

fn any_byte() -> [u8; 256] {
    std::array::from_fn(|byte| byte as u8)
}

/// Plans of up to four leaves, cut at each place, and with each byte taken out, changed or put in.
fn every_slip(plans: &mut Reading) {
    let any = any_byte();
    for plan in Language::over(b"w1", 20).plans() {
        for at in 0..=plan.len() {
            let (before, after) = plan.split_at(at);
            let rest = &after[after.len().min(1)..];
            plans.read(before);
            plans.read([before, rest].concat());
            for &byte in if plan.len() < 15 { &any } else { FEW } {
                plans.read([before, &[byte], rest].concat());
                plans.read([before, &[byte], after].concat());
            }
        }
    }
}

/// A leaf alone and in either operand: what comes before it and after it, and the events of all.
const PLACES: [(&str, &str, usize); 3] = [("", "", 1), ("S(", ",r0)", 2), ("P(r0,", ")", 5)];

/// Each location and the first that are too large, the same with a zero in front, digits without end,
/// and what is small where it overflows.
fn locations(plans: &mut Reading) {
    let good: HashSet<String> = (0..LOCATIONS).map(|location| location.to_string()).collect();
    let near = (0..1_100).flat_map(|number| [format!("{number}"), format!("0{number}")]);
    let long = (3..=30).flat_map(|digits| ["0", "1", "9"].map(|digit| digit.repeat(digits)));
    let wrapped = ["65536", "65600", "4294967297", "18446744073709551617"].map(String::from);
    for number in near.chain(long).chain(wrapped) {
        let taken = (1..=number.len()).rev().find(|&n| good.contains(&number[..n]));
        let taken = taken.expect("its first digit is a location");
        for ((before, after, events), (letter, _)) in
            PLACES.into_iter().flat_map(|place| LETTERS.map(|letter| (place, letter)))
        {
            let stray = Refused(17, before.len() + 1 + taken);
            let said = if taken == number.len() { Events(events) } else { stray };
            plans.expect(format!("{before}{letter}{number}{after}"), said);
        }
    }
}

/// For a level, from the outermost on, its operator and the operand that is nested further.
type Around = (Operator, usize);

/// A leaf at the end of so many levels.
fn nested(levels: usize, around: impl FnMut(usize) -> Around) -> Plan {
    (0..levels).rev().map(around).fold(Plan::Leaf(READ, 1), |plan, (operator, side)| {
        let beside = Plan::Leaf(WRITE, 2);
        let [g1, g2] = if side == 0 { [plan, beside] } else { [beside, plan] };
        Plan::of(operator, g1, g2)
    })
}

const OPERATORS: [fn(usize) -> Operator; 4] = [
    |_| Operator::S,
    |_| Operator::P,
    |level| [Operator::S, Operator::P][level % 2],
    |level| [Operator::P, Operator::S, Operator::S][level % 3],
];

const SIDES: [fn(usize) -> usize; 4] =
    [|_| 0, |_| 1, |level| level % 2, |level| [0, 0, 1, 1, 1][level % 5]];

/// The first S or P within 64 open brackets.
fn too_deep(text: &str) -> Option<usize> {
    let mut open = 0;
    text.bytes().position(|byte| {
        match byte {
            b'(' => open += 1,
            b')' => open -= 1,
            _ => {}
        }
        b"SP".contains(&byte) && open == MAX_DEPTH
    })
}

fn depths(plans: &mut Reading) {
    for (operator, side) in
        OPERATORS.into_iter().flat_map(|operator| SIDES.map(|side| (operator, side)))
    {
        let nested = |levels: usize| nested(levels, |level| (operator(level), side(level)));
        for levels in [1, 2, MAX_DEPTH - 1, MAX_DEPTH] {
            let plan = nested(levels);
            known((plan.depth(), too_deep(&plan.to_string())), (levels, None), &plan);
            plans.expect(plan.to_string(), Events(plan.events()));
        }
        for levels in [MAX_DEPTH + 1, MAX_DEPTH + 2, 200] {
            deeper(plans, &nested(levels).to_string());
        }
        // The levels of the first operand are closed again.
        let [most, over] = [MAX_DEPTH - 1, MAX_DEPTH].map(nested);
        let plan = Plan::of(Operator::S, most.clone(), most.clone());
        plans.expect(plan.to_string(), Events(plan.events()));
        deeper(plans, &format!("P({most},{over})"));
    }
    for (begun, bytes) in [("S(", 2), ("P(", 2), ("P(w2,", 5)] {
        plans.expect(begun.repeat(100_000), Refused(18, bytes * MAX_DEPTH));
    }
}

/// A text that nests too deep: with it whole, with nothing behind the letter that opens the level, or
/// with anything. Without the letter it breaks off; with another byte in its place that one is wrong.
fn deeper(plans: &mut Reading, text: &str) {
    let at = too_deep(text).expect("a level too many");
    let (before, letter) = (&text[..at], &text[at..=at]);
    plans.expect(text, Refused(18, at));
    for behind in ["", "(", "r1", ")", "\n", "x(r1,r1)"] {
        plans.expect(format!("{before}{letter}{behind}"), Refused(18, at));
    }
    for stray in ["", ")", "(", "x", "xS(", "7"] {
        plans.expect(format!("{before}{stray}"), Refused(17, at));
    }
}

/// A plan with so many leaves and P's.
fn drawn(plans: &mut Reading, split: Split, leaves: usize, forks: usize) -> String {
    let locations = 0..LOCATIONS as u16;
    let mix = Mix { leaves, forks, split, kinds: &ACCESSES, locations, care: 0 };
    mix.draw(&mut plans.rng).to_string()
}

/// As many tasks and as many events as a plan may make, and one more; so many events that 16 bits do
/// not hold their number.
fn limits(plans: &mut Reading) {
    const MOST: usize = TASKS - 1;
    for split in SPLITS {
        for (leaves, forks) in [(MOST + 1, MOST), (5_000, MOST), (2, 1), (1, 0)] {
            let text = drawn(plans, split, leaves, forks);
            plans.expect(text, Events(leaves + 3 * forks));
        }
        for (leaves, forks) in [(MOST + 2, MOST + 1), (5_000, MOST + 1), (9_000, 8_999)] {
            let text = drawn(plans, split, leaves, forks);
            plans.expect(text, Refused(19, 0));
        }
        for forks in [0, 1, MOST] {
            let leaves = MAX_EVENTS - 3 * forks;
            let [most, over] =
                [leaves, leaves + 1].map(|leaves| drawn(plans, split, leaves, forks));
            plans.expect(most, Events(MAX_EVENTS));
            plans.expect(over, Refused(19, 0));
        }
        let text = drawn(plans, split, 65_536 + 5, 0);
        plans.expect(text, Refused(19, 0));
    }
    behind_the_limits(plans);
}

/// What is wrong behind more events or tasks than there may be, and far behind, is told, and 19 is not.
fn behind_the_limits(plans: &mut Reading) {
    for (leaves, forks) in
        [(MAX_EVENTS + 1, 0), (65_536 + 5, 0), (TASKS + 1, TASKS), (9_000, 8_999)]
    {
        let long = drawn(plans, shapes::halves, leaves, forks);
        let before = format!("S({long},");
        for (stray, at) in
            [("", 0), ("x", 0), ("r", 1), ("r01", 2), ("r1024", 4), ("r1", 2), ("r1))", 3)]
        {
            plans.expect(format!("{before}{stray}"), Refused(17, before.len() + at));
        }
        deeper(plans, &format!("{before}{})", nested(MAX_DEPTH, |_| (Operator::S, 1))));
    }
}

/// Slices of every length around the needed one in each place. What is no plan is told before that a
/// slice is short.
fn slice_lengths(plans: &mut Reading) {
    let most = drawn(plans, shapes::halves, MAX_EVENTS - 3 * 100, 100);
    for text in ["r1", "P(r1,w2)", "S(w3,P(r3,r3))", &most] {
        let need = (PLANS.need)(text.as_bytes());
        let expect = |plans: &mut Reading, lent: Slices| {
            let enough = lent.into_iter().all(|cells| cells >= need);
            let said = if enough { Events(need) } else { Refused(19, 0) };
            known(plans.read_with(text, lent), said, format_args!("slices of {lent:?}"));
        };
        let near = [0, 1, need - 1, need, need + 1, need + 2];
        for kinds in near {
            for tasks in near {
                for operands in near {
                    expect(plans, [kinds, tasks, operands]);
                }
            }
        }
    }
    let deep = nested(MAX_DEPTH + 1, |_| (Operator::P, 0)).to_string();
    for (text, said) in [("P(r1,w2", Refused(17, 7)), (&deep, Refused(18, 2 * MAX_DEPTH))] {
        for lent in [[0; 3], [0, 9, 9], [9, 0, 9], [9, 9, 0]] {
            known(plans.read_with(text, lent), said, format_args!("slices of {lent:?}"));
        }
    }
}

/// The plans of the benchmark, whole and damaged.
fn shapes(plans: &mut Reading) {
    for shape in &SHAPES {
        for n in [1_024, 2_048, 8_192, MAX_EVENTS] {
            let plan = shape.plan(n, &mut plans.rng);
            known(whole_and_damaged(plans, &plan, n), Events(n), shape.name);
        }
    }
}

/// Plans of every shape and nests about as deep as may be, whole and damaged, and noise.
fn random(plans: &mut Reading, times: usize) {
    for (count, most) in [(20_000, 6), (3_000, 60), (100, 3_000)] {
        for _ in 0..count * times {
            let plan = Mix::any(&mut plans.rng, most).draw(&mut plans.rng);
            whole_and_damaged(plans, &plan, most);
        }
    }
    for _ in 0..3_000 * times {
        let levels = MAX_DEPTH - 3 + plans.rng.below(6);
        let rng = &mut plans.rng;
        let around = |_| ([Operator::S, Operator::P][rng.below(2)], rng.below(2));
        let text = nested(levels, around).to_string();
        plans.read_damaged(text, levels);
    }
}

/// What comes of the text of a plan, in which the slow reader must find the very plan again. Then the
/// same damaged, and noise; now and then also with a slice that is too short.
fn whole_and_damaged(plans: &mut Reading, plan: &Plan, noise: usize) -> Translation {
    let text = plan.to_string();
    known(grammar::read(text.as_bytes()).as_ref(), Ok(plan), &text);
    if plans.rng.chance(1, 8) {
        let mut lent = [plan.events(); 3];
        lent[plans.rng.below(3)] -= 1;
        known(plans.read_with(&text[..], lent), Refused(19, 0), &text);
    }
    plans.read_damaged(text, noise)
}
