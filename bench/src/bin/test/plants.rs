//! Wrong expectations: a comparison that did not notice them would notice no wrong judge either. The
//! right ones must hold.

use crate::buffer::{Buffer, Cell};
use crate::compare::{answer_difference, held, needed, Lent, Test, JUDGES};
use crate::conversions::CONVERTERS;
use crate::document::{
    busy, trace, COUNTED, JOINED_BY_WAY_OF_A_SIBLING, JOINS_A_SIBLING, SUM_AND_READ, SUM_AND_WRITE,
    TWO_READERS, TWO_SUMS, WRITES_TWICE, WRITE_AMONG_SUMS,
};
use crate::pairs::LISTERS;
use crate::plans::PLANS;
use crate::reading::{Form, Reading, Slices, Wanted};
use crate::recipes;
use crate::tally::fail;
use crate::texts::TEXTS;
use racejudge_bench::ancestors::Outcome;
use racejudge_bench::convert::{convert, Converted};
use racejudge_bench::ffi::{Record, Told, CARDER};
use racejudge_bench::pairs::{listed, pairs, Listed};
use racejudge_bench::rng::Rng;
use racejudge_bench::trace::*;
use std::fmt::Debug;
use std::mem::swap;

/// Makes one thing of what is wanted wrong.
type Change<T> = fn(&mut Outcome<T>);

/// A join of what was joined before is refused by 11.
const JOINS_TWICE: &str = "0 fork 1, 1 halt, 0 join 1, 0 join 1";

/// An event behind a race is not looked at, nor has it a place in an order.
const LATER_EVENT: &str = "0 fork 1, 1 write 5, 1 halt, 0 write 5, 0 6 0";

/// The halt names the task that resumes, or it does not.
const NESTED: &str = "0 fork 1, 1 fork 2, 2 halt 1";
const MISNAMED: &str = "0 fork 1, 1 fork 2, 2 halt";

/// A run, and what is made wrong of what is wanted: the answer, the cleared cells, an order, the
/// links of a race, of a clean trace and of a refusal; and what is said where a sum is refused, is
/// held against a sum, or is not held against a read or a write, and where a halt names 0.
const JUDGED: [(&str, &[Change<Answer>]); 13] = [
    (
        WRITES_TWICE,
        &[
            |wanted| wanted.said = Answer::Race(2, 4),
            |wanted| wanted.cleared -= 1,
            |wanted| wanted.cleared += 1,
            |wanted| wanted.orders.as_mut().expect("a race").0[0] += 1,
            |wanted| wanted.orders.as_mut().expect("a race").1[4] += 1,
            |wanted| wanted.links += 1,
        ],
    ),
    // Cells behind the orders, and orders where there are none.
    (
        LATER_EVENT,
        &[
            |wanted| wanted.orders.as_mut().expect("a race").0.push(0),
            |wanted| wanted.orders.as_mut().expect("a race").1.push(0),
            |wanted| wanted.orders = None,
        ],
    ),
    (
        TWO_READERS,
        &[
            |wanted| wanted.orders = Some((vec![0], vec![])),
            |wanted| wanted.orders = Some((vec![], vec![0])),
        ],
    ),
    (JOINS_A_SIBLING, LINKS),
    (JOINED_BY_WAY_OF_A_SIBLING, LINKS),
    (JOINS_TWICE, &[|wanted| wanted.links += 1]),
    (NESTED, &[|wanted| wanted.said = Answer::Refused(12, 2)]),
    (
        MISNAMED,
        &[
            |wanted| wanted.said = Answer::Clean,
            |wanted| wanted.said = Answer::Refused(11, 2),
            |wanted| wanted.said = Answer::Refused(12, 1),
        ],
    ),
    (
        TWO_SUMS,
        &[
            |wanted| wanted.said = Answer::Refused(5, 1),
            |wanted| race(wanted, 1, 3, [[0, 1, 3, 2], [0, 3, 1, 2]]),
        ],
    ),
    (SUM_AND_READ, &[clean]),
    (SUM_AND_WRITE, &[clean]),
    (
        WRITE_AMONG_SUMS,
        &[
            |wanted| race(wanted, 1, 5, [[0, 1, 5, 2, 3, 4], [0, 5, 1, 2, 3, 4]]),
            |wanted| wanted.orders.as_mut().expect("a race").1.swap(2, 3),
            clean,
        ],
    ),
    (COUNTED, &[|wanted| race(wanted, 1, 4, [[0, 1, 4, 2, 3], [0, 4, 1, 2, 3]])]),
];

/// What a judge says for whom the two accesses of the race do not conflict.
fn clean(wanted: &mut Outcome<Answer>) {
    wanted.said = Answer::Clean;
    wanted.orders = None;
}

/// A race with these orders.
fn race<const N: usize>(wanted: &mut Outcome<Answer>, s: usize, t: usize, orders: [[u16; N]; 2]) {
    wanted.said = Answer::Race(s, t);
    wanted.orders = Some((orders[0].to_vec(), orders[1].to_vec()));
}

/// Where there is one link.
const LINKS: &[Change<Answer>] = &[|wanted| wanted.links -= 1, |wanted| wanted.links += 1];

/// A run, how many cards are lent, and what is made wrong of what is wanted: the answer, the cleared
/// cells, each field of a card, the two that say that no event touches the location, the last card,
/// the record behind it, cards where there are none, and the links.
const CARDED: [(&str, usize, &[Change<Answer>]); 8] = [
    (
        TWO_READERS,
        LOCATIONS + 1,
        &[
            |wanted| wanted.said = Answer::Race(1, 3),
            |wanted| wanted.cleared += 1,
            |wanted| cards(wanted)[5].reads -= 1,
            |wanted| cards(wanted)[5].writes += 1,
            |wanted| cards(wanted)[5].sums += 1,
            |wanted| cards(wanted)[5].first -= 1,
            |wanted| cards(wanted)[5].last -= 1,
            |wanted| cards(wanted)[6].first = 0,
            |wanted| cards(wanted)[6].last = 0,
            |wanted| _ = cards(wanted).pop(),
            |wanted| cards(wanted).push(UNTOUCHED),
            |wanted| wanted.cards = None,
            |wanted| wanted.orders = Some((vec![0], vec![])),
            |wanted| wanted.orders = Some((vec![], vec![0])),
        ],
    ),
    (
        WRITES_TWICE,
        LOCATIONS + 1,
        &[
            |wanted| wanted.said = Answer::Clean,
            |wanted| wanted.orders = None,
            |wanted| wanted.cards = Some(vec![UNTOUCHED]),
        ],
    ),
    (
        TWO_READERS,
        LOCATIONS - 1,
        &[
            |wanted| wanted.said = Answer::Clean,
            |wanted| wanted.said = Answer::Refused(4, 0),
            |wanted| wanted.said = Answer::Refused(16, 1),
            |wanted| wanted.cleared += 1,
            |wanted| wanted.cards = Some(vec![UNTOUCHED]),
            |wanted| wanted.orders = Some((vec![0], vec![])),
            |wanted| wanted.orders = Some((vec![], vec![0])),
        ],
    ),
    (JOINS_A_SIBLING, LOCATIONS, LINKS),
    (JOINED_BY_WAY_OF_A_SIBLING, LOCATIONS, LINKS),
    (JOINED_BY_WAY_OF_A_SIBLING, LOCATIONS - 1, &[|wanted| wanted.links += 1]),
    (JOINS_TWICE, LOCATIONS, &[|wanted| wanted.links += 1]),
    (
        COUNTED,
        LOCATIONS,
        &[
            // All sums are left out, or one; are taken for writes, or for reads; are never the first,
            // or the last.
            |wanted| cards(wanted)[5].sums = 0,
            |wanted| cards(wanted)[5].sums -= 1,
            |wanted| cards(wanted)[5] = Card { writes: 4, sums: 0, ..cards(wanted)[5] },
            |wanted| cards(wanted)[5] = Card { reads: 5, sums: 0, ..cards(wanted)[5] },
            |wanted| cards(wanted)[5].first = 6,
            |wanted| cards(wanted)[5].last = 6,
        ],
    ),
];

fn cards(wanted: &mut Outcome<Answer>) -> &mut Vec<Card> {
    wanted.cards.as_mut().expect("a clean verdict")
}

/// The answer is yes.
const ORDERED: [Change<Ordering>; 3] = [
    |wanted| wanted.said = Ordering::No,
    |wanted| wanted.cleared -= 1,
    |wanted| wanted.cleared += 1,
];

type ListChange = fn(&mut Listed);

/// Two pairs, then a rule is broken.
const BROKEN: &str = "0 fork 1, 1 write 5, 1 halt, 0 read 5, 0 write 5, 0 join 2";

/// A run, how many cells the two slices have, and what is made wrong of what is wanted: the answer,
/// each slice in a cell of the list and in the first behind it, the order, the cleared cells; what is
/// written though a slice is too short, or though a rule is broken; and that 20 comes first.
const LISTED: [(&str, [usize; 2], &[ListChange]); 6] = [
    (
        WRITES_TWICE,
        [3, 3],
        &[
            |wanted| wanted.said = Listing::Pairs(1),
            |wanted| wanted.said = Listing::Pairs(3),
            |wanted| wanted.said = Listing::Refused(20, 0),
            |wanted| wanted.earlier[0] += 1,
            |wanted| wanted.earlier[1] += 1,
            |wanted| wanted.later[0] += 1,
            |wanted| wanted.later[1] += 1,
            |wanted| wanted.earlier.swap(0, 1),
            |wanted| swap(&mut wanted.earlier, &mut wanted.later),
            |wanted| wanted.earlier.truncate(1),
            |wanted| wanted.later.truncate(1),
            |wanted| wanted.earlier.push(0),
            |wanted| wanted.later.push(0),
            |wanted| write(wanted, &[], &[]),
            |wanted| write(wanted, &[1], &[4]),
            |wanted| wanted.cleared -= 1,
            |wanted| wanted.cleared += 1,
        ],
    ),
    (WRITES_TWICE, [2, 2], &[|wanted| wanted.said = Listing::Refused(20, 0)]),
    (WRITES_TWICE, [1, 2], SHORT),
    (WRITES_TWICE, [2, 1], SHORT),
    (
        TWO_READERS,
        [1, 1],
        &[
            |wanted| {
                wanted.said = Listing::Pairs(1);
                write(wanted, &[1], &[3]);
            },
            |wanted| wanted.earlier.push(0),
            |wanted| wanted.later.push(0),
            |wanted| wanted.cleared -= 1,
        ],
    ),
    (
        BROKEN,
        [1, 2],
        &[
            |wanted| wanted.said = Listing::Refused(20, 0),
            |wanted| wanted.said = Listing::Refused(11, 0),
            |wanted| wanted.said = Listing::Refused(7, 5),
            |wanted| wanted.said = Listing::Pairs(2),
            |wanted| write(wanted, &[1], &[3]),
            |wanted| wanted.cleared = 0,
            |wanted| wanted.cleared += 1,
        ],
    ),
];

/// Where there are two pairs, and a slice has one cell.
const SHORT: &[ListChange] = &[
    |wanted| wanted.said = Listing::Pairs(2),
    |wanted| wanted.said = Listing::Pairs(1),
    |wanted| wanted.said = Listing::Refused(20, 4),
    |wanted| wanted.said = Listing::Refused(4, 0),
    |wanted| wanted.earlier.push(1),
    |wanted| wanted.later.push(4),
    |wanted| write(wanted, &[1], &[4]),
    |wanted| wanted.cleared = 0,
    |wanted| wanted.cleared -= 1,
];

/// Other pairs than those that are wanted.
fn write(wanted: &mut Listed, earlier: &[u16], later: &[u16]) {
    (wanted.earlier, wanted.later) = (earlier.to_vec(), later.to_vec());
}

type ConvertChange = fn(&mut Converted);

/// A stored run, how many cells the workspace has beside those that it needs, and what is made wrong
/// of what is wanted: the answer, the operand of a fork, of a halt, of a join, of what breaks a rule and of a halt
/// behind that, and the cleared cells.
const CONVERTED: [(&str, isize, &[ConvertChange]); 2] = [
    (
        "0 fork 1, 1 fork 2, 2 halt, 1 fork 3, 3 join 2, 3 halt, 1 halt 5, 1 halt",
        1,
        &[
            |wanted| wanted.said = Conversion::Refused(3),
            |wanted| wanted.operands[0] += 1,
            |wanted| wanted.operands[2] = 0,
            |wanted| wanted.operands[4] = 1,
            |wanted| wanted.operands[5] = 2,
            |wanted| wanted.operands[6] = 0,
            |wanted| wanted.operands[7] = 1,
            |wanted| wanted.cleared -= 1,
            |wanted| wanted.cleared += 1,
        ],
    ),
    (
        MISNAMED,
        -1,
        &[
            |wanted| wanted.said = Conversion::Done,
            |wanted| wanted.said = Conversion::Refused(2),
            |wanted| wanted.operands[2] = 1,
            |wanted| wanted.cleared += 1,
        ],
    ),
];

type ReadChange = fn(&mut Wanted);

/// A form and a text, by a recipe, how many cells of each slice are lent beside those that it needs, and
/// what is made wrong of what is wanted: the answer, an event in each slice, what a halt names, the first
/// cell behind the events. Of a plan also how it forks, which operand comes first, what is joined and
/// when, which byte is refused, by which row, and the limits.
type Planted = (&'static Form, &'static [u8], [isize; 3], &'static [ReadChange]);

const READINGS: [Planted; 18] = [
    (
        &TEXTS,
        b"T0|fork(T1)|1~T0|r(V5)|2~",
        [0; 3],
        &[
            |wanted| wanted.said = Translation::Events(2),
            |wanted| wanted.said = Translation::Short,
            |wanted| wanted.events.kinds[0] += 1,
            |wanted| wanted.events.tasks[1] += 1,
            |wanted| wanted.events.operands[2] += 1,
            |wanted| wanted.events.truncate(2),
            |wanted| wanted.events.push(0, READ, 0),
        ],
    ),
    (
        &TEXTS,
        b"T0|fork(T7)|1~T7|fork(T2)|2~T0|r(V5)|3~",
        [0; 3],
        &[
            |wanted| events(wanted, "0 fork 7, 7 fork 2, 2 halt, 7 halt, 0 read 5"),
            |wanted| events(wanted, "0 fork 7, 7 fork 2, 2 halt 2, 7 halt 7, 0 read 5"),
            |wanted| events(wanted, "0 fork 7, 7 fork 2, 2 halt 7, 7 halt 7, 0 read 5"),
        ],
    ),
    (
        &TEXTS,
        b"T0|r(V5)|1~T0|r(V5)~",
        [0; 3],
        &[
            |wanted| wanted.said = Translation::Refused(14, 0),
            |wanted| wanted.said = Translation::Refused(15, 1),
            |wanted| wanted.events.push(0, READ, 5),
        ],
    ),
    (
        &PLANS,
        b"P(r1,w2)",
        [1; 3],
        &[
            |wanted| wanted.said = Translation::Events(6),
            |wanted| wanted.said = Translation::Refused(19, 0),
            |wanted| events(wanted, "0 read 1, 0 write 2, 0 fork 1, 1 halt, 0 join 1"),
            |wanted| events(wanted, "0 fork 1, 1 write 2, 1 halt, 0 read 1, 0 join 1"),
            |wanted| events(wanted, "0 fork 1, 1 read 1, 1 halt, 0 join 1, 0 write 2"),
            |wanted| events(wanted, "0 fork 1, 1 read 1, 1 halt 1, 0 write 2, 0 join 1"),
            |wanted| events(wanted, "0 fork 1, 1 read 1, 1 halt, 0 write 2, 1 join 1"),
            |wanted| events(wanted, "0 fork 2, 2 read 1, 2 halt, 0 write 2, 0 join 2"),
            |wanted| events(wanted, "0 fork 1, 1 read 1, 1 halt, 0 sum 2, 0 join 1"),
            |wanted| wanted.events.truncate(4),
            |wanted| wanted.events.push(0, HALT, 0),
            |wanted| wanted.events.kinds[0] += 1,
            |wanted| wanted.events.tasks[0] += 1,
            |wanted| wanted.events.operands[0] += 1,
            |wanted| wanted.events.kinds.push(0),
            |wanted| wanted.events.tasks.push(0),
            |wanted| wanted.events.operands.push(0),
        ],
    ),
    // One slice alone is too short.
    (&PLANS, b"P(r1,w2)", [-1, 0, 0], &[|wanted| wanted.said = Translation::Events(5)]),
    (&PLANS, b"P(r1,w2)", [0, -1, 0], &[|wanted| wanted.said = Translation::Events(5)]),
    (&PLANS, b"P(r1,w2)", [0, 0, -1], &[|wanted| wanted.said = Translation::Events(5)]),
    // The inner fork comes second, and the inner halt resumes the outer task.
    (
        &PLANS,
        b"P(P(r1,r1),r1)",
        [0; 3],
        &[
            |wanted| {
                let inner = "2 fork 1, 1 read 1, 1 halt 2, 2 read 1, 2 join 1";
                events(wanted, &format!("0 fork 2, {inner}, 2 halt, 0 read 1, 0 join 2"));
            },
            |wanted| wanted.events.operands[3] = 0,
            |wanted| wanted.events.operands[3] = 2,
            |wanted| wanted.events.operands[6] = 1,
        ],
    ),
    (
        &PLANS,
        b"S(r1,w2)",
        [0; 3],
        &[
            |wanted| events(wanted, "0 write 2, 0 read 1"),
            |wanted| events(wanted, "0 fork 1, 1 read 1, 1 halt, 0 write 2, 0 join 1"),
        ],
    ),
    (
        &PLANS,
        b"S(w3,P(r3,r3))",
        [-1; 3],
        &[
            |wanted| wanted.said = Translation::Events(6),
            |wanted| wanted.said = Translation::Refused(17, 0),
            |wanted| wanted.said = Translation::Refused(19, 14),
            |wanted| wanted.events.push(0, WRITE, 3),
        ],
    ),
    (
        &PLANS,
        b"S(r1,r1024)",
        [3; 3],
        &[
            |wanted| wanted.said = Translation::Refused(17, 8),
            |wanted| wanted.said = Translation::Refused(17, 10),
            |wanted| wanted.said = Translation::Refused(18, 9),
            |wanted| wanted.said = Translation::Events(2),
            |wanted| wanted.events.push(0, READ, 1),
        ],
    ),
    (&PLANS, b"r01", [1; 3], &[|wanted| wanted.said = Translation::Events(1)]),
    (
        &PLANS,
        b"S(r1,r1",
        [2; 3],
        &[
            |wanted| wanted.said = Translation::Refused(17, 6),
            |wanted| wanted.said = Translation::Refused(17, 8),
            |wanted| wanted.said = Translation::Events(2),
            |wanted| wanted.events.kinds.push(0),
            |wanted| wanted.events.tasks.push(0),
            |wanted| wanted.events.operands.push(0),
        ],
    ),
    // That a slice is too short is told before the byte.
    (&PLANS, b"S(r1,r1", [0; 3], &[|wanted| wanted.said = Translation::Refused(19, 0)]),
    // A level, a task and an event too many.
    (&PLANS, b"64*S( P", [9; 3], &[|wanted| wanted.said = Translation::Refused(17, 128)]),
    (&PLANS, b"65*P( r1 65*,w2)", [300; 3], &[|wanted| wanted.said = Translation::Events(261)]),
    (&PLANS, b"P( 10^P( ,r1)", [1; 3], &[|wanted| wanted.said = Translation::Events(4_097)]),
    (&PLANS, b"S( 15^S( ,r1)", [1; 3], &[|wanted| wanted.said = Translation::Events(32_769)]),
];

/// Other events than those that are wanted.
fn events(wanted: &mut Wanted, run: &str) {
    wanted.events = trace(run);
}

/// How many wrong cells were noticed: of those that are lent and of those around them, each in turn. One
/// that is not ends the test.
pub fn cells() -> usize {
    wrong_cells::<u8>() + wrong_cells::<u16>() + wrong_cells::<Record>()
}

/// A buffer of four cells in which the first two are to be written; then each number of each cell wrong.
fn wrong_cells<T: Cell>() -> usize {
    let [dirty, written] = [7, 9].map(|number| T::of(&vec![number; T::NUMBERS]));
    let mut buffer = Buffer::drawn(&[7; 9_999], &mut Rng::new(1), 4);
    buffer.lend()[..2].fill(written);
    let mut count = 0;
    for at in 0..buffer.all().len() {
        let right = buffer.all()[at];
        for number in 0..T::NUMBERS {
            let mut numbers = vec![if right == dirty { 7 } else { 9 }; T::NUMBERS];
            numbers[number] += 1;
            buffer.all()[at] = T::of(&numbers);
            if buffer.difference(&[written; 2]).is_none() {
                fail(&format!("NOT NOTICED: cell {at} is {numbers:?}"));
            }
            count += 1;
        }
        buffer.all()[at] = right;
    }
    if let Some(difference) = buffer.difference(&[written; 2]) {
        fail(&format!("NOTICED, though nothing is wrong: {difference}"));
    }
    count
}

/// How many wrong numbers were noticed, of those that a call tells. One that is not ends the test.
pub fn numbers() -> usize {
    wrong_numbers::<2>() + wrong_numbers::<3>()
}

fn wrong_numbers<const VALUES: usize>() -> usize {
    let told = Told { code: 1, values: [5; VALUES] };
    let mut wrong = [told; VALUES];
    wrong.iter_mut().enumerate().for_each(|(i, wrong)| wrong.values[i] += 1);
    for wrong in wrong.into_iter().chain([Told { code: 2, ..told }]) {
        if answer_difference(told, wrong).is_none() {
            fail(&format!("NOT NOTICED: {told:?} for {wrong:?}"));
        }
    }
    VALUES + 1
}

/// How many wrong expectations were noticed. One that is not ends the test.
pub fn all() -> usize {
    let mut test = Test::new(1);
    // A cell that is not cleared is not 0, and a record that is not written is no card.
    test.dirt.fill(u16::MAX);
    test.pairs.dirt.fill(u16::MAX);
    test.conversions.dirt.fill(u16::MAX);
    let traced = judged(&mut test) + carded(&mut test) + ordered(&mut test) + paired(&mut test);
    traced + converted(&mut test) + read()
}

/// What the judge needs, with a cell of the workspace more and so many cards.
fn lent(trace: &Trace, cards: usize) -> Lent {
    let [workspace, first, second, _] = needed(trace);
    [workspace + 1, first, second, cards]
}

fn judged(test: &mut Test) -> usize {
    for (run, changes) in JUDGED {
        let trace = trace(run);
        let lent = lent(&trace, 0);
        let right = test.slow.judge(&trace, lent[0], lent[1], lent[2]);
        for judge in JUDGES {
            held(test.judged_by(judge, &trace, lent, &right));
        }
        for change in changes {
            let mut wanted = test.slow.judge(&trace, lent[0], lent[1], lent[2]);
            change(&mut wanted);
            for judge in JUDGES {
                noticed(test.judged_by(judge, &trace, lent, &wanted), &wanted);
            }
        }
    }
    JUDGES.len() * JUDGED.iter().map(|(_, changes)| changes.len()).sum::<usize>()
}

fn carded(test: &mut Test) -> usize {
    for (run, cards, changes) in CARDED {
        let trace = trace(run);
        let lent = lent(&trace, cards);
        let right = right_cards(test, &trace, lent);
        held(test.carded_by(&CARDER, &trace, lent, &right));
        for change in changes {
            let mut wanted = right_cards(test, &trace, lent);
            change(&mut wanted);
            noticed(test.carded_by(&CARDER, &trace, lent, &wanted), &wanted);
        }
    }
    CARDED.iter().map(|(.., changes)| changes.len()).sum::<usize>() + wrong_fields(test)
}

/// What is wanted of the judge with cards.
fn right_cards(test: &mut Test, trace: &Trace, lent: Lent) -> Outcome<Answer> {
    test.slow.judge(trace, lent[0], lent[1], lent[2]).with_cards(trace, lent[3])
}

/// The fields of a card.
const FIELDS: [fn(&mut Card) -> &mut u16; 5] = [
    |card| &mut card.reads,
    |card| &mut card.writes,
    |card| &mut card.sums,
    |card| &mut card.first,
    |card| &mut card.last,
];

/// Each field of the card of a location that is touched in each way, or by sums alone, or by nothing, and
/// of the first and the last.
fn wrong_fields(test: &mut Test) -> usize {
    const PLACES: [usize; 5] = [0, 5, 7, 1_022, 1_023];
    let trace = busy(15);
    let lent = lent(&trace, LOCATIONS);
    let right = right_cards(test, &trace, lent);
    held(test.carded_by(&CARDER, &trace, lent, &right));
    for (location, field) in PLACES.iter().flat_map(|place| FIELDS.map(|field| (*place, field))) {
        let mut wanted = right_cards(test, &trace, lent);
        let number = field(&mut cards(&mut wanted)[location]);
        *number = number.wrapping_add(1);
        noticed(test.carded_by(&CARDER, &trace, lent, &wanted), &wanted.said);
    }
    PLACES.len() * FIELDS.len()
}

fn ordered(test: &mut Test) -> usize {
    let trace = trace(WRITES_TWICE);
    let (workspace, pair) = (WORKSPACE + trace.len() + 1, [0, 4]);
    let right = test.slow.ordering(&trace, workspace, pair[0], pair[1]);
    for judge in JUDGES {
        held(test.ordered_by(judge, &trace, workspace, pair, &right));
    }
    for (judge, change) in JUDGES.iter().flat_map(|judge| ORDERED.map(|change| (judge, change))) {
        let mut wanted = test.slow.ordering(&trace, workspace, pair[0], pair[1]);
        change(&mut wanted);
        noticed(test.ordered_by(judge, &trace, workspace, pair, &wanted), &wanted);
    }
    JUDGES.len() * ORDERED.len()
}

fn paired(test: &mut Test) -> usize {
    for (run, [earlier, later], changes) in LISTED {
        let trace = trace(run);
        let found = pairs(&mut test.slow, &trace);
        let lent = [WORKSPACE + trace.len() + 1, earlier, later];
        let right = listed(&trace, &found, lent);
        for lister in LISTERS {
            held(test.pairs.listed_by(lister, &trace, lent, &right));
        }
        for change in changes {
            let mut wanted = listed(&trace, &found, lent);
            change(&mut wanted);
            for lister in LISTERS {
                noticed(test.pairs.listed_by(lister, &trace, lent, &wanted), &wanted);
            }
        }
    }
    LISTERS.len() * LISTED.iter().map(|(.., changes)| changes.len()).sum::<usize>()
}

fn converted(test: &mut Test) -> usize {
    for (run, spare, changes) in CONVERTED {
        let trace = trace(run);
        let workspace = (WORKSPACE + trace.len()).saturating_add_signed(spare);
        let conversions = &mut test.conversions;
        let right = convert(&trace, workspace);
        for converter in CONVERTERS {
            held(conversions.converted_by(converter, &trace, workspace, &right));
        }
        for change in changes {
            let mut wanted = convert(&trace, workspace);
            change(&mut wanted);
            for converter in CONVERTERS {
                noticed(conversions.converted_by(converter, &trace, workspace, &wanted), &wanted);
            }
        }
    }
    CONVERTERS.len() * CONVERTED.iter().map(|(.., changes)| changes.len()).sum::<usize>()
}

fn read() -> usize {
    for (form, recipe, spare, changes) in READINGS {
        let (mut reading, text) = (Reading::new(form, 1), recipes::text(recipe));
        // A cell that is not written is none of an event.
        reading.dirt.fill(u16::MAX);
        let need = reading.need(&text);
        let lent: Slices = spare.map(|spare| need.saturating_add_signed(spare));
        reading.read_with(text.clone(), lent);
        for change in changes {
            let mut wanted = reading.wanted(&text, lent);
            change(&mut wanted);
            for reader in form.readers {
                noticed(reading.read_by(reader, &text, lent, &wanted), &wanted);
            }
        }
    }
    READINGS.iter().map(|(form, .., changes)| form.readers.len() * changes.len()).sum()
}

fn noticed<T>(told: Result<T, String>, wrong: &impl Debug) {
    if told.is_ok() {
        fail(&format!("NOT NOTICED, though it is wrong: {wrong:?}"));
    }
}
