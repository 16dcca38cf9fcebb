//! The runs and texts of document 01, with its own answers, and runs for document 02's sums. Links,
//! orders and cards are drawn by hand.

use crate::compare::{known, needed, Test};
use crate::tally::fail;
use racejudge_bench::ancestors::Ancestors;
use racejudge_bench::cards::cards;
use racejudge_bench::joins::links;
use racejudge_bench::text;
use racejudge_bench::trace::Answer::{Clean, Race, Refused};
use racejudge_bench::trace::*;

/// A run, its answer and its links.
pub type Told = (&'static str, Answer, usize);

/// Events in document 01's notation, with a number for a kind that has no name.
pub const RUNS: [Told; 40] = [
    ("", Clean, 0),
    ("0 write 1023", Clean, 0),
    ("0 write 1024", Refused(8, 0), 0),
    ("0 fork 1023", Clean, 0),
    ("0 fork 1024", Refused(9, 0), 0),
    (TWO_READERS, Clean, 0),
    ("0 fork 1, 1 read 5, 1 halt, 0 write 5", Race(1, 3), 0),
    (WRITE_AND_READ, Race(1, 3), 0),
    (WRITES_TWICE, Race(1, 4), 0),
    ("0 fork 1, 1 halt, 0 fork 2, 2 halt, 0 join 1", Refused(11, 4), 0),
    ("0 fork 1, 1 halt, 0 fork 2, 2 halt, 0 join 2, 0 join 1", Clean, 1),
    (JOINS_A_SIBLING, Race(1, 7), 1),
    (JOINED_BY_WAY_OF_A_SIBLING, Clean, 1),
    ("0 halt, 0 6 0", Refused(5, 1), 0),
    // Judges that deceive.
    ("0 fork 1, 1 read 5, 1 halt, 0 fork 2, 2 read 5, 2 halt, 0 join 2, 0 write 5", Race(1, 7), 1),
    ("0 write 5, 0 fork 1, 1 write 5", Clean, 0),
    ("0 write 5, 0 fork 1, 1 read 5, 1 halt", Clean, 0),
    ("0 read 5, 0 fork 1, 1 fork 2, 2 write 5, 2 halt 1", Clean, 0),
    // The examples of rows 5, 6, 7, 10, 11 and 12.
    ("0 6 0", Refused(5, 0), 0),
    ("0 halt, 0 read 1", Refused(6, 1), 0),
    ("1 read 0", Refused(7, 0), 0),
    ("0 fork 0", Refused(10, 0), 0),
    ("0 join 1", Refused(11, 0), 0),
    ("0 halt 3", Refused(12, 0), 0),
    // Row 6 comes before row 7, and that before row 8.
    ("0 halt, 1 read 0", Refused(6, 1), 0),
    ("1 read 1024", Refused(7, 0), 0),
    // A number used before, the largest kind, a task that is none.
    ("0 fork 1, 1 halt, 0 fork 1", Refused(10, 2), 0),
    ("0 255 0", Refused(5, 0), 0),
    ("65535 read 0", Refused(7, 0), 0),
    // Two children of one parent; later events are not looked at.
    ("0 fork 1, 1 write 5, 1 halt, 0 fork 2, 2 read 5", Race(1, 4), 0),
    ("0 fork 1, 1 write 5, 1 halt, 0 write 5, 0 6 0", Race(1, 3), 0),
    // Sums.
    ("0 halt, 0 sum 0", Refused(6, 1), 0),
    ("1 sum 0", Refused(7, 0), 0),
    ("0 sum 1023", Clean, 0),
    ("0 sum 1024", Refused(8, 0), 0),
    (TWO_SUMS, Clean, 0),
    (SUM_AND_READ, Race(1, 3), 0),
    (SUM_AND_WRITE, Race(1, 3), 0),
    (WRITE_AMONG_SUMS, Race(2, 5), 0),
    (COUNTED, Clean, 1),
];

pub const TWO_SUMS: &str = "0 fork 1, 1 sum 5, 1 halt, 0 sum 5";
pub const SUM_AND_READ: &str = "0 fork 1, 1 sum 5, 1 halt, 0 read 5";
pub const SUM_AND_WRITE: &str = "0 fork 1, 1 sum 5, 1 halt, 0 write 5";
/// The last sum races with the write alone.
pub const WRITE_AMONG_SUMS: &str = "0 fork 1, 1 sum 5, 1 write 5, 1 sum 5, 1 halt, 0 sum 5";
/// Two tasks add to a counter beside each other; it is read once they are joined.
pub const COUNTED: &str =
    "0 fork 1, 1 sum 5, 1 sum 5, 1 halt, 0 sum 5, 0 join 1, 0 read 5, 0 sum 5";

pub const WRITE_AND_READ: &str = "0 fork 1, 1 write 5, 1 halt, 0 read 5";
pub const TWO_READERS: &str = "0 fork 1, 1 read 5, 1 halt, 0 read 5";
pub const WRITES_TWICE: &str = "0 fork 1, 1 write 5, 1 write 5, 1 halt, 0 read 5";
pub const JOINS_A_SIBLING: &str =
    "0 fork 1, 1 read 7, 1 halt, 0 read 7, 0 fork 2, 2 join 1, 2 halt, 0 write 7";
pub const JOINED_BY_WAY_OF_A_SIBLING: &str =
    "0 fork 1, 1 read 7, 1 halt, 0 read 7, 0 fork 2, 2 join 1, 2 halt, 0 join 2, 0 write 7";

/// A run, and the two orders of its race.
pub type Ordered = (&'static str, [&'static [u16]; 2]);

const ORDERS: [Ordered; 4] = [
    (WRITE_AND_READ, [&[0, 1, 3, 2], &[0, 3, 1, 2]]),
    (WRITES_TWICE, [&[0, 1, 4, 2, 3], &[0, 4, 1, 2, 3]]),
    (JOINS_A_SIBLING, [&[0, 3, 4, 1, 7, 2, 5, 6], &[0, 3, 4, 7, 1, 2, 5, 6]]),
    (WRITE_AMONG_SUMS, [&[0, 1, 2, 5, 3, 4], &[0, 1, 5, 2, 3, 4]]),
];

/// The card of the one location that each touches.
const CARDS: [(&str, usize, Card); 6] = [
    ("0 write 1023", 1_023, card([0, 1, 0], 0, 0)),
    ("0 sum 1023", 1_023, card([0, 0, 1], 0, 0)),
    (TWO_READERS, 5, card([2, 0, 0], 1, 3)),
    (JOINED_BY_WAY_OF_A_SIBLING, 7, card([2, 1, 0], 1, 8)),
    (TWO_SUMS, 5, card([0, 0, 2], 1, 3)),
    (COUNTED, 5, card([1, 0, 4], 1, 7)),
];

/// A run that touches three locations. With its last event it is a race, without that clean.
pub const BUSY: &str =
    "0 fork 1, 1 write 5, 1 read 5, 1 write 5, 1 sum 7, 1 halt, 0 join 1, 0 read 1023, \
     0 fork 2, 2 write 5, 2 sum 5, 2 sum 5, 2 sum 7, 2 halt, 0 sum 7, 0 read 5";

/// How many of its events there are, a location and the card of that: no access, the first, and one more
/// each time; sums alone; the last location; and what forks, joins and halts name, which is none.
const BUSY_CARDS: [(usize, usize, Card); 17] = [
    (0, 5, UNTOUCHED),
    (1, 5, UNTOUCHED),
    (2, 5, card([0, 1, 0], 1, 1)),
    (3, 5, card([1, 1, 0], 1, 2)),
    (4, 5, card([1, 2, 0], 1, 3)),
    (10, 5, card([1, 3, 0], 1, 9)),
    (11, 5, card([1, 3, 1], 1, 10)),
    (15, 5, card([1, 3, 2], 1, 11)),
    (16, 5, card([2, 3, 2], 1, 15)),
    (4, 7, UNTOUCHED),
    (5, 7, card([0, 0, 1], 4, 4)),
    (13, 7, card([0, 0, 2], 4, 12)),
    (15, 7, card([0, 0, 3], 4, 14)),
    (15, 1_023, card([1, 0, 0], 7, 7)),
    (15, 0, UNTOUCHED),
    (15, 1, UNTOUCHED),
    (15, 2, UNTOUCHED),
];

/// Cards of the first 15 events told wrong: each field, the marker; sums left out of the card, of the
/// count, of the last position, of both positions; sums counted as writes, as reads.
const WRONG_CARDS: [(usize, Card); 14] = [
    (5, card([2, 3, 2], 1, 11)),
    (5, card([1, 2, 2], 1, 11)),
    (5, card([1, 3, 3], 1, 11)),
    (5, card([1, 3, 2], 2, 11)),
    (5, card([1, 3, 2], 1, 12)),
    (0, card([0, 0, 0], 0, NOWHERE)),
    (0, card([0, 0, 0], NOWHERE, 0)),
    (0, card([0, 0, 0], NOWHERE - 1, NOWHERE - 1)),
    (7, UNTOUCHED),
    (5, card([1, 3, 0], 1, 11)),
    (5, card([1, 3, 2], 1, 9)),
    (7, card([0, 0, 3], NOWHERE, NOWHERE)),
    (5, card([1, 5, 0], 1, 11)),
    (5, card([3, 3, 0], 1, 11)),
];

const fn card([reads, writes, sums]: [u16; 3], first: u16, last: u16) -> Card {
    Card { reads, writes, sums, first, last }
}

pub fn trace(run: &str) -> Trace {
    let mut trace = Trace::default();
    for event in run.split(", ").filter(|event| !event.is_empty()) {
        let words: Vec<&str> = event.split(' ').collect();
        let number = |at: usize| words.get(at).map_or(0, |word| word.parse().expect("a number"));
        let kind = match words[1] {
            "read" => READ,
            "write" => WRITE,
            "fork" => FORK,
            "join" => JOIN,
            "halt" => HALT,
            "sum" => SUM,
            _ => number(1) as u8,
        };
        trace.push(number(0), kind, number(2));
    }
    trace
}

pub fn runs(test: &mut Test) {
    RUNS.into_iter().for_each(|run| hold(test, run));
    ORDERS.into_iter().for_each(hold_orders);
    for (run, location, card) in CARDS {
        let mut all = vec![UNTOUCHED; LOCATIONS];
        all[location] = card;
        known(cards(&trace(run)), all, run);
    }
    for (n, location, card) in BUSY_CARDS {
        let begun = busy(n);
        known(cards(&begun)[location], card, &begun);
        known(test.judge(&begun), if n < 16 { Clean } else { Race(9, 15) }, &begun);
    }
    known(test.ordering(&Trace::default(), 0, 0), Ordering::Refused(13, 0), "no events");
}

/// The first events of that run.
pub fn busy(n: usize) -> Trace {
    let mut begun = trace(BUSY);
    begun.truncate(n);
    begun
}

/// A run that is told.
pub fn hold(test: &mut Test, (run, said, number): Told) {
    let trace = trace(run);
    known(links(&trace, said), number, run);
    known(test.both(&trace, 2), said, run);
    with_records(test, &trace, said);
}

/// The judge with cards on what is told: with a record too few, with just enough and with many more.
pub fn with_records(test: &mut Test, trace: &Trace, said: Answer) {
    let [workspace, first, second, need] = needed(trace);
    for cards in [need - 1, need, 5_000] {
        let carded = if cards < need { Refused(16, 0) } else { said };
        let told = test.judge_with(trace, [workspace, first, second, cards]);
        known(told, [said, carded], format_args!("{cards} records and {trace}"));
    }
}

/// The slow judge's orders are those that are told.
pub fn hold_orders((run, [first, second]): Ordered) {
    let (trace, n) = (trace(run), run.split(", ").count());
    let orders = Ancestors::default().judge(&trace, WORKSPACE + n, n, n).orders;
    known(orders, Some((first.to_vec(), second.to_vec())), run);
}

/// How many wrong cards were noticed. One that is not ends the test.
pub fn wrong_cards() -> usize {
    let cards = cards(&busy(15));
    for (location, card) in WRONG_CARDS {
        if cards[location] == card {
            fail(&format!("NOT NOTICED: of location {location} {card:?}"));
        }
    }
    WRONG_CARDS.len()
}

/// The slow judge's own way from a text to the output, which the owner compares with the program's.
pub fn texts() {
    let said = |input: &[u8], output: &str| {
        let shown = String::from_utf8_lossy(&input[..input.len().min(80)]);
        known(text::answer(input), output.to_string(), format_args!("the text {shown:?}"));
    };
    said(b"T0|fork(T1)|10\nT1|w(V5)|20\nT0|r(V5)|30\n", "race 1 3\n0 1 3 2\n0 3 1 2\n");
    // Task 1 resumes where task 2 halts.
    said(b"T0|fork(T1)|1\nT1|fork(T2)|2\nT0|r(V5)|3\n", "clean 5\n");
    said(b"", "clean 0\n");
    said(b"T0|r(5)|1\n", "refused 14 0\n");
    said(b"T0|r(V5)|1\nT0|r(V05)|1\n", "refused 14 1\n");
    said(b"T0|r(V5)|1", "refused 14 0\n");
    said(b"T0|r(V65536)|1\n", "refused 14 0\n");
    said(b"T0|r(V65535)|1\n", "refused 8 0\n");
    said(b"T0|s(V1)|1\n", "refused 14 0\n");
    said(&b"T0|r(V5)|1\n".repeat(2_048), "clean 2048\n");
    said(&b"T0|r(V5)|1\n".repeat(2_049), "refused 15 2048\n");
    // The program that reads no more than the decisive bytes reads just enough.
    let longest = b"T65535|fork(T65535)|65535\n".repeat(2_049);
    said(&longest[..text::DECISIVE_BYTES], "refused 15 2048\n");
    said(&longest[..text::DECISIVE_BYTES - 1], "refused 14 2048\n");
}
