//! The cards of a trace, and what a lender's records hold after each answer.

use racejudge::raw::{self, Told};
use racejudge::{cards, Card, Event, Refusal, Trace, LOCATIONS, MAX_EVENTS};

/// A child adds to location 7 and to 5, which it writes before; it reads the last one. Its parent adds
/// to 7 before it joins the child, reads 5, writes 0 and adds to 5. The child's number is no location
/// that is touched.
const CLEAN: [Event; 12] = [
    Event::fork(0, 6),
    Event::sum(6, 7),
    Event::write(6, 5),
    Event::read(6, 1_023),
    Event::sum(6, 5),
    Event::halt(6, 0),
    Event::sum(0, 7),
    Event::join(0, 6),
    Event::read(0, 5),
    Event::read(0, 5),
    Event::write(0, 0),
    Event::sum(0, 5),
];
const TOUCHED: [(usize, Card); 4] = [
    (0, card([0, 1, 0], 10, 10)),
    (5, card([2, 1, 2], 2, 11)),
    (7, card([0, 0, 2], 1, 6)),
    (1_023, card([1, 0, 0], 3, 3)),
];

const RACE: [Event; 4] =
    [Event::fork(0, 1), Event::write(1, 5), Event::halt(1, 0), Event::read(0, 5)];
const REFUSED: [Event; 2] = [Event::write(0, 5), Event::read(1, 5)];

const fn card([reads, writes, sums]: [u16; 3], first: u16, last: u16) -> Card {
    Card { reads, writes, sums, first, last }
}

fn trace(events: &[Event]) -> Trace {
    events.iter().copied().collect()
}

/// All cards where these locations alone are touched.
fn all(touched: &[(usize, Card)]) -> Vec<Card> {
    let mut all = vec![Card::UNTOUCHED; LOCATIONS];
    for &(location, card) in touched {
        all[location] = card;
    }
    all
}

#[test]
fn a_card_for_each_location() {
    assert_eq!(cards(&trace(&CLEAN)), Ok(Some(all(&TOUCHED))));
    assert_eq!(cards(&Trace::default()), Ok(Some(all(&[]))));
    for (event, counts) in [
        (Event::read(0, 0), [1, 0, 0]),
        (Event::write(0, 0), [0, 1, 0]),
        (Event::sum(0, 0), [0, 0, 1]),
    ] {
        assert_eq!(cards(&trace(&[event])), Ok(Some(all(&[(0, card(counts, 0, 0))]))));
    }
}

#[test]
fn every_event_touches_one_location() {
    let (most, last) = (MAX_EVENTS as u16, MAX_EVENTS as u16 - 1);
    for (event, counts) in [
        (Event::read(0, 7), [most, 0, 0]),
        (Event::write(0, 7), [0, most, 0]),
        (Event::sum(0, 7), [0, 0, most]),
    ] {
        let card = card(counts, 0, last);
        assert_eq!(cards(&trace(&vec![event; MAX_EVENTS])), Ok(Some(all(&[(7, card)]))));
        assert_eq!(card.accesses(), MAX_EVENTS);
        assert_eq!(card.span(), Some((0, MAX_EVENTS - 1)));
    }
}

#[test]
fn no_cards_of_other_traces() {
    assert_eq!(cards(&trace(&RACE)), Ok(None));
    // What follows the race decides nothing.
    assert_eq!(cards(&trace(&[&RACE[..], &REFUSED].concat())), Ok(None));
    assert_eq!(cards(&trace(&REFUSED)), Err(Refusal { row: 7, position: 1 }));
}

/// What a card says by its methods.
#[test]
fn accesses_and_span() {
    let full = card([u16::MAX; 3], 0, 65_534);
    assert_eq!((full.accesses(), full.span()), (196_605, Some((0, 65_534))));
    assert_eq!(card([1, 20, 300], 0, 0).accesses(), 321);
    assert_eq!((Card::UNTOUCHED.accesses(), Card::UNTOUCHED.span()), (0, None));
}

/// What is lent, with contents of its own.
#[derive(Clone, Debug, PartialEq)]
struct Lent {
    workspace: Vec<u16>,
    first: Vec<u16>,
    second: Vec<u16>,
    cards: Vec<Card>,
}

impl Lent {
    /// Enough for so many events, and so many records.
    fn new(events: usize, cards: usize) -> Self {
        Lent {
            workspace: vec![7; raw::WORKSPACE + events],
            first: vec![7; events],
            second: vec![7; events],
            cards: vec![card([7; 3], 7, 7); cards],
        }
    }

    fn judge(&mut self, trace: &Trace) -> Told<3> {
        let Lent { workspace, first, second, .. } = self;
        raw::judge(trace.kinds(), trace.tasks(), trace.operands(), workspace, first, second)
    }

    fn judge_cards(&mut self, trace: &Trace) -> Told<3> {
        let Lent { workspace, first, second, cards } = self;
        let (kinds, tasks, operands) = (trace.kinds(), trace.tasks(), trace.operands());
        raw::judge_cards(kinds, tasks, operands, workspace, first, second, cards)
    }
}

/// Beside the cards all is as without them; those of a clean trace stand in the first records.
#[test]
fn enough_records() {
    for (trace, written) in
        [(trace(&CLEAN), all(&TOUCHED)), (trace(&RACE), vec![]), (trace(&REFUSED), vec![])]
    {
        for records in [LOCATIONS, LOCATIONS + 1, LOCATIONS + 6] {
            let mut lent = Lent::new(trace.len(), records);
            let mut wanted = lent.clone();
            assert_eq!(lent.judge_cards(&trace), wanted.judge(&trace));
            wanted.cards[..written.len()].copy_from_slice(&written);
            assert_eq!(lent, wanted);
        }
    }
}

/// Whatever the events are.
#[test]
fn too_few_records_leave_all_as_it_was() {
    for trace in [trace(&[]), trace(&CLEAN), trace(&RACE), trace(&REFUSED)] {
        for records in [0, 1, LOCATIONS - 1] {
            refused(16, &trace, Lent::new(trace.len(), records));
        }
    }
}

#[test]
fn rows_1_to_4_come_before_row_16() {
    let clean = trace(&CLEAN);
    let lent = Lent::new(clean.len(), LOCATIONS - 1);
    let (cells, events) = (lent.workspace.len(), clean.len());
    refused(1, &Trace::from_slices(&[0, 0], &[0, 0], &[0]), lent.clone());
    refused(2, &trace(&vec![Event::read(0, 0); MAX_EVENTS + 1]), lent.clone());
    refused(3, &clean, Lent { workspace: vec![7; cells - 1], ..lent.clone() });
    refused(4, &clean, Lent { first: vec![7; events - 1], ..lent.clone() });
    refused(4, &clean, Lent { second: vec![7; events - 1], ..lent });
}

fn refused(row: u64, trace: &Trace, mut lent: Lent) {
    let before = lent.clone();
    let told = lent.judge_cards(trace);
    assert_eq!((told.code, told.values), (raw::REFUSED, [row, 0, 0]));
    assert!(lent == before, "row {row} changed what was lent");
}
