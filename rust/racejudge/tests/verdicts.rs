//! Verdicts and paths, up to the most events that a trace may have.

use racejudge::{judge, reaches, Event, Kind, Trace, Verdict, MAX_EVENTS};

fn trace(events: &[Event]) -> Trace {
    events.iter().copied().collect()
}

/// Document 01's run in which a child writes twice what its parent reads.
const WRITES_TWICE: [Event; 5] = [
    Event::fork(0, 1),
    Event::write(1, 5),
    Event::write(1, 5),
    Event::halt(1, 0),
    Event::read(0, 5),
];

#[test]
fn a_race_with_its_orders() {
    let (first, second) = (vec![0, 1, 4, 2, 3], vec![0, 4, 1, 2, 3]);
    let race = Verdict::Race { s: 1, t: 4, links: 0, first, second };
    assert_eq!(judge(&trace(&WRITES_TWICE)), Ok(race.clone()));
    // What follows decides nothing, be it against the rules.
    let mut longer = trace(&WRITES_TWICE);
    longer.extend([Event::halt(9, 0), Event { kind: 200, task: 0, operand: 0 }]);
    assert_eq!(judge(&longer), Ok(race));
}

#[test]
fn clean_traces() {
    assert_eq!(judge(&Trace::default()), Ok(Verdict::Clean { links: 0 }));
    assert_eq!(judge(&trace(&WRITES_TWICE[..4])), Ok(Verdict::Clean { links: 0 }));
    let mut joined = WRITES_TWICE;
    joined[4] = Event::join(0, 1);
    let mut joined = trace(&joined);
    joined.push(Event::write(0, 5));
    assert_eq!(judge(&joined), Ok(Verdict::Clean { links: 1 }));
}

/// An access by a task, of a kind, to a location.
type Access = fn(u16, u16) -> Event;

const READ: Access = Event::read;
const WRITE: Access = Event::write;
const SUM: Access = Event::sum;

/// The nine pairs of kinds, and whether accesses of the two to one location conflict.
const PAIRS: [(Access, Access, bool); 9] = [
    (READ, READ, false),
    (READ, WRITE, true),
    (READ, SUM, true),
    (WRITE, READ, true),
    (WRITE, WRITE, true),
    (WRITE, SUM, true),
    (SUM, READ, true),
    (SUM, WRITE, true),
    (SUM, SUM, false),
];

/// A child's access and its parent's, with the child joined between them or not.
#[test]
fn each_pair_of_kinds() {
    let clean = |joins: &[Event]| Ok(Verdict::Clean { links: joins.len() });
    for (one, other, conflict) in PAIRS {
        for (joins, location) in [(&[][..], 5), (&[], 6), (&[Event::join(0, 1)], 5)] {
            let start = [Event::fork(0, 1), one(1, 5), Event::halt(1, 0)];
            let events = [&start[..], joins, &[other(0, location)]].concat();
            let wanted = match (joins, location) {
                ([], 5) if conflict => {
                    let (first, second) = (vec![0, 1, 3, 2], vec![0, 3, 1, 2]);
                    Ok(Verdict::Race { s: 1, t: 3, links: 0, first, second })
                }
                _ => clean(joins),
            };
            assert_eq!(judge(&trace(&events)), wanted, "{events:?}");
        }
    }
}

/// Two children add to location 5 beside each other, and then their parent does something with it.
#[test]
fn a_counter_is_read_once_all_are_joined() {
    let counted = [
        Event::fork(0, 1),
        Event::sum(1, 5),
        Event::halt(1, 0),
        Event::fork(0, 2),
        Event::sum(2, 5),
        Event::sum(2, 5),
        Event::halt(2, 0),
        Event::join(0, 2),
    ];
    let judged = |more: &[Event]| judge(&trace(&[&counted, more].concat()));
    for last in [Event::read(0, 5), Event::write(0, 5)] {
        let told = judged(&[last]);
        assert!(matches!(told, Ok(Verdict::Race { s: 1, t: 8, .. })), "{told:?}");
        assert_eq!(judged(&[Event::join(0, 1), last]), Ok(Verdict::Clean { links: 1 }));
    }
    assert_eq!(judged(&[Event::sum(0, 5)]), Ok(Verdict::Clean { links: 1 }));
    // A sum that may stand beside others hides none of them.
    let told = judged(&[Event::sum(0, 5), Event::read(0, 5)]);
    assert!(matches!(told, Ok(Verdict::Race { s: 1, t: 9, .. })), "{told:?}");
}

#[test]
fn paths() {
    let trace = trace(&WRITES_TWICE);
    for (p, q, path) in [(0, 1, true), (0, 4, true), (1, 3, true), (1, 4, false), (3, 4, false)] {
        assert_eq!(reaches(&trace, p, q), Ok(path), "{p} {q}");
        assert_eq!(reaches(&trace, q, p), Ok(false), "{q} {p}");
        assert_eq!(reaches(&trace, p, p), Ok(true), "{p}");
    }
}

/// A child reads location 5 all the time, and its parent writes it at the end.
#[test]
fn as_many_events_as_a_trace_may_have() {
    let mut long = trace(&[Event::fork(0, 1)]);
    long.extend((0..MAX_EVENTS - 3).map(|_| Event::read(1, 5)));
    long.push(Event::halt(1, 0));
    assert_eq!(judge(&long), Ok(Verdict::Clean { links: 0 }));

    long.push(Event::write(0, 5));
    assert_eq!(long.len(), MAX_EVENTS);
    let Ok(Verdict::Race { s, t, first, second, .. }) = judge(&long) else { panic!("a race") };
    assert_eq!((s, t), (1, MAX_EVENTS - 1));
    let last = t as u16;
    for (order, start) in [(first, [0, 1, last]), (second, [0, last, 1])] {
        assert_eq!(order.len(), MAX_EVENTS);
        assert_eq!(order[..3], start);
        assert!(order[3..].iter().copied().eq(2..last));
    }
    assert_eq!(reaches(&long, s, t), Ok(false));
    assert_eq!(reaches(&long, 0, t), Ok(true));
}

#[test]
fn events_by_position() {
    let whole = trace(&WRITES_TWICE);
    assert!(whole.events().eq(WRITES_TWICE));
    assert!(whole.events().rev().eq(WRITES_TWICE.into_iter().rev()));
    assert_eq!(whole.events().len(), 5);
    assert_eq!(whole.event(4), Some(Event::read(0, 5)));
    assert_eq!((whole.event(5), whole.event(usize::MAX)), (None, None));
    assert!(Trace::default().is_empty() && !whole.is_empty());

    let uneven = Trace::from_slices(&[1, 1, 1], &[0, 0], &[5]);
    assert_eq!(
        (uneven.len(), uneven.event(0), uneven.event(1)),
        (1, Some(Event::write(0, 5)), None)
    );
    assert_eq!((uneven.kinds().len(), uneven.tasks().len(), uneven.operands().len()), (3, 2, 1));
}

#[test]
fn document_01s_notation() {
    for (event, words) in [
        (Event::read(1, 2), "1 read 2"),
        (Event::write(1, 5), "1 write 5"),
        (Event::fork(0, 1), "0 fork 1"),
        (Event::join(65_535, 0), "65535 join 0"),
        (Event::halt(1, 0), "1 halt 0"),
        (Event::halt(9, 8), "9 halt 8"),
        (Event::sum(0, 5), "0 sum 5"),
        (Event::halt(0, 0), "0 halt 0"),
        (Event { kind: 9, task: 3, operand: 7 }, "3 kind-9 7"),
    ] {
        assert_eq!(event.to_string(), words);
    }
}

#[test]
fn kinds_by_number() {
    let kinds = [Kind::Read, Kind::Write, Kind::Fork, Kind::Join, Kind::Halt, Kind::Sum];
    for number in 0..=255 {
        let kind = kinds.get(usize::from(number)).copied();
        assert_eq!(Kind::try_from(number).ok(), kind);
        assert_eq!(kind.map_or(number, Kind::number), number);
    }
    assert_eq!(kinds, Kind::ALL);
    assert_eq!(kinds.map(Kind::is_access), [true, true, false, false, false, true]);
}
