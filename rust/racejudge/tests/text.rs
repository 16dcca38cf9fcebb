//! Texts: their events, the places of these, and the texts that are refused.

use racejudge::{Event, Kind, Place, Refusal, Trace, MAX_TEXT_EVENTS, TEXT_BYTES};

const DOCUMENT: &str = include_str!("../../../examples/document.std");

/// The longest line that there is.
const LONGEST: &str = "T65535|fork(T65535)|65535\n";

fn accepted(text: &str) -> Trace {
    Trace::from_text(text).expect("a text of the form")
}

/// Line and source of each event.
fn places(trace: &Trace) -> Vec<(usize, u16)> {
    let place = |p| trace.place(p).map(|Place { line, source }| (line, source));
    (0..trace.len()).map(|p| place(p).expect("every event of a text has a place")).collect()
}

#[test]
fn document_01() {
    let trace = accepted(DOCUMENT);
    let events = [Event::fork(0, 1), Event::write(1, 5), Event::halt(1, 0), Event::read(0, 5)];
    assert!(trace.events().eq(events));
    assert_eq!(places(&trace), [(0, 10), (1, 20), (2, 30), (2, 30)]);
}

#[test]
fn implied_halts_stand_on_the_line_that_implied_them() {
    let trace = accepted(
        "T0|fork(T1)|7\nT1|fork(T2)|0\nT2|fork(T3)|65535\n\
         T1|r(V4)|20\nT1|fork(T5)|21\nT0|join(T1)|3\n",
    );
    let events = [
        Event::fork(0, 1),
        Event::fork(1, 2),
        Event::fork(2, 3),
        Event::halt(3, 2),
        Event::halt(2, 1),
        Event::read(1, 4),
        Event::fork(1, 5),
        Event::halt(5, 1),
        Event::halt(1, 0),
        Event::join(0, 1),
    ];
    assert!(trace.events().eq(events));
    let lines = [0, 1, 2, 3, 3, 3, 4, 5, 5, 5];
    let sources = [7, 0, 65_535, 20, 20, 20, 21, 3, 3, 3];
    assert!(places(&trace).into_iter().eq(lines.into_iter().zip(sources)));
}

/// Also where the text breaks the rules: a task that forks itself, or acts before it is forked.
#[test]
fn every_event_but_a_halt_is_its_own_line() {
    let text =
        "T0|fork(T0)|1\nT0|r(V1)|2\nT9|join(T4)|3\nT0|fork(T9)|4\nT9|w(V65535)|5\nT0|r(V1)|6\n";
    let trace = accepted(text);
    let own = (0..trace.len()).filter(|&p| trace.event(p).unwrap().kind() != Some(Kind::Halt));
    let sources: Vec<u16> = own.map(|p| trace.place(p).unwrap().source).collect();
    assert_eq!(sources, [1, 2, 3, 4, 5, 6]);
}

#[test]
fn events_that_are_added_have_no_place() {
    let mut trace = accepted(DOCUMENT);
    trace.push(Event::halt(0, 0));
    assert_eq!(trace.len(), 5);
    assert_eq!(trace.place(3), Some(Place { line: 2, source: 30 }));
    assert_eq!(trace.place(4), None);
    assert_eq!(trace.place(usize::MAX), None);
    trace.extend(accepted(DOCUMENT).events());
    assert_eq!((trace.len(), trace.place(5)), (9, None));
    let copy: Trace = accepted(DOCUMENT).events().collect();
    assert_eq!(copy.place(0), None);
}

#[test]
fn no_text_makes_no_events() {
    assert_eq!(Trace::from_text(""), Ok(Trace::default()));
    assert_eq!(Trace::from_text([0u8; 0]), Ok(Trace::default()));
}

#[test]
fn lines_that_are_not_of_the_form() {
    for line in [
        "\n",
        " \n",
        "T0|r(V1)|1",
        "T0|r(V1)|1\r\n",
        "T0|r(V1)|1 \n",
        " T0|r(V1)|1\n",
        "T0|r(V1)|\n",
        "T0|r(V1)\n",
        "T0|r(V1)|01\n",
        "T00|r(V1)|1\n",
        "T+1|r(V1)|1\n",
        "T0|r(V65536)|1\n",
        "T99999999999999999999|r(V1)|1\n",
        "T0|r(T1)|1\n",
        "T0|fork(V1)|1\n",
        "T0|halt(T1)|1\n",
        "T0|s(V1)|1\n",
        "T0|sum(V1)|1\n",
        "t0|r(V1)|1\n",
        "T0|r(V1)|1\0\n",
        "T0|r(V1)|¹\n",
    ] {
        let refused = Err(Refusal { row: 14, position: 0 });
        assert_eq!(Trace::from_text(line), refused, "{line:?}");
        let refused = Err(Refusal { row: 14, position: 3 });
        assert_eq!(Trace::from_text(format!("{DOCUMENT}{line}")), refused, "{line:?}");
    }
    let refused = Err(Refusal { row: 14, position: 0 });
    assert_eq!(Trace::from_text([0xff, 0xfe]), refused);
}

#[test]
fn as_many_events_as_a_text_may_make() {
    let read = "T0|r(V1)|1\n";
    let trace = accepted(&read.repeat(MAX_TEXT_EVENTS));
    assert_eq!(trace.len(), MAX_TEXT_EVENTS);
    assert_eq!(trace.place(MAX_TEXT_EVENTS - 1).unwrap().line, MAX_TEXT_EVENTS - 1);
    let refused = Err(Refusal { row: 15, position: MAX_TEXT_EVENTS });
    assert_eq!(Trace::from_text(read.repeat(MAX_TEXT_EVENTS + 1)), refused);

    // Implied halts count: a fork for each task, and as many halts before the last line.
    let forks = |tasks: usize| {
        let forks = (1..tasks).map(|task| format!("T{}|fork(T{task})|1\n", task - 1));
        forks.collect::<String>() + "T0|r(V1)|2\n"
    };
    assert_eq!(accepted(&forks(1_024)).len(), 2_047);
    assert_eq!(Trace::from_text(forks(1_025)), Err(Refusal { row: 15, position: 1_024 }));
}

#[test]
fn so_many_bytes_decide() {
    assert_eq!(TEXT_BYTES, 53_274);
    let text = LONGEST.repeat(MAX_TEXT_EVENTS + 1);
    assert_eq!(text.len(), TEXT_BYTES);
    let refused = Err(Refusal { row: 15, position: MAX_TEXT_EVENTS });
    for more in ["", "x", LONGEST] {
        assert_eq!(Trace::from_text(format!("{text}{more}")), refused);
    }
    let cut = &text[..TEXT_BYTES - 1];
    assert_eq!(Trace::from_text(cut), Err(Refusal { row: 14, position: MAX_TEXT_EVENTS }));
}
