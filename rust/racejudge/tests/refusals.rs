//! Every row of the table: how it is met, and what is said of it.

use racejudge::{
    cards, judge, pairs, raw, reaches, Card, Event, Plan, Refusal, Trace, Verdict, LOCATIONS,
    MAX_EVENTS, TASKS,
};
use std::collections::HashSet;
use std::error::Error;

const FIRST: Event = Event::read(0, 0);

fn trace(events: &[Event]) -> Trace {
    events.iter().copied().collect()
}

/// All calls refuse alike, whatever is asked.
fn refused(trace: &Trace, row: usize, position: usize) {
    let refusal = Refusal { row, position };
    assert_eq!(judge(trace), Err(refusal));
    assert_eq!(cards(trace), Err(refusal));
    assert_eq!(pairs(trace).err(), Some(refusal));
    assert_eq!(reaches(trace, 0, 0), Err(refusal));
    assert_eq!(reaches(trace, usize::MAX, usize::MAX), Err(refusal));
}

#[test]
fn rows_1_and_2() {
    let (some, more) = ([0, 0], [0, 0, 0]);
    refused(&Trace::from_slices(&[0, 0, 0], &some, &more), 1, 0);
    refused(&Trace::from_slices(&[0, 0, 0], &more, &some), 1, 0);
    refused(&Trace::from_slices(&[0, 0], &more, &more), 1, 0);
    refused(&Trace::from_slices(&[0; MAX_EVENTS + 1], &[0; MAX_EVENTS], &[0; MAX_EVENTS]), 1, 0);
    for n in [MAX_EVENTS + 1, 2 * MAX_EVENTS, 200_000] {
        refused(&trace(&vec![FIRST; n]), 2, 0);
    }
    // Row 2 comes before what the events are.
    refused(&Trace::from_slices(&vec![9; 70_000], &vec![9; 70_000], &vec![9; 70_000]), 2, 0);
}

#[test]
fn rows_3_and_4_which_only_a_lender_meets() {
    let (mut workspace, mut order) = ([7; raw::WORKSPACE], [7; 1]);
    let told = raw::judge(&[0], &[0], &[0], &mut workspace, &mut [7], &mut order);
    assert_eq!((told.code, told.values), (raw::REFUSED, [3, 0, 0]));
    let told = raw::ordering(&[0], &[0], &[0], &mut workspace, 0, 0);
    assert_eq!((told.code, told.values), (raw::REFUSED, [3, 0]));
    let told = raw::convert(&[0], &[0], &mut [0], &mut workspace);
    assert_eq!((told.code, told.values), (raw::REFUSED, [3, 0]));
    let told = raw::pairs(&[0], &[0], &[0], &mut workspace, &mut [], &mut []);
    assert_eq!((told.code, told.values), (raw::REFUSED, [3, 0]));
    assert_eq!(workspace, [7; raw::WORKSPACE]);
    let mut workspace = [7; raw::WORKSPACE + 1];
    let told = raw::judge(&[0], &[0], &[0], &mut workspace, &mut [], &mut order);
    assert_eq!((told.code, told.values), (raw::REFUSED, [4, 0, 0]));
    assert_eq!((workspace, order), ([7; raw::WORKSPACE + 1], [7]));
}

#[test]
fn rows_5_to_12() {
    let (tasks, locations) = (TASKS as u16, LOCATIONS as u16);
    for (last, row) in [
        (Event { kind: 6, task: 0, operand: 0 }, 5),
        (Event { kind: 255, task: 9, operand: 9 }, 5),
        (Event::read(1, 0), 7),
        (Event::sum(1, 0), 7),
        (Event::halt(u16::MAX, 0), 7),
        (Event::read(0, locations), 8),
        (Event::write(0, u16::MAX), 8),
        (Event::sum(0, locations), 8),
        (Event::fork(0, tasks), 9),
        (Event::fork(0, 0), 10),
        (Event::join(0, 1), 11),
        (Event::halt(0, 3), 12),
    ] {
        refused(&trace(&[last]), row, 0);
        refused(&trace(&[FIRST, FIRST, last, FIRST]), row, 2);
        let mut long = vec![FIRST; MAX_EVENTS - 1];
        long.push(last);
        refused(&trace(&long), row, MAX_EVENTS - 1);
    }
    for after in [FIRST, Event::sum(0, 0), Event::sum(9, locations)] {
        refused(&trace(&[Event::halt(0, 0), after]), 6, 1);
    }
    refused(&trace(&[Event::halt(0, 0), Event { kind: 6, task: 0, operand: 0 }]), 5, 1);
    refused(&trace(&[Event::fork(0, 1), Event::halt(1, 0), Event::fork(0, 1)]), 10, 2);
}

/// In a nest each halt names the task beneath, and no other.
#[test]
fn row_12_is_a_halt_that_does_not_name_who_resumes() {
    let nest = [
        Event::fork(0, 5),
        Event::fork(5, 3),
        Event::fork(3, 9),
        Event::halt(9, 3),
        Event::halt(3, 5),
        Event::halt(5, 0),
        Event::halt(0, 0),
    ];
    assert_eq!(judge(&trace(&nest)), Ok(Verdict::Clean { links: 0 }));
    for halt in 3..nest.len() {
        let Event { task, operand: resumes, .. } = nest[halt];
        for named in [0, 3, 5, 9, 1, 1_023, 1_024, resumes + 1_024, u16::MAX] {
            if named != resumes {
                let events = [&nest[..halt], &[Event::halt(task, named)]].concat();
                refused(&trace(&events), 12, halt);
            }
        }
    }
    // A sibling that has halted does not resume.
    let siblings = [Event::fork(0, 1), Event::halt(1, 0), Event::fork(0, 2), Event::halt(2, 1)];
    refused(&trace(&siblings), 12, 3);
}

#[test]
fn row_13() {
    let refusal = Err(Refusal { row: 13, position: 0 });
    let two = trace(&[FIRST, FIRST]);
    for far in [2, 3, MAX_EVENTS, 65_536, usize::MAX / 2, usize::MAX - 1, usize::MAX] {
        assert_eq!(reaches(&two, far, 0), refusal);
        assert_eq!(reaches(&two, 0, far), refusal);
        assert_eq!(reaches(&two, far, far), refusal);
    }
    assert_eq!(reaches(&Trace::default(), 0, 0), refusal);
}

#[test]
fn rows_14_and_15() {
    let line = "T0|w(V0)|1\n";
    assert_eq!(Trace::from_text("x"), Err(Refusal { row: 14, position: 0 }));
    assert_eq!(Trace::from_text(line.repeat(3_000)), Err(Refusal { row: 15, position: 2_048 }));
}

#[test]
fn row_16_which_only_a_lender_of_cards_meets() {
    let (mut workspace, mut order) = ([7; raw::WORKSPACE + 1], [7; 1]);
    let mut few = [Card::UNTOUCHED; LOCATIONS - 1];
    let told = raw::judge_cards(&[0], &[0], &[0], &mut workspace, &mut [7], &mut order, &mut few);
    assert_eq!((told.code, told.values), (raw::REFUSED, [16, 0, 0]));
}

#[test]
fn rows_17_to_19() {
    let deep = "P(".repeat(65);
    let wide = (0..7).fold("w0".to_string(), |plan, _| format!("S({plan},P({plan},{plan}))"));
    for (plan, row, position) in [("x", 17, 0), (&deep, 18, 128), (&wide, 19, 0)] {
        assert_eq!(Plan::parse(plan).unwrap_err().refusal, Refusal { row, position });
    }
    // Row 19 is a short slice's too, which only a lender meets.
    let told = raw::plan(b"w0", &mut [7], &mut [], &mut [7]);
    assert_eq!((told.code, told.values), (raw::REFUSED, [19, 0]));
}

#[test]
fn row_20_which_only_a_lender_of_slices_for_pairs_meets() {
    let race =
        trace(&[Event::fork(0, 1), Event::write(1, 5), Event::halt(1, 0), Event::read(0, 5)]);
    let mut workspace = [7; raw::WORKSPACE + 4];
    let (kinds, tasks, operands) = (race.kinds(), race.tasks(), race.operands());
    for (earlier, later) in [(0, 0), (0, 1), (1, 0), (0, 9), (9, 0)] {
        let (mut earlier, mut later) = (vec![7; earlier], vec![7; later]);
        let told = raw::pairs(kinds, tasks, operands, &mut workspace, &mut earlier, &mut later);
        assert_eq!((told.code, told.values), (raw::REFUSED, [20, 0]));
        assert!(earlier.iter().chain(&later).all(|&cell| cell == 7));
        assert_eq!(workspace, [0; raw::WORKSPACE + 4]);
    }
    let sentence = Refusal { row: 20, position: 0 }.to_string();
    let wanted =
        "the call is refused by row 20: a slice for the pairs has fewer cells than there are \
                  close pairs";
    assert_eq!(sentence, wanted);
}

#[test]
fn each_row_has_a_sentence_of_its_own() {
    let refusals = || (1..=20).map(|row| Refusal { row, position: 4_711 });
    let meanings: HashSet<&str> = refusals().map(|refusal| refusal.meaning()).collect();
    assert_eq!(meanings.len(), 20);
    for refusal in refusals() {
        let (sentence, row) = (refusal.to_string(), refusal.row);
        assert!(sentence.contains(&format!("row {row}:")), "{sentence}");
        assert!(sentence.contains(refusal.meaning()), "{sentence}");
        let named = match row {
            5..=12 => "event 4711, counted from 0,",
            14 | 15 => "line 4711, counted from 0,",
            17 | 18 => "byte 4711, counted from 0,",
            _ => "the call",
        };
        assert!(sentence.starts_with(named), "{sentence}");
        assert_eq!(sentence.contains("4711"), named != "the call", "{sentence}");
    }
}

#[test]
fn a_row_that_is_not_known_is_told_too() {
    for row in [0, 21, usize::MAX] {
        let sentence = Refusal { row, position: usize::MAX }.to_string();
        let start = format!("refused by row {row} at position {}: ", usize::MAX);
        assert!(sentence.starts_with(&start), "{sentence}");
    }
}

#[test]
fn a_refusal_is_an_error() {
    fn text_and_verdict() -> Result<(), Box<dyn Error>> {
        _ = judge(&Trace::from_text("T1|r(V0)|1\n")?)?;
        Ok(())
    }
    let error = text_and_verdict().unwrap_err();
    assert!(error.to_string().starts_with("event 0"), "{error}");
}
