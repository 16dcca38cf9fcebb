//! The limits: 32,768 events, 1,024 tasks, lent slices of every length; and, for judges that look at
//! many events at a time, each place in a trace.

use crate::compare::{known, needed, Test};
use crate::sums::CONFLICTING;
use racejudge_bench::builder::Builder;
use racejudge_bench::cards::cards;
use racejudge_bench::extent::{Extent, LIMITS};
use racejudge_bench::trace::*;

pub fn all(test: &mut Test) {
    events(test);
    tasks(test);
    buffer_lengths(test);
    card_lengths(test);
    slice_lengths(test);
    full_cards(test);
    places(test);
}

fn reads(n: usize) -> Trace {
    Trace::of(&vec![(0, READ, 3); n])
}

fn events(test: &mut Test) {
    let (most, over) = (reads(MAX_EVENTS), reads(MAX_EVENTS + 1));
    known(test.judge(&most), Answer::Clean, &most);
    known(test.ordering(&most, 5, MAX_EVENTS - 1), Ordering::Yes, &most);
    known(test.ordering(&most, MAX_EVENTS - 1, 5), Ordering::No, &most);
    known(test.judge(&over), Answer::Refused(2, 0), &over);
    known(test.ordering(&over, 0, 0), Ordering::Refused(2, 0), &over);
    // The first condition that holds decides.
    known(test.judge_with(&over, [0; 4]), [Answer::Refused(2, 0); 2], &over);
    known(test.pairs_with(&over, [0; 3]), Listing::Refused(2, 0), &over);
    known(test.ordering_with(&over, 0, 0, 0), Ordering::Refused(2, 0), &over);
}

/// Task 0 and 1,023 others. `each` is done for every one of them, `last` once at the end.
fn all_tasks(each: fn(&mut Builder), last: fn(&mut Builder)) -> Trace {
    let mut b = Builder::default();
    while b.numbers_left() > 0 {
        each(&mut b);
    }
    last(&mut b);
    b.trace
}

/// Each task forks a child, which touches location 7.
fn nested(b: &mut Builder) {
    b.fork();
    b.write(7);
}

/// Task 0's children, one after the other.
fn beside(b: &mut Builder) {
    b.fork();
    b.read(7);
    b.halt();
}

fn tasks(test: &mut Test) {
    let nested_and_back = |b: &mut Builder| {
        while b.depth() > 1 {
            b.halt();
            b.join();
            b.write(7);
        }
    };
    let joined_at_once = |b: &mut Builder| {
        nested(b);
        b.halt();
        b.join();
    };
    let joined_late = |b: &mut Builder| {
        b.join_all();
        b.write(7);
    };
    let clean = [
        all_tasks(nested, |b| b.write(7)),
        all_tasks(nested, nested_and_back),
        all_tasks(joined_at_once, |b| b.write(7)),
        all_tasks(beside, joined_late),
    ];
    for trace in clean {
        known(Extent::of(&trace).tasks, LIMITS.tasks, format_args!("the tasks of {trace}"));
        known(test.both(&trace, 20), Answer::Clean, &trace);
    }
    let racing = all_tasks(beside, |b| b.write(7));
    known(test.both(&racing, 20), Answer::Race(1, racing.len() - 1), &racing);
}

/// Rows 3, 4 and 16, each alone and all at once.
fn buffer_lengths(test: &mut Test) {
    for n in [0, 1, 2, 100] {
        let (trace, need) = (reads(n), WORKSPACE + n);
        let short = n.saturating_sub(1);
        for workspace in [0, 1, 1_024, WORKSPACE - 1, WORKSPACE, need - 1, need, need + 999] {
            for first in [0, short, n, n + 1, 2 * n + 50] {
                for second in [0, short, n, n + 1] {
                    for cards in [0, LOCATIONS - 1, LOCATIONS, LOCATIONS + 1] {
                        test.judge_with(&trace, [workspace, first, second, cards]);
                    }
                    test.pairs_with(&trace, [workspace, first, second]);
                }
            }
            test.ordering_with(&trace, workspace, 0, short);
            test.ordering_with(&trace, workspace, n, 0);
        }
    }
    let one = reads(1);
    for cards in [0, LOCATIONS - 1, LOCATIONS] {
        let mut refused = |workspace: usize, first: usize, second: usize, row: usize| {
            let said = test.judge_with(&one, [workspace, first, second, cards]);
            known(said, [Answer::Refused(row, 0); 2], &one);
        };
        refused(WORKSPACE, 1, 1, 3);
        refused(WORKSPACE + 1, 0, 1, 4);
        refused(WORKSPACE + 1, 1, 0, 4);
    }
}

/// Row 16, which comes before the events are looked at.
fn card_lengths(test: &mut Test) {
    let race = [(0, FORK, 1), (1, WRITE, 7), (1, HALT, 0), (0, READ, 7)];
    for (events, said) in [
        (&[][..], Answer::Clean),
        (&race[..3], Answer::Clean),
        (&race[..], Answer::Race(1, 3)),
        (&[(0, NO_KIND, 0)], Answer::Refused(5, 0)),
        (&[(1, READ, 0)], Answer::Refused(7, 0)),
        (&[(0, READ, 1_024)], Answer::Refused(8, 0)),
    ] {
        let trace = Trace::of(events);
        let [workspace, first, second, need] = needed(&trace);
        for cards in [0, 1, need / 2].into_iter().chain(need - 9..need + 9).chain([2 * need]) {
            let carded = if cards < need { Answer::Refused(16, 0) } else { said };
            let told = test.judge_with(&trace, [workspace, first, second, cards]);
            known(told, [said, carded], &trace);
        }
    }
}

/// The first and the last location, touched by as many events as there may be.
fn full_cards(test: &mut Test) {
    const MOST: u16 = MAX_EVENTS as u16;
    for location in [0, LOCATIONS as u16 - 1] {
        for (kind, [reads, writes, sums]) in
            [(READ, [MOST, 0, 0]), (WRITE, [0, MOST, 0]), (SUM, [0, 0, MOST])]
        {
            let trace = Trace::of(&vec![(0, kind, location); MAX_EVENTS]);
            let card = Card { reads, writes, sums, first: 0, last: MOST - 1 };
            known(cards(&trace)[location as usize], card, &trace);
            known(test.judge(&trace), Answer::Clean, &trace);
        }
    }
    let (most, mut lent) = (reads(MAX_EVENTS), needed(&reads(MAX_EVENTS)));
    lent[3] -= 1;
    known(test.judge_with(&most, lent), [Answer::Clean, Answer::Refused(16, 0)], &most);
}

/// Row 1, which comes before all others.
fn slice_lengths(test: &mut Test) {
    const OVER: usize = MAX_EVENTS + 1;
    for [kinds, tasks, operands] in [
        [0, 1, 1],
        [1, 0, 1],
        [1, 1, 0],
        [2, 3, 3],
        [3, 2, 3],
        [3, 3, 2],
        [0, 0, 9],
        [OVER, OVER, 4],
        [4, OVER, 4],
        [0, 7, 0],
    ] {
        let mut trace = reads(OVER);
        trace.kinds.truncate(kinds);
        trace.tasks.truncate(tasks);
        trace.operands.truncate(operands);
        for lent in [[0; 4], [WORKSPACE + OVER, OVER, OVER, LOCATIONS]] {
            known(test.judge_with(&trace, lent), [Answer::Refused(1, 0); 2], &trace);
            let listed = test.pairs_with(&trace, [lent[0], lent[1], lent[2]]);
            known(listed, Listing::Refused(1, 0), &trace);
            known(test.ordering_with(&trace, lent[0], 0, 0), Ordering::Refused(1, 0), &trace);
        }
    }
}

/// More than two blocks of any judge that looks at many events at a time.
const PLACES: usize = 300;

/// Each event in turn breaks a rule, is raced with, or races, among reads and among sums.
fn places(test: &mut Test) {
    for p in 0..PLACES {
        flaws_at(test, p);
        halts_at(test, 2 + p);
    }
    for (one, other) in CONFLICTING {
        for place in 1..PLACES {
            let others = [READ, SUM][place % 2];
            raced_with_at(test, place, one, other, others);
            races_at(test, place + 2, one, other, others);
        }
    }
}

/// The child's event s is raced with by the last one.
fn raced_with_at(test: &mut Test, s: usize, one: u8, other: u8, others: u8) {
    let mut child = vec![(1, others, 3); PLACES];
    child[0] = (0, FORK, 1);
    child[s] = (1, one, 7);
    child.extend([(1, HALT, 0), (0, other, 7)]);
    let trace = Trace::of(&child);
    known(test.judge(&trace), Answer::Race(s, PLACES + 1), &trace);
}

/// The parent's event t races with the child's only one.
fn races_at(test: &mut Test, t: usize, one: u8, other: u8, others: u8) {
    let mut parent = vec![(0, others, 3); PLACES + 2];
    parent[..3].copy_from_slice(&[(0, FORK, 1), (1, one, 7), (1, HALT, 0)]);
    parent[t] = (0, other, 7);
    let trace = Trace::of(&parent);
    known(test.judge(&trace), Answer::Race(1, t), &trace);
}

/// Event p is the halt of task 2, which task 1 has forked and which has read so far.
fn halts_at(test: &mut Test, p: usize) {
    for operand in [1, 0, 2, 3, 1_025, u16::MAX] {
        let mut all = vec![(2, READ, 3); 2 + PLACES];
        all[..2].copy_from_slice(&[(0, FORK, 1), (1, FORK, 2)]);
        all[p] = (2, HALT, operand);
        all[p + 1..].fill((1, READ, 3));
        let trace = Trace::of(&all);
        let said = if operand == 1 { Answer::Clean } else { Answer::Refused(12, p) };
        known(test.judge(&trace), said, &trace);
    }
}

/// Event p breaks a rule, or lets the next one break it.
fn flaws_at(test: &mut Test, p: usize) {
    const ANY: Event = (0, READ, 3);
    const LAST: u16 = u16::MAX;
    let at_once = [
        ((0, NO_KIND, 0), 5),
        ((0, 255, 3), 5),
        ((1, READ, 3), 7),
        ((1, SUM, 3), 7),
        ((LAST, READ, 3), 7),
        ((0, READ, 1_024), 8),
        ((0, WRITE, LAST), 8),
        ((0, SUM, 1_024), 8),
        ((0, FORK, 1_024), 9),
        ((0, FORK, 0), 10),
        ((0, JOIN, 1), 11),
        ((0, JOIN, LAST), 11),
        ((0, HALT, 1), 12),
        ((0, HALT, 1_024), 12),
        ((0, HALT, LAST), 12),
    ];
    let next = [
        ([(0, HALT, 0), ANY], 6),
        ([(0, HALT, 0), (0, SUM, 3)], 6),
        ([(0, HALT, 0), (LAST, READ, 3)], 6),
        ([(0, HALT, 0), (0, NO_KIND, 3)], 5),
        ([(0, HALT, 0), (LAST, HALT, 0)], 6),
        ([(0, FORK, 1), ANY], 7),
        ([(0, FORK, 1), (1, FORK, 1)], 10),
        ([(0, FORK, 1), (1, HALT, 1)], 12),
    ];
    let at_once = at_once.map(|(event, row)| ([event, ANY], row, p));
    let next = next.map(|(events, row)| (events, row, p + 1));
    for (events, row, at) in at_once.into_iter().chain(next) {
        let mut all = vec![ANY; PLACES + 1];
        all[p..p + 2].copy_from_slice(&events);
        let trace = Trace::of(&all);
        known(test.judge(&trace), Answer::Refused(row, at), &trace);
    }
}
