//! Lengths of the lent slices, each with the row that refuses the call, told by hand: rows 1 to 4, 16
//! and 20 in their order, and the lengths that are just enough.

use crate::compare::{known, Test};
use crate::document::{trace, WRITES_TWICE};
use racejudge_bench::convert::convert;
use racejudge_bench::trace::*;

/// The lengths of kinds, tasks, operands, the workspace and two more slices, and the row that refuses
/// them, 0 where none does.
type Lengths = ([usize; 6], usize);

/// Of the judge, whose last two are the order buffers.
const JUDGED: [Lengths; 24] = [
    ([2, 3, 3, 12_300, 3, 3], 1),
    ([3, 2, 3, 12_300, 3, 3], 1),
    ([3, 3, 2, 12_300, 3, 3], 1),
    ([2, 2, 3, 12_300, 3, 3], 1),
    ([0, 0, 1, 12_300, 3, 3], 1),
    ([1, 0, 0, 12_300, 3, 3], 1),
    // Before rows 2, 3 and 4.
    ([32_769, 1, 1, 0, 0, 0], 1),
    ([1, 2, 1, 0, 0, 0], 1),
    // Row 2, also before rows 3 and 4.
    ([32_769, 32_769, 32_769, 45_057, 32_769, 32_769], 2),
    ([32_769, 32_769, 32_769, 0, 0, 0], 2),
    // Row 3, also before row 4.
    ([1, 1, 1, 12_288, 1, 1], 3),
    ([1, 1, 1, 0, 0, 0], 3),
    ([0, 0, 0, 12_287, 0, 0], 3),
    ([32_768, 32_768, 32_768, 45_055, 32_768, 32_768], 3),
    // Row 4, of either buffer.
    ([1, 1, 1, 12_289, 0, 1], 4),
    ([1, 1, 1, 12_289, 1, 0], 4),
    ([1, 1, 1, 12_289, 0, 0], 4),
    ([32_768, 32_768, 32_768, 45_056, 32_767, 32_768], 4),
    ([32_768, 32_768, 32_768, 45_056, 32_768, 32_767], 4),
    // Just enough, and more.
    ([0, 0, 0, 12_288, 0, 0], 0),
    ([0, 0, 0, 12_400, 7, 9], 0),
    ([1, 1, 1, 12_289, 1, 1], 0),
    ([4, 4, 4, 12_292, 4, 4], 0),
    ([4, 4, 4, 13_000, 90, 4], 0),
];

/// Of the call for pairs, of which there are two; the last two slices are those for them.
const LISTED: [Lengths; 21] = [
    ([5, 5, 5, 12_293, 2, 2], 0),
    ([5, 5, 5, 12_293, 3, 2], 0),
    ([5, 5, 5, 12_293, 2, 3], 0),
    ([5, 5, 5, 12_400, 90, 65_535], 0),
    // Either slice is shorter than the list, or both are.
    ([5, 5, 5, 12_293, 1, 2], 20),
    ([5, 5, 5, 12_293, 2, 1], 20),
    ([5, 5, 5, 12_293, 0, 90], 20),
    ([5, 5, 5, 12_293, 90, 0], 20),
    ([5, 5, 5, 12_293, 1, 1], 20),
    ([5, 5, 5, 12_293, 0, 0], 20),
    // Row 1, also before rows 2, 3 and 20.
    ([5, 6, 5, 12_293, 2, 2], 1),
    ([5, 5, 4, 12_293, 2, 2], 1),
    ([4, 5, 5, 0, 0, 0], 1),
    ([32_769, 1, 1, 0, 0, 0], 1),
    // Row 2, also before rows 3 and 20; and 32,768 events.
    ([32_769, 32_769, 32_769, 45_057, 2, 2], 2),
    ([32_769, 32_769, 32_769, 0, 0, 0], 2),
    ([32_768, 32_768, 32_768, 45_056, 2, 2], 0),
    ([32_768, 32_768, 32_768, 45_056, 2, 1], 20),
    // Row 3, also before row 20.
    ([5, 5, 5, 12_292, 2, 2], 3),
    ([5, 5, 5, 0, 1, 2], 3),
    ([32_768, 32_768, 32_768, 45_055, 0, 0], 3),
];

/// The events of a run, and behind them reads by task 0, with slices of three lengths.
fn cut(run: &str, [kinds, tasks, operands]: [usize; 3]) -> Trace {
    let mut trace = trace(run);
    trace.kinds.resize(kinds, READ);
    trace.tasks.resize(tasks, 0);
    trace.operands.resize(operands, 0);
    trace
}

pub fn all(test: &mut Test) {
    for ([kinds, tasks, operands, workspace, first, second], row) in JUDGED {
        let slices = [kinds, tasks, operands];
        judged(test, &cut("", slices), [workspace, first, second], row);
        let stored = "0 fork 1, 1 fork 2, 2 halt, 1 halt";
        converted(test, &cut(stored, slices), workspace, row);
    }
    for ([kinds, tasks, operands, workspace, earlier, later], row) in LISTED {
        let trace = cut(WRITES_TWICE, [kinds, tasks, operands]);
        let lent = [workspace, earlier, later];
        let said = if row == 0 { Listing::Pairs(2) } else { Listing::Refused(row, 0) };
        known(test.pairs_with(&trace, lent), said, format_args!("slices of {lent:?} and {trace}"));
    }
}

/// With a record too few, just enough and many more: row 16 comes behind rows 1 to 4.
fn judged(test: &mut Test, trace: &Trace, [workspace, first, second]: [usize; 3], row: usize) {
    let refused = |row: usize| if row == 0 { Answer::Clean } else { Answer::Refused(row, 0) };
    for cards in [LOCATIONS - 1, LOCATIONS, 5_000] {
        let carded = if row == 0 && cards < LOCATIONS { 16 } else { row };
        let lent = [workspace, first, second, cards];
        let told = test.judge_with(trace, lent);
        known(told, [row, carded].map(refused), format_args!("slices of {lent:?} and {trace}"));
    }
}

/// The conversion has rows 1 to 3 alone.
fn converted(test: &mut Test, trace: &Trace, workspace: usize, row: usize) {
    let said = if matches!(row, 1..=3) { Conversion::Refused(row) } else { Conversion::Done };
    known(convert(trace, workspace).said, said, format_args!("{workspace} cells and {trace}"));
    test.conversions.convert_with(trace, workspace);
}
