//! No call writes behind its values.

use racejudge::{raw, Card};
use std::ptr::NonNull;

const UNSET: u64 = u64::MAX;

/// What a call returns, and what it leaves in five cells, of which it may use the first ones.
fn stored<T>(call: impl FnOnce(*mut T) -> u64) -> (u64, [u64; 5]) {
    let mut cells = [UNSET; 5];
    (call(cells.as_mut_ptr().cast()), cells)
}

/// A slice of no cells, to be read or written.
fn none<T>() -> *mut T {
    NonNull::dangling().as_ptr()
}

#[test]
fn as_many_as_the_call_has() {
    // Safe: each slice has its length, and there are more cells than any call stores.
    let judged = stored(|values| unsafe {
        let (w, f, s) = (none(), none(), none());
        raw::racejudge_judge(none(), 0, none(), 0, none(), 0, w, 0, f, 0, s, 0, values)
    });
    assert_eq!(judged, (raw::REFUSED, [3, 0, 0, UNSET, UNSET]));
    let carded = stored(|values| unsafe {
        let (w, f, s, c) = (none(), none(), none(), none::<Card>());
        raw::racejudge_judge_cards(none(), 0, none(), 0, none(), 0, w, 0, f, 0, s, 0, c, 0, values)
    });
    assert_eq!(carded, (raw::REFUSED, [3, 0, 0, UNSET, UNSET]));
    let listed = stored(|values| unsafe {
        let (w, e, l) = (none(), none(), none());
        raw::racejudge_pairs(none(), 0, none(), 0, none(), 0, w, 0, e, 0, l, 0, values)
    });
    assert_eq!(listed, (raw::REFUSED, [3, 0, UNSET, UNSET, UNSET]));
    let mut cells = [7; raw::WORKSPACE];
    let listed = stored(|values| unsafe {
        let (w, e, l) = (cells.as_mut_ptr(), none(), none());
        raw::racejudge_pairs(none(), 0, none(), 0, none(), 0, w, cells.len(), e, 0, l, 0, values)
    });
    assert_eq!(listed, (raw::LISTED, [0, 0, UNSET, UNSET, UNSET]));
    let ordered = stored(|values| unsafe {
        raw::racejudge_ordering(none(), 0, none(), 0, none(), 0, none(), 0, 0, 0, values)
    });
    assert_eq!(ordered, (raw::REFUSED, [3, 0, UNSET, UNSET, UNSET]));
    let converted = stored(|values| unsafe {
        raw::racejudge_convert(none(), 0, none(), 0, none(), 0, none(), 0, values)
    });
    assert_eq!(converted, (raw::REFUSED, [3, 0, UNSET, UNSET, UNSET]));
    let mut cells = [7; raw::WORKSPACE];
    let converted = stored(|values| unsafe {
        let workspace = cells.as_mut_ptr();
        raw::racejudge_convert(none(), 0, none(), 0, none(), 0, workspace, cells.len(), values)
    });
    assert_eq!(converted, (raw::CONVERTED, [0, 0, UNSET, UNSET, UNSET]));
    let translated = stored(|values| unsafe {
        raw::racejudge_translate(none(), 0, none(), 0, none(), 0, none(), 0, values)
    });
    assert_eq!(translated, (raw::SHORT, [0, 0, UNSET, UNSET, UNSET]));
    let planned = stored(|values| unsafe {
        raw::racejudge_plan(none(), 0, none(), 0, none(), 0, none(), 0, values)
    });
    assert_eq!(planned, (raw::REFUSED, [17, 0, UNSET, UNSET, UNSET]));
}
