//! The linked judges, calls for pairs, readers and conversions: the library, by its bindings, the
//! same with two parameters exchanged, and the peers in C. This module alone knows the form in which an answer comes back: all others compare a
//! `Told` with that of the answer that they want, or turn it into one.

use crate::trace::*;
pub use racejudge::raw::Told;
use racejudge::raw::{self, JudgeCall, OrderingCall, PairsCall};
/// A card, as it stands in a lent slice.
pub use racejudge::Card as Record;
use std::ffi::{c_char, CString};

/// The file name of the archive that is linked as the judge.
pub const LINKED: &str = raw::ARCHIVE;

racejudge::foreign!(judge fn twoorders_judge);
racejudge::foreign!(judge fn unionfind_judge);
racejudge::foreign!(ordering fn twoorders_ordering);
racejudge::foreign!(ordering fn unionfind_ordering);
racejudge::foreign!(pairs fn pairs_list);
racejudge::foreign!(translate fn planread_plan);
racejudge::foreign!(convert fn resume_convert);
racejudge::foreign!(judge fn planted_judge);
racejudge::foreign!(judge_cards fn planted_judge_cards);
racejudge::foreign!(ordering fn planted_ordering);
racejudge::foreign!(pairs fn planted_pairs);
racejudge::foreign!(translate fn planted_translate);
racejudge::foreign!(translate fn planted_plan);
racejudge::foreign!(convert fn planted_convert);
racejudge::foreign!(translate type ReadCall);
racejudge::foreign!(convert type ConvertCall);
#[cfg(before)]
racejudge::foreign!(judge fn before_judge);
#[cfg(before)]
racejudge::foreign!(ordering fn before_ordering);

extern "C" {
    fn floor_call(
        kinds: *const u8,
        tasks: *const u16,
        operands: *const u16,
        n: usize,
        workspace: *mut u16,
    ) -> u64;
    fn pass_call(kinds: *const u8, operands: *const u16, n: usize, cards: *mut Record);
    fn planted_exchange(call: *const c_char, one: usize, other: usize);
}

/// From now on the planted call of this name exchanges these two of its parameters, counted from 0 with
/// a slice and its length as one; the others are the library's own. Where no call has the name, all are.
/// A slice that is lent to be read may be written then: it must be memory that no other relies on.
pub fn exchange(call: &str, [one, other]: [usize; 2]) {
    let call = CString::new(call).expect("a name");
    // Safe: the name is never freed.
    unsafe { planted_exchange(call.into_raw(), one, other) }
}

fn told<const VALUES: usize>(code: u64, values: [usize; VALUES]) -> Told<VALUES> {
    Told { code, values: values.map(|value| value as u64) }
}

/// What a judge tells that has this answer and this number of links.
pub fn judged(answer: Answer, links: usize) -> Told<3> {
    match answer {
        Answer::Clean => told(raw::CLEAN, [0, 0, links]),
        Answer::Race(s, t) => told(raw::RACE, [s, t, links]),
        Answer::Refused(number, position) => told(raw::REFUSED, [number, position, links]),
    }
}

impl From<Ordering> for Told<2> {
    fn from(answer: Ordering) -> Self {
        match answer {
            Ordering::No => told(raw::NO, [0, 0]),
            Ordering::Yes => told(raw::YES, [0, 0]),
            Ordering::Refused(number, position) => told(raw::REFUSED, [number, position]),
        }
    }
}

impl From<Listing> for Told<2> {
    fn from(answer: Listing) -> Self {
        match answer {
            Listing::Pairs(k) => told(raw::LISTED, [k, 0]),
            Listing::Refused(number, position) => told(raw::REFUSED, [number, position]),
        }
    }
}

impl From<Conversion> for Told<2> {
    fn from(answer: Conversion) -> Self {
        match answer {
            Conversion::Done => told(raw::CONVERTED, [0, 0]),
            Conversion::Refused(number) => told(raw::REFUSED, [number, 0]),
        }
    }
}

impl From<Translation> for Told<2> {
    fn from(answer: Translation) -> Self {
        match answer {
            Translation::Events(n) => told(raw::TRANSLATED, [n, 0]),
            Translation::Refused(number, line) => told(raw::REFUSED, [number, line]),
            Translation::Short => told(raw::SHORT, [0, 0]),
        }
    }
}

impl From<Card> for Record {
    fn from(Card { reads, writes, sums, first, last }: Card) -> Self {
        Record { reads, writes, sums, first, last }
    }
}

impl From<Told<3>> for Answer {
    fn from(told: Told<3>) -> Self {
        let [a, b, _] = told.values.map(|value| value as usize);
        match told.code {
            raw::CLEAN => Answer::Clean,
            raw::RACE => Answer::Race(a, b),
            _ => Answer::Refused(a, b),
        }
    }
}

impl From<Told<2>> for Ordering {
    fn from(told: Told<2>) -> Self {
        let [number, position] = told.values.map(|value| value as usize);
        match told.code {
            raw::NO => Ordering::No,
            raw::YES => Ordering::Yes,
            _ => Ordering::Refused(number, position),
        }
    }
}

/// One linked judge.
pub struct Judge {
    pub name: &'static str,
    judge: JudgeCall,
    ordering: OrderingCall,
}

/// The library.
pub const PROVED: Judge =
    Judge { name: "the library", judge: raw::racejudge_judge, ordering: raw::racejudge_ordering };

pub const TWO_ORDERS: Judge =
    Judge { name: "two orders C", judge: twoorders_judge, ordering: twoorders_ordering };

pub const UNION_FIND: Judge =
    Judge { name: "union-find C", judge: unionfind_judge, ordering: unionfind_ordering };

/// The library's, of which a call may exchange two parameters.
pub const PLANTED: Judge =
    Judge { name: "the library, planted", judge: planted_judge, ordering: planted_ordering };

/// An older judge, where one is linked. Version 1 leaves the third value unset, 1 and 2 know no sums,
/// and before version 5 halts name no task.
#[cfg(before)]
pub const BEFORE: Option<Judge> =
    Some(Judge { name: "judge before", judge: before_judge, ordering: before_ordering });
#[cfg(not(before))]
pub const BEFORE: Option<Judge> = None;

/// Safe: the peers in C take any contents and lengths, as the library does.
impl Judge {
    /// Whether it takes sums, which it refuses where it is older than they are.
    pub fn knows_sums(&self) -> bool {
        self.takes(&[(0, SUM, 0)])
    }

    /// Whether a halt names the task that resumes. Where the judge is older than that, it names none.
    pub fn knows_resumed(&self) -> bool {
        self.takes(&[(0, FORK, 1), (1, FORK, 2), (2, HALT, 1)])
    }

    fn takes(&self, events: &[Event]) -> bool {
        let (trace, n) = (Trace::of(events), events.len());
        let (mut first, mut second) = (vec![0; n], vec![0; n]);
        let told = self.judge(&trace, &mut vec![0; WORKSPACE + n], &mut first, &mut second);
        told.code == raw::CLEAN
    }

    pub fn judge(
        &self,
        trace: &Trace,
        workspace: &mut [u16],
        first: &mut [u16],
        second: &mut [u16],
    ) -> Told<3> {
        let Trace { kinds, tasks, operands } = trace;
        unsafe { raw::judge_by(self.judge, kinds, tasks, operands, workspace, first, second) }
    }

    pub fn ordering(&self, trace: &Trace, workspace: &mut [u16], p: usize, q: usize) -> Told<2> {
        let Trace { kinds, tasks, operands } = trace;
        unsafe { raw::ordering_by(self.ordering, kinds, tasks, operands, workspace, p, q) }
    }
}

/// One linked call for pairs.
pub struct Lister {
    pub name: &'static str,
    list: PairsCall,
}

/// The library's.
pub const LISTER: Lister = Lister { name: "the library, pairs", list: raw::racejudge_pairs };

pub const LISTER_C: Lister = Lister { name: "pairs C", list: pairs_list };

pub const PLANTED_LISTER: Lister =
    Lister { name: "the library, planted pairs", list: planted_pairs };

impl Lister {
    /// Safe, as for a judge.
    pub fn list(
        &self,
        trace: &Trace,
        workspace: &mut [u16],
        earlier: &mut [u16],
        later: &mut [u16],
    ) -> Told<2> {
        let Trace { kinds, tasks, operands } = trace;
        unsafe { raw::pairs_by(self.list, kinds, tasks, operands, workspace, earlier, later) }
    }
}

/// Reads a text or a plan, and writes kinds, tasks and operands.
type Read = fn(&[u8], &mut [u8], &mut [u16], &mut [u16]) -> Told<2>;

/// One linked reader.
pub struct Reader {
    pub name: &'static str,
    pub read: Read,
}

/// The library's.
pub const TRANSLATION: Reader = Reader { name: "the library, translation", read: raw::translate };
pub const PLAN: Reader = Reader { name: "the library, plan", read: raw::plan };

pub const PLAN_C: Reader = Reader {
    name: "reader C",
    read: |text, kinds, tasks, operands| read_by(planread_plan, text, kinds, tasks, operands),
};

pub const PLANTED_TRANSLATION: Reader = Reader {
    name: "the library, planted translation",
    read: |text, kinds, tasks, operands| read_by(planted_translate, text, kinds, tasks, operands),
};
pub const PLANTED_PLAN: Reader = Reader {
    name: "the library, planted plan",
    read: |text, kinds, tasks, operands| read_by(planted_plan, text, kinds, tasks, operands),
};

#[inline]
fn read_by(
    call: ReadCall,
    text: &[u8],
    kinds: &mut [u8],
    tasks: &mut [u16],
    operands: &mut [u16],
) -> Told<2> {
    let mut values = [u64::MAX; 2];
    // Safe, as for a judge.
    let code = unsafe {
        call(
            text.as_ptr(),
            text.len(),
            kinds.as_mut_ptr(),
            kinds.len(),
            tasks.as_mut_ptr(),
            tasks.len(),
            operands.as_mut_ptr(),
            operands.len(),
            &mut values,
        )
    };
    Told { code, values }
}

/// Brings a stored trace over, of which it is lent kinds, tasks and operands, and a workspace.
type Convert = fn(&[u8], &[u16], &mut [u16], &mut [u16]) -> Told<2>;

/// One linked conversion.
pub struct Converter {
    pub name: &'static str,
    pub convert: Convert,
}

/// The library's.
pub const CONVERSION: Converter =
    Converter { name: "the library, conversion", convert: raw::convert };

pub const CONVERSION_C: Converter = Converter {
    name: "conversion C",
    convert: |kinds, tasks, operands, workspace| {
        convert_by(resume_convert, kinds, tasks, operands, workspace)
    },
};

pub const PLANTED_CONVERSION: Converter = Converter {
    name: "the library, planted conversion",
    convert: |kinds, tasks, operands, workspace| {
        convert_by(planted_convert, kinds, tasks, operands, workspace)
    },
};

#[inline]
fn convert_by(
    call: ConvertCall,
    kinds: &[u8],
    tasks: &[u16],
    operands: &mut [u16],
    workspace: &mut [u16],
) -> Told<2> {
    let mut values = [u64::MAX; 2];
    // Safe, as for a judge.
    let code = unsafe {
        call(
            kinds.as_ptr(),
            kinds.len(),
            tasks.as_ptr(),
            tasks.len(),
            operands.as_mut_ptr(),
            operands.len(),
            workspace.as_mut_ptr(),
            workspace.len(),
            &mut values,
        )
    };
    Told { code, values }
}

/// Judges a trace with a workspace, two order buffers and cards.
type JudgeWithCards = fn(&Trace, &mut [u16], &mut [u16], &mut [u16], &mut [Record]) -> Told<3>;

/// One linked judge with cards.
pub struct Carder {
    pub name: &'static str,
    pub judge: JudgeWithCards,
}

/// The library's.
pub const CARDER: Carder = Carder { name: "the library, judge with cards", judge: judge_cards };

pub const PLANTED_CARDER: Carder =
    Carder { name: "the library, planted judge with cards", judge: planted_cards };

fn planted_cards(
    trace: &Trace,
    workspace: &mut [u16],
    first: &mut [u16],
    second: &mut [u16],
    cards: &mut [Record],
) -> Told<3> {
    let Trace { kinds, tasks, operands } = trace;
    let mut values = [u64::MAX; 3];
    // Safe, as for a judge.
    let code = unsafe {
        planted_judge_cards(
            kinds.as_ptr(),
            kinds.len(),
            tasks.as_ptr(),
            tasks.len(),
            operands.as_ptr(),
            operands.len(),
            workspace.as_mut_ptr(),
            workspace.len(),
            first.as_mut_ptr(),
            first.len(),
            second.as_mut_ptr(),
            second.len(),
            cards.as_mut_ptr(),
            cards.len(),
            &mut values,
        )
    };
    Told { code, values }
}

/// The library with cards.
pub fn judge_cards(
    trace: &Trace,
    workspace: &mut [u16],
    first: &mut [u16],
    second: &mut [u16],
    cards: &mut [Record],
) -> Told<3> {
    let Trace { kinds, tasks, operands } = trace;
    raw::judge_cards(kinds, tasks, operands, workspace, first, second, cards)
}

/// The cards by hand.
///
/// # Safety
///
/// The trace keeps the rules, so that its operands are below 1,024.
pub unsafe fn pass(trace: &Trace, cards: &mut [Record]) {
    let Trace { kinds, operands, .. } = trace;
    assert!(cards.len() >= LOCATIONS);
    pass_call(kinds.as_ptr(), operands.as_ptr(), kinds.len(), cards.as_mut_ptr());
}

/// The least that any judge does: reads the trace once, clears its workspace once.
pub fn floor(trace: &Trace, workspace: &mut [u16]) -> u64 {
    let Trace { kinds, tasks, operands } = trace;
    let n = kinds.len();
    assert!(tasks.len() == n && operands.len() == n && workspace.len() >= WORKSPACE + n);
    let workspace = workspace.as_mut_ptr();
    unsafe { floor_call(kinds.as_ptr(), tasks.as_ptr(), operands.as_ptr(), n, workspace) }
}
