//! The C interface of `include/racejudge.h`: no call allocates, and all buffers are lent.
//!
//! Every call takes any contents and any lengths: it refuses what it cannot work with, and writes
//! within the lent slices alone.
//!
//! ```
//! use racejudge::raw;
//!
//! let (mut workspace, mut first, mut second) = ([0; raw::WORKSPACE + 1], [0; 1], [0; 1]);
//! let told = raw::judge(&[0], &[0], &[5], &mut workspace, &mut first, &mut second);
//! assert_eq!((told.code, told.values), (raw::CLEAN, [0, 0, 0]));
//!
//! let told = raw::judge(&[0], &[0], &[5], &mut [], &mut first, &mut second);
//! assert_eq!((told.code, told.values), (raw::REFUSED, [3, 0, 0]));
//! ```

use crate::Card;

/// The file name of the archive that is linked.
pub const ARCHIVE: &str = env!("RACEJUDGE_ARCHIVE");

/// The version of the C interface. With an archive of another the build of this library fails, and
/// says so.
pub const VERSION: u32 = 6;

/// The workspace has at least this many cells more than the trace has events.
pub const WORKSPACE: usize = 12_288;

/// The first and the last position on the card of a location that no event touches.
pub const NOWHERE: u16 = u16::MAX;

/// The judge: no race, and the rules are kept; the third value is the number of links.
pub const CLEAN: u64 = 0;
/// The judge: a race; the values are its two positions and the number of links.
pub const RACE: u64 = 1;
/// The ordering call: no path.
pub const NO: u64 = 0;
/// The ordering call: a path.
pub const YES: u64 = 1;
/// The translation and the reader of plans: a trace; the first value is the number of its events.
pub const TRANSLATED: u64 = 0;
/// The conversion: halts were set as far as the trace keeps the rules.
pub const CONVERTED: u64 = 0;
/// The call for pairs: the close pairs; the first value is their number.
pub const LISTED: u64 = 0;
/// All calls: a refusal; the first two values are its row and position, any other is 0.
pub const REFUSED: u64 = 2;
/// The translation: a slice has fewer than [`MAX_TEXT_EVENTS`](crate::MAX_TEXT_EVENTS) cells.
pub const SHORT: u64 = 3;

/// What a call tells: the code that it returns and the values that it stores, three of the judge and
/// two of the others.
#[derive(Clone, Copy, Debug, PartialEq, Eq)]
pub struct Told<const VALUES: usize> {
    /// What the call returns.
    pub code: u64,
    /// What it stores: [`u64::MAX`] where it stores nothing, as no call of the library does.
    pub values: [u64; VALUES],
}

/// What a call tells that is handed the slices, those that it reads and those that it writes, each
/// as a pointer and a length, then the rest, and last where it stores its values: as many cells as
/// its type has.
macro_rules! told {
    ($call:ident, [$($read:ident),*], [$($written:ident),*] $(, $rest:expr)*) => {{
        let mut values = std::array::from_fn(|_| u64::MAX);
        let code = unsafe {
            $call(
                $($read.as_ptr(), $read.len(),)*
                $($written.as_mut_ptr(), $written.len(),)*
                $($rest,)*
                &mut values,
            )
        };
        Told { code, values }
    }};
}

/// The parameters of the calls, once: for the type of a call, and for functions of that type
/// under any name, as `foreign!(judge fn other_judge)`.
#[doc(hidden)]
#[macro_export]
macro_rules! foreign {
    (judge $($declared:tt)*) => {
        $crate::foreign! { @judge[$($declared)*] () }
    };
    (judge_cards $($declared:tt)*) => {
        $crate::foreign! { @judge[$($declared)*] (cards: *mut $crate::Card, cards_len: usize,) }
    };
    (@judge[$($declared:tt)*] ($($more:tt)*)) => {
        $crate::foreign! { @[$($declared)*] (
            kinds: *const u8, kinds_len: usize,
            tasks: *const u16, tasks_len: usize,
            operands: *const u16, operands_len: usize,
            workspace: *mut u16, workspace_len: usize,
            first: *mut u16, first_len: usize,
            second: *mut u16, second_len: usize,
            $($more)*
            values: *mut [u64; 3],
        ) }
    };
    (pairs $($declared:tt)*) => {
        $crate::foreign! { @[$($declared)*] (
            kinds: *const u8, kinds_len: usize,
            tasks: *const u16, tasks_len: usize,
            operands: *const u16, operands_len: usize,
            workspace: *mut u16, workspace_len: usize,
            earlier: *mut u16, earlier_len: usize,
            later: *mut u16, later_len: usize,
            values: *mut [u64; 2],
        ) }
    };
    (ordering $($declared:tt)*) => {
        $crate::foreign! { @[$($declared)*] (
            kinds: *const u8, kinds_len: usize,
            tasks: *const u16, tasks_len: usize,
            operands: *const u16, operands_len: usize,
            workspace: *mut u16, workspace_len: usize,
            p: usize, q: usize,
            values: *mut [u64; 2],
        ) }
    };
    (convert $($declared:tt)*) => {
        $crate::foreign! { @[$($declared)*] (
            kinds: *const u8, kinds_len: usize,
            tasks: *const u16, tasks_len: usize,
            operands: *mut u16, operands_len: usize,
            workspace: *mut u16, workspace_len: usize,
            values: *mut [u64; 2],
        ) }
    };
    (translate $($declared:tt)*) => {
        $crate::foreign! { @[$($declared)*] (
            text: *const u8, text_len: usize,
            kinds: *mut u8, kinds_len: usize,
            tasks: *mut u16, tasks_len: usize,
            operands: *mut u16, operands_len: usize,
            values: *mut [u64; 2],
        ) }
    };
    (@[$(#[$meta:meta])* $visible:vis type $name:ident] $parameters:tt) => {
        $(#[$meta])*
        $visible type $name = unsafe extern "C" fn $parameters -> u64;
    };
    (@[$(#[$meta:meta])* $visible:vis fn $name:ident] $parameters:tt) => {
        extern "C" {
            $(#[$meta])*
            #[must_use = "a race or a refusal is told by the code"]
            $visible fn $name $parameters -> u64;
        }
    };
}

foreign!(judge
    /// A function that judges a trace.
    pub type JudgeCall);
foreign!(pairs
    /// A function that lists the close pairs of a trace.
    pub type PairsCall);
foreign!(ordering
    /// A function that says whether one event reaches another.
    pub type OrderingCall);
foreign!(judge
    /// The library's [`judge`].
    pub fn racejudge_judge);
foreign!(judge_cards
    /// The library's [`judge_cards`].
    pub fn racejudge_judge_cards);
foreign!(pairs
    /// The library's [`pairs`].
    pub fn racejudge_pairs);
foreign!(ordering
    /// The library's [`ordering`].
    pub fn racejudge_ordering);
foreign!(convert
    /// The library's [`convert`].
    pub fn racejudge_convert);
foreign!(translate
    /// The library's [`translate`].
    pub fn racejudge_translate);

// A plan is handed over as a text is.
foreign!(translate
    /// The library's [`plan`].
    pub fn racejudge_plan);

extern "C" {
    /// The library's [`version`].
    #[must_use]
    pub fn racejudge_version_6() -> u64;
}

/// The version of the archive that is linked: [`VERSION`].
#[must_use]
pub fn version() -> u64 {
    // Safe: it takes nothing and returns a number.
    unsafe { racejudge_version_6() }
}

/// Judges a trace. After a race the first t + 1 cells of `first` and `second` hold the two orders.
#[must_use = "a race or a refusal is told by the code"]
pub fn judge(
    kinds: &[u8],
    tasks: &[u16],
    operands: &[u16],
    workspace: &mut [u16],
    first: &mut [u16],
    second: &mut [u16],
) -> Told<3> {
    // Safe: the library's own function keeps within what it is lent, whatever that holds.
    unsafe { judge_by(racejudge_judge, kinds, tasks, operands, workspace, first, second) }
}

/// Judges a trace as [`judge`] does. After clean the first [`LOCATIONS`](crate::LOCATIONS) of the
/// cards are those of the locations; with fewer the call is refused by row 16.
///
/// ```
/// use racejudge::{raw, Card, LOCATIONS};
///
/// let (mut workspace, mut first, mut second) = ([0; raw::WORKSPACE + 1], [0; 1], [0; 1]);
/// let mut judge_lent = |cards: &mut [Card]| {
///     raw::judge_cards(&[0], &[0], &[5], &mut workspace, &mut first, &mut second, cards)
/// };
/// let mut cards = [Card::UNTOUCHED; LOCATIONS];
/// assert_eq!(judge_lent(&mut cards).code, raw::CLEAN);
/// assert_eq!(cards[5], Card { reads: 1, writes: 0, sums: 0, first: 0, last: 0 });
///
/// let told = judge_lent(&mut cards[1..]);
/// assert_eq!((told.code, told.values), (raw::REFUSED, [16, 0, 0]));
/// ```
#[must_use = "a race or a refusal is told by the code"]
pub fn judge_cards(
    kinds: &[u8],
    tasks: &[u16],
    operands: &[u16],
    workspace: &mut [u16],
    first: &mut [u16],
    second: &mut [u16],
    cards: &mut [Card],
) -> Told<3> {
    // Safe, as in `judge`.
    told!(racejudge_judge_cards, [kinds, tasks, operands], [workspace, first, second, cards])
}

/// Lists the close pairs of a trace: after [`LISTED`] pair i is `earlier[i]` and `later[i]`. The two may
/// differ in length: where one has fewer cells than there are pairs, the call is refused by row 20 and
/// writes none. [`max_pairs`](crate::max_pairs) has how many cells suffice.
///
/// ```
/// use racejudge::{max_pairs, raw};
///
/// // Task 0 forks task 1, which writes location 5 and halts; it reads the location and writes it.
/// let (kinds, tasks, operands) = ([2, 1, 4, 0, 1], [0, 1, 1, 0, 0], [1, 5, 0, 5, 5]);
/// let mut workspace = [0; raw::WORKSPACE + 5];
/// let mut list_lent = |earlier: &mut [u16], later: &mut [u16]| {
///     let told = raw::pairs(&kinds, &tasks, &operands, &mut workspace, earlier, later);
///     (told.code, told.values)
/// };
/// let (mut earlier, mut later) = ([9; max_pairs(5)], [9; max_pairs(5)]);
/// assert_eq!(list_lent(&mut earlier, &mut later[1..2]), (raw::REFUSED, [20, 0]));
/// assert_eq!((earlier, later), ([9; 10], [9; 10]));
///
/// assert_eq!(list_lent(&mut earlier, &mut later), (raw::LISTED, [2, 0]));
/// assert_eq!((&earlier[..3], &later[..3]), (&[1, 1, 9][..], &[3, 4, 9][..]));
/// ```
#[must_use = "a race or a refusal is told by the code"]
pub fn pairs(
    kinds: &[u8],
    tasks: &[u16],
    operands: &[u16],
    workspace: &mut [u16],
    earlier: &mut [u16],
    later: &mut [u16],
) -> Told<2> {
    // Safe, as in `judge`.
    unsafe { pairs_by(racejudge_pairs, kinds, tasks, operands, workspace, earlier, later) }
}

/// Does event `p` reach event `q`?
#[must_use = "a race or a refusal is told by the code"]
pub fn ordering(
    kinds: &[u8],
    tasks: &[u16],
    operands: &[u16],
    workspace: &mut [u16],
    p: usize,
    q: usize,
) -> Told<2> {
    // Safe, as in `judge`.
    unsafe { ordering_by(racejudge_ordering, kinds, tasks, operands, workspace, p, q) }
}

/// Brings a trace over that was stored before version 5: sets the operand of each halt before the
/// first event that breaks a rule to the task that resumes. Row 12 is read as it was then: it is broken
/// by a halt whose operand is not 0. Nothing else changes.
///
/// ```
/// use racejudge::raw;
///
/// // Task 0 forks task 1, which forks task 2, and all three halt.
/// let (kinds, tasks) = ([2, 2, 4, 4, 4], [0, 1, 2, 1, 0]);
/// let (mut operands, mut workspace) = ([1, 2, 0, 0, 0], [0; raw::WORKSPACE + 5]);
/// let told = raw::convert(&kinds, &tasks, &mut operands, &mut workspace);
/// assert_eq!((told.code, told.values), (raw::CONVERTED, [0, 0]));
/// assert_eq!(operands, [1, 2, 1, 0, 0]);
///
/// let told = raw::convert(&kinds, &tasks, &mut operands, &mut []);
/// assert_eq!((told.code, told.values), (raw::REFUSED, [3, 0]));
/// ```
#[must_use = "a refusal is told by the code"]
pub fn convert(
    kinds: &[u8],
    tasks: &[u16],
    operands: &mut [u16],
    workspace: &mut [u16],
) -> Told<2> {
    // Safe, as in `judge`.
    told!(racejudge_convert, [kinds, tasks], [operands, workspace])
}

/// Text to a trace, whose events are stored at the start of the three slices.
#[must_use = "a refusal is told by the code"]
pub fn translate(
    text: &[u8],
    kinds: &mut [u8],
    tasks: &mut [u16],
    operands: &mut [u16],
) -> Told<2> {
    // Safe, as in `judge`.
    told!(racejudge_translate, [text], [kinds, tasks, operands])
}

/// A plan to a trace, whose events are stored at the start of the three slices. These may differ in
/// length: where one has fewer cells than there are events, the call is refused by row 19.
///
/// ```
/// use racejudge::raw;
///
/// let (mut kinds, mut tasks, mut operands) = ([9; 6], [9; 5], [9; 7]);
/// let told = raw::plan(b"P(r3,s4)", &mut kinds, &mut tasks, &mut operands);
/// assert_eq!((told.code, told.values), (raw::TRANSLATED, [5, 0]));
/// assert_eq!((kinds, operands), ([2, 0, 4, 5, 3, 9], [1, 3, 0, 4, 1, 9, 9]));
///
/// let told = raw::plan(b"P(r3,s4)", &mut kinds, &mut tasks[1..], &mut operands);
/// assert_eq!((told.code, told.values), (raw::REFUSED, [19, 0]));
/// ```
#[must_use = "a refusal is told by the code"]
pub fn plan(text: &[u8], kinds: &mut [u8], tasks: &mut [u16], operands: &mut [u16]) -> Told<2> {
    // Safe, as in `judge`.
    told!(racejudge_plan, [text], [kinds, tasks, operands])
}

/// [`judge`] by any function of that type.
///
/// # Safety
///
/// The function must be sound for slices of any contents and lengths, each given as a pointer and a
/// length: it reads and writes within them and the values alone, and writes only where the pointer
/// is to `mut`.
#[must_use = "a race or a refusal is told by the code"]
#[inline]
pub unsafe fn judge_by(
    call: JudgeCall,
    kinds: &[u8],
    tasks: &[u16],
    operands: &[u16],
    workspace: &mut [u16],
    first: &mut [u16],
    second: &mut [u16],
) -> Told<3> {
    told!(call, [kinds, tasks, operands], [workspace, first, second])
}

/// [`pairs`] by any function of that type.
///
/// # Safety
///
/// As for [`judge_by`].
#[must_use = "a race or a refusal is told by the code"]
#[inline]
pub unsafe fn pairs_by(
    call: PairsCall,
    kinds: &[u8],
    tasks: &[u16],
    operands: &[u16],
    workspace: &mut [u16],
    earlier: &mut [u16],
    later: &mut [u16],
) -> Told<2> {
    told!(call, [kinds, tasks, operands], [workspace, earlier, later])
}

/// [`ordering`] by any function of that type.
///
/// # Safety
///
/// As for [`judge_by`].
#[must_use = "a race or a refusal is told by the code"]
#[inline]
pub unsafe fn ordering_by(
    call: OrderingCall,
    kinds: &[u8],
    tasks: &[u16],
    operands: &[u16],
    workspace: &mut [u16],
    p: usize,
    q: usize,
) -> Told<2> {
    told!(call, [kinds, tasks, operands], [workspace], p, q)
}
