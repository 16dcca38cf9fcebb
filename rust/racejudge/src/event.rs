//! One event of a trace.

use std::error::Error;
use std::fmt;

/// What an event does.
///
/// ```
/// use racejudge::Kind;
///
/// assert_eq!(Kind::try_from(2), Ok(Kind::Fork));
/// assert_eq!(Kind::Fork.number(), 2);
/// assert!(Kind::try_from(6).is_err());
/// ```
#[derive(Clone, Copy, Debug, PartialEq, Eq, Hash)]
pub enum Kind {
    /// The task reads a location.
    Read,
    /// The task writes a location.
    Write,
    /// The task forks a child, which runs at once.
    Fork,
    /// The task joins the one immediately left of it in the line.
    Join,
    /// The task ends, and its paused parent resumes.
    Halt,
    /// The task adds to a location, as to a counter.
    Sum,
}

impl Kind {
    /// All kinds, in the order of their numbers.
    pub const ALL: [Kind; 6] =
        [Kind::Read, Kind::Write, Kind::Fork, Kind::Join, Kind::Halt, Kind::Sum];

    /// The number that stands for the kind in a trace: 0 for a read to 5 for a sum.
    #[must_use]
    pub const fn number(self) -> u8 {
        self as u8
    }

    /// Whether the event touches a location: a read, a write or a sum.
    #[must_use]
    pub const fn is_access(self) -> bool {
        matches!(self, Kind::Read | Kind::Write | Kind::Sum)
    }
}

/// The kind's word in document 01's notation.
impl fmt::Display for Kind {
    fn fmt(&self, f: &mut fmt::Formatter<'_>) -> fmt::Result {
        f.pad(match self {
            Kind::Read => "read",
            Kind::Write => "write",
            Kind::Fork => "fork",
            Kind::Join => "join",
            Kind::Halt => "halt",
            Kind::Sum => "sum",
        })
    }
}

impl TryFrom<u8> for Kind {
    type Error = UnknownKind;

    fn try_from(number: u8) -> Result<Self, UnknownKind> {
        Kind::ALL.get(usize::from(number)).copied().ok_or(UnknownKind(number))
    }
}

/// A number that stands for no kind of event.
#[derive(Clone, Copy, Debug, PartialEq, Eq, Hash)]
pub struct UnknownKind(pub u8);

impl fmt::Display for UnknownKind {
    fn fmt(&self, f: &mut fmt::Formatter<'_>) -> fmt::Result {
        write!(f, "{} stands for no kind of event: kinds go from 0 to 5", self.0)
    }
}

impl Error for UnknownKind {}

/// One event: what which task does to what.
///
/// Any numbers may stand here. Whether they keep the rules is the judge's to say.
///
/// ```
/// use racejudge::{Event, Kind};
///
/// let event = Event::fork(0, 1);
/// assert_eq!(event.kind(), Some(Kind::Fork));
/// assert_eq!(event.to_string(), "0 fork 1");
/// assert_eq!(Event::halt(1, 0).to_string(), "1 halt 0");
/// assert_eq!(Event { kind: 9, task: 3, operand: 7 }.to_string(), "3 kind-9 7");
/// ```
#[derive(Clone, Copy, Debug, PartialEq, Eq, Hash)]
#[must_use = "an event does nothing until it stands in a trace"]
pub struct Event {
    /// The kind's number; one that stands for no kind is refused by row 5.
    pub kind: u8,
    /// The task that acts.
    pub task: u16,
    /// The location of a read, a write or a sum, the task that is forked or joined, or for a halt the
    /// task that resumes: 0 for task 0's own halt.
    pub operand: u16,
}

impl Event {
    const fn new(kind: Kind, task: u16, operand: u16) -> Self {
        Event { kind: kind.number(), task, operand }
    }

    /// `task` reads `location`.
    pub const fn read(task: u16, location: u16) -> Self {
        Event::new(Kind::Read, task, location)
    }

    /// `task` writes `location`.
    pub const fn write(task: u16, location: u16) -> Self {
        Event::new(Kind::Write, task, location)
    }

    /// `task` adds to `location`.
    pub const fn sum(task: u16, location: u16) -> Self {
        Event::new(Kind::Sum, task, location)
    }

    /// `task` forks `child`.
    pub const fn fork(task: u16, child: u16) -> Self {
        Event::new(Kind::Fork, task, child)
    }

    /// `task` joins `joined`.
    pub const fn join(task: u16, joined: u16) -> Self {
        Event::new(Kind::Join, task, joined)
    }

    /// `task` ends, and its paused parent `resumes`. Task 0 has no parent: its own halt names 0.
    ///
    /// Who does not know the parent may name 0 in every halt and leave it to [`Trace::convert`].
    ///
    /// [`Trace::convert`]: crate::Trace::convert
    pub const fn halt(task: u16, resumes: u16) -> Self {
        Event::new(Kind::Halt, task, resumes)
    }

    /// The kind, if the number stands for one.
    #[must_use]
    pub fn kind(&self) -> Option<Kind> {
        Kind::try_from(self.kind).ok()
    }
}

/// Document 01's notation, with the task that resumes behind a halt.
impl fmt::Display for Event {
    fn fmt(&self, f: &mut fmt::Formatter<'_>) -> fmt::Result {
        let Event { kind, task, operand } = self;
        match self.kind() {
            Some(kind) => write!(f, "{task} {kind} {operand}"),
            None => write!(f, "{task} kind-{kind} {operand}"),
        }
    }
}
