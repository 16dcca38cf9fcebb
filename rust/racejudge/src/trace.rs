//! A trace, and the ways to make one.

use crate::raw::{self, Told};
use crate::{Event, Kind, Refusal, MAX_TEXT_EVENTS};

/// Where an event of a text stands.
#[derive(Clone, Copy, Debug, PartialEq, Eq)]
pub struct Place {
    /// The line of the text, counted from 0, as the refusals by rows 14 and 15 count. An implied
    /// halt stands on the line that implied it.
    pub line: usize,
    /// The source line that this line of the text names: c in `Ta|r(Vb)|c`.
    pub source: u16,
}

/// One serial run: kinds, tasks and operands, of which entries p make event p.
///
/// The three may differ in length, which the judge refuses by row 1; [`len`](Trace::len),
/// [`event`](Trace::event) and [`events`](Trace::events) then know the events that all three have.
///
/// Two traces are equal if they have the same entries and the same places.
///
/// ```
/// use racejudge::{Event, Trace};
///
/// let mut trace: Trace = [Event::fork(0, 1), Event::write(1, 5)].into_iter().collect();
/// trace.push(Event::halt(1, 0));
/// assert_eq!(trace.len(), 3);
/// assert_eq!(trace.event(1), Some(Event::write(1, 5)));
/// assert_eq!(trace, Trace::from_slices(&[2, 1, 4], &[0, 1, 1], &[1, 5, 0]));
/// ```
#[derive(Clone, Debug, Default, PartialEq, Eq)]
#[must_use = "a trace says nothing until it is judged"]
pub struct Trace {
    kinds: Vec<u8>,
    tasks: Vec<u16>,
    operands: Vec<u16>,
    /// Those of the first events. Events that are pushed after a text's have none.
    places: Vec<Place>,
}

impl Trace {
    /// The trace of these kinds, tasks and operands.
    pub fn from_slices(kinds: &[u8], tasks: &[u16], operands: &[u16]) -> Self {
        Trace {
            kinds: kinds.to_vec(),
            tasks: tasks.to_vec(),
            operands: operands.to_vec(),
            places: Vec::new(),
        }
    }

    /// The trace of a text: one event a line, `Ta|r(Vb)|c`, `Ta|w(Vb)|c`, `Ta|fork(Tb)|c` or
    /// `Ta|join(Tb)|c`, with the halts that the lines imply, each naming the task that resumes. No
    /// line makes a sum. Whether the trace keeps the rules is the judge's to say.
    ///
    /// ```
    /// use racejudge::{Event, Place, Refusal, Trace};
    ///
    /// let trace = Trace::from_text("T0|fork(T1)|10\nT0|r(V5)|30\n")?;
    /// assert!(trace.events().eq([Event::fork(0, 1), Event::halt(1, 0), Event::read(0, 5)]));
    /// assert_eq!(trace.place(1), Some(Place { line: 1, source: 30 }));
    ///
    /// let refused = Trace::from_text("T0|fork(T1)|10\nT0|r(V5)|30");
    /// assert_eq!(refused, Err(Refusal { row: 14, position: 1 }));
    /// # Ok::<(), Refusal>(())
    /// ```
    ///
    /// # Errors
    ///
    /// A refusal by row 14 or 15, with the line's number.
    pub fn from_text(text: impl AsRef<[u8]>) -> Result<Self, Refusal> {
        let text = text.as_ref();
        let trace = Trace::written(MAX_TEXT_EVENTS, |kinds, tasks, operands| {
            raw::translate(text, kinds, tasks, operands)
        })?;
        Ok(Trace { places: places(text, &trace.kinds), ..trace })
    }

    /// The trace that a call writes to slices of so many cells, or why it writes none.
    pub(crate) fn written(
        cells: usize,
        call: impl FnOnce(&mut [u8], &mut [u16], &mut [u16]) -> Told<2>,
    ) -> Result<Self, Refusal> {
        let (mut kinds, mut tasks, mut operands) = (vec![0; cells], vec![0; cells], vec![0; cells]);
        let told = call(&mut kinds, &mut tasks, &mut operands);
        if told.code != raw::TRANSLATED {
            return Err(Refusal::told(told));
        }
        let n = told.values[0] as usize;
        kinds.truncate(n);
        tasks.truncate(n);
        operands.truncate(n);
        Ok(Trace { kinds, tasks, operands, places: Vec::new() })
    }

    /// Adds an event at the end. It has no place in a text.
    pub fn push(&mut self, event: Event) {
        self.kinds.push(event.kind);
        self.tasks.push(event.task);
        self.operands.push(event.operand);
    }

    /// The number of events.
    #[must_use]
    pub fn len(&self) -> usize {
        self.kinds.len().min(self.tasks.len()).min(self.operands.len())
    }

    /// Whether there is no event.
    #[must_use]
    pub fn is_empty(&self) -> bool {
        self.len() == 0
    }

    /// Event `p`, counted from 0.
    #[must_use]
    pub fn event(&self, p: usize) -> Option<Event> {
        Some(Event {
            kind: *self.kinds.get(p)?,
            task: *self.tasks.get(p)?,
            operand: *self.operands.get(p)?,
        })
    }

    /// All events in position order.
    pub fn events(&self) -> impl DoubleEndedIterator<Item = Event> + ExactSizeIterator + '_ {
        let entries = self.kinds.iter().zip(&self.tasks).zip(&self.operands);
        entries.map(|((&kind, &task), &operand)| Event { kind, task, operand })
    }

    /// Where event `p` stands in the text that the trace was made from, if it was.
    #[must_use]
    pub fn place(&self, p: usize) -> Option<Place> {
        self.places.get(p).copied()
    }

    /// The kinds' numbers.
    #[must_use]
    pub fn kinds(&self) -> &[u8] {
        &self.kinds
    }

    /// The tasks that act.
    #[must_use]
    pub fn tasks(&self) -> &[u16] {
        &self.tasks
    }

    /// The operands.
    #[must_use]
    pub fn operands(&self) -> &[u16] {
        &self.operands
    }

    /// The same three, with operands that can be changed.
    pub(crate) fn slices(&mut self) -> (&[u8], &[u16], &mut [u16]) {
        (&self.kinds, &self.tasks, &mut self.operands)
    }
}

impl Extend<Event> for Trace {
    fn extend<I: IntoIterator<Item = Event>>(&mut self, events: I) {
        events.into_iter().for_each(|event| self.push(event));
    }
}

impl FromIterator<Event> for Trace {
    fn from_iter<I: IntoIterator<Item = Event>>(events: I) -> Self {
        let mut trace = Trace::default();
        trace.extend(events);
        trace
    }
}

/// The places of the events of a text that was accepted. No line makes a halt, so the k-th event
/// that is none is line k's own, and halts belong to the line of the next such event.
fn places(text: &[u8], kinds: &[u8]) -> Vec<Place> {
    let sources: Vec<u16> = text.split(|&byte| byte == b'\n').map_while(source).collect();
    let mut line = 0;
    let place = |&kind: &u8| {
        let place = Place { line, source: *sources.get(line)? };
        line += usize::from(kind != Kind::Halt.number());
        Some(place)
    };
    kinds.iter().map_while(place).collect()
}

/// The number behind the last bar of a line.
fn source(line: &[u8]) -> Option<u16> {
    let bar = line.iter().rposition(|&byte| byte == b'|')?;
    std::str::from_utf8(&line[bar + 1..]).ok()?.parse().ok()
}
