//! The calls that read a text or a plan to a trace, each held against a slow reader: the answer, the
//! three slices whole with the cells around them, the text. Counts what was met.

use crate::buffer::{dirt, Buffer};
use crate::compare::{answer_difference, first_difference, held, known};
use crate::watch::watched;
use racejudge_bench::ffi::{Reader, Told};
use racejudge_bench::rng::Rng;
use racejudge_bench::trace::*;
use std::fmt;
use std::sync::Arc;

/// The lengths of the three slices that are lent.
pub type Slices = [usize; 3];

/// The bytes of a text, shown in one line.
#[derive(Clone)]
pub struct Text(pub Vec<u8>);

impl<T: Into<Vec<u8>>> From<T> for Text {
    fn from(bytes: T) -> Self {
        Text(bytes.into())
    }
}

impl fmt::Display for Text {
    fn fmt(&self, f: &mut fmt::Formatter) -> fmt::Result {
        write!(f, "the text \"{}\"", self.0.escape_ascii())
    }
}

/// What a call must tell, and the events that it must leave at the start of the slices.
#[derive(Debug)]
pub struct Wanted {
    pub said: Translation,
    pub events: Trace,
}

/// What is wanted where a slow reader has this trace or this refusal.
impl From<Result<Trace, (usize, usize)>> for Wanted {
    fn from(read: Result<Trace, (usize, usize)>) -> Self {
        match read {
            Ok(events) => Wanted { said: Translation::Events(events.len()), events },
            Err((number, at)) => Wanted::nothing(Translation::Refused(number, at)),
        }
    }
}

impl Wanted {
    pub fn nothing(said: Translation) -> Self {
        Wanted { said, events: Trace::default() }
    }
}

/// A form of texts: who reads it, and what must come of it.
pub struct Form {
    pub name: &'static str,
    pub readers: &'static [&'static Reader],
    /// How many cells of each slice a text needs.
    pub need: fn(&[u8]) -> usize,
    /// What the slow reader wants.
    pub wanted: fn(&[u8], Slices) -> Wanted,
    /// Bytes that might go on with a text: one of them stands behind each.
    pub behind: &'static [u8],
    /// The bytes that the form has.
    pub bytes: &'static [u8],
    /// The answers that are counted, and which of them an answer is.
    pub answers: [&'static str; 4],
    pub answer: fn(Translation) -> usize,
}

pub struct Reading {
    form: &'static Form,
    pub rng: Rng,
    pub dirt: Vec<u16>,
    /// How often each answer was met.
    met: [usize; 4],
}

impl Reading {
    pub fn new(form: &'static Form, seed: u64) -> Self {
        let mut rng = Rng::new(seed);
        let dirt = dirt(&mut rng);
        Reading { form, rng, dirt, met: Default::default() }
    }

    /// How many cells of each slice a text needs.
    pub fn need(&self, text: &Text) -> usize {
        (self.form.need)(&text.0)
    }

    /// What must come of a text with slices of these lengths.
    pub fn wanted(&self, text: &Text, lent: Slices) -> Wanted {
        (self.form.wanted)(&text.0, lent)
    }

    /// A text with slices as long as needed or a little longer.
    pub fn read(&mut self, text: impl Into<Text>) -> Translation {
        let text = text.into();
        let need = self.need(&text);
        let lent = [need; 3].map(|need| need + self.rng.below(3));
        self.read_with(text, lent)
    }

    /// What the library answers, which is counted.
    pub fn read_with(&mut self, text: impl Into<Text>, lent: Slices) -> Translation {
        let text = text.into();
        let wanted = self.wanted(&text, lent);
        for reader in self.form.readers {
            held(self.read_by(reader, &text, lent, &wanted));
        }
        self.met[(self.form.answer)(wanted.said)] += 1;
        wanted.said
    }

    /// What one reader tells, or how that or what it leaves differs from what is wanted.
    pub fn read_by(
        &mut self,
        reader: &Reader,
        text: &Text,
        lent: Slices,
        wanted: &Wanted,
    ) -> Result<Told<2>, String> {
        let behind = self.form.behind[self.rng.below(self.form.behind.len())];
        let copy = [&text.0[..], &[behind]].concat();
        let lent_text = &copy[..text.0.len()];
        let mut kinds = Buffer::drawn(&self.dirt, &mut self.rng, lent[0]);
        let [mut tasks, mut operands] =
            [lent[1], lent[2]].map(|cells| Buffer::drawn(&self.dirt, &mut self.rng, cells));
        let told = watched(reader.name, Arc::new(text.clone()), || {
            (reader.read)(lent_text, kinds.lend(), tasks.lend(), operands.lend())
        });
        let differences = [
            ("answer", answer_difference(told, wanted.said)),
            ("text", (lent_text != text.0).then(|| "changed".to_string())),
            ("kinds", kinds.difference(&wanted.events.kinds)),
            ("tasks", tasks.difference(&wanted.events.tasks)),
            ("operands", operands.difference(&wanted.events.operands)),
        ];
        let call = format_args!("{} to slices of {lent:?}", reader.name);
        first_difference(call, text, wanted, differences).map_or(Ok(told), Err)
    }

    /// Ends the test where a text is not answered as it is known to be.
    pub fn expect(&mut self, text: impl Into<Text>, said: Translation) {
        let text = text.into();
        known(self.read(text.clone()), said, text);
    }

    /// A text, whose answer is handed back, then the same damaged in one place, then up to `most`
    /// bytes of noise.
    pub fn read_damaged(&mut self, text: impl Into<Text>, most: usize) -> Translation {
        let text = text.into();
        let damaged = self.damaged(&text.0);
        let noise: Vec<u8> = (0..self.rng.below(most + 1)).map(|_| self.byte()).collect();
        let said = self.read(text);
        self.read(damaged);
        self.read(noise);
        said
    }

    /// One byte changed, taken out or put in, or the end cut off.
    fn damaged(&mut self, text: &[u8]) -> Vec<u8> {
        let mut damaged = text.to_vec();
        let (at, byte) = (self.rng.below(text.len()), self.byte());
        match self.rng.below(4) {
            0 => damaged.insert(self.rng.below(text.len() + 1), byte),
            1 => damaged.truncate(at),
            _ if text.is_empty() => damaged.push(byte),
            2 => damaged[at] = byte,
            _ => _ = damaged.remove(at),
        }
        damaged
    }

    /// Mostly a byte of the form.
    fn byte(&mut self) -> u8 {
        if self.rng.chance(1, 4) {
            self.rng.below(256) as u8
        } else {
            self.form.bytes[self.rng.below(self.form.bytes.len())]
        }
    }

    pub fn calls(&self) -> usize {
        self.met.iter().sum()
    }

    /// How often each answer was met.
    pub fn table(&self) -> String {
        let line = |name: &str, count: &dyn fmt::Display| format!("{name:>14} {count:>9}\n");
        let counts = self.form.answers.iter().zip(&self.met).map(|(name, count)| line(name, count));
        let table = line("answer", &self.form.name) + &counts.collect::<String>();
        table + &line("calls", &self.calls())
    }

    /// An answer that was never met.
    pub fn missing(&self) -> Option<String> {
        let at = self.met.iter().position(|&count| count == 0)?;
        Some(format!("{} of a {}", self.form.answers[at], self.form.name))
    }
}
