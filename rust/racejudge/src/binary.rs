//! The binary form of a trace, little-endian: the number n of events in four bytes, n kinds of one
//! byte, n tasks and n operands of two bytes each, and the CRC-32 of all that in four bytes.

use crate::Trace;
use std::error::Error;
use std::fmt;

/// The length and the checksum, which every file has.
const FRAME_BYTES: usize = 8;

/// A kind, a task and an operand.
const EVENT_BYTES: u64 = 5;

/// What is wrong with bytes that should be a trace's binary form.
#[derive(Clone, Copy, Debug, PartialEq, Eq, Hash)]
#[non_exhaustive]
pub enum Damage {
    /// There are fewer bytes than the binary form of any trace has.
    NoFrame {
        /// How many there are.
        bytes: usize,
    },
    /// There are more or fewer bytes than the number of events asks for.
    Length {
        /// The number of events at the start of the bytes.
        events: u32,
        /// How many bytes the binary form of so many events has.
        needed: u64,
        /// How many there are.
        bytes: usize,
    },
    /// The checksum at the end is not that of the bytes before it.
    Checksum {
        /// The one at the end.
        stored: u32,
        /// The one of the bytes before it.
        computed: u32,
    },
}

impl fmt::Display for Damage {
    fn fmt(&self, f: &mut fmt::Formatter<'_>) -> fmt::Result {
        match *self {
            Damage::NoFrame { bytes } => {
                let are = if bytes == 1 { "byte is" } else { "bytes are" };
                write!(f, "{bytes} {are} no trace: even one of no events has {FRAME_BYTES}")
            }
            Damage::Length { events, needed, bytes } => {
                let wrong = if (bytes as u64) < needed { "too short" } else { "too long" };
                let take = if events == 1 { "event takes" } else { "events take" };
                write!(f, "{wrong}: {events} {take} {needed} bytes, but there are {bytes}")
            }
            Damage::Checksum { stored, computed } => {
                write!(
                    f,
                    "the checksum is {stored:#010x}, but that of the bytes is {computed:#010x}"
                )
            }
        }
    }
}

impl Error for Damage {}

impl Trace {
    /// The trace that the bytes are the binary form of. It may have any number of events: one with
    /// too many is the judge's to refuse.
    ///
    /// ```
    /// use racejudge::{Damage, Event, Trace};
    ///
    /// let trace: Trace = [Event::fork(0, 1), Event::write(1, 5)].into_iter().collect();
    /// let mut bytes = trace.to_binary().expect("slices of one length");
    /// assert_eq!(bytes.len(), 8 + 5 * 2);
    /// assert_eq!(Trace::from_binary(&bytes), Ok(trace));
    ///
    /// bytes[5] ^= 1;
    /// assert!(matches!(Trace::from_binary(&bytes), Err(Damage::Checksum { .. })));
    /// ```
    ///
    /// # Errors
    ///
    /// What is damaged, where the bytes are not what [`to_binary`](Trace::to_binary) gives.
    pub fn from_binary(bytes: &[u8]) -> Result<Self, Damage> {
        let no_frame = Damage::NoFrame { bytes: bytes.len() };
        let (start, rest) = bytes.split_first_chunk().ok_or(no_frame)?;
        let (entries, end) = rest.split_last_chunk().ok_or(no_frame)?;
        let (events, stored) = (u32::from_le_bytes(*start), u32::from_le_bytes(*end));
        let needed = FRAME_BYTES as u64 + EVENT_BYTES * u64::from(events);
        if bytes.len() as u64 != needed {
            return Err(Damage::Length { events, needed, bytes: bytes.len() });
        }
        let computed = crc32(&bytes[..bytes.len() - end.len()]);
        if stored != computed {
            return Err(Damage::Checksum { stored, computed });
        }
        // The length fits, so the kinds are a fifth of the entries, and the others two fifths each.
        let (kinds, rest) = entries.split_at(entries.len() / 5);
        let (tasks, operands) = rest.split_at(rest.len() / 2);
        Ok(Trace::from_slices(kinds, &numbers(tasks), &numbers(operands)))
    }

    /// The binary form, without the places; none where the kinds, tasks and operands differ in
    /// length or where four bytes cannot hold it.
    #[must_use]
    pub fn to_binary(&self) -> Option<Vec<u8>> {
        let (kinds, tasks, operands) = (self.kinds(), self.tasks(), self.operands());
        if tasks.len() != kinds.len() || operands.len() != kinds.len() {
            return None;
        }
        let mut bytes = u32::try_from(kinds.len()).ok()?.to_le_bytes().to_vec();
        bytes.extend(kinds);
        bytes.extend(tasks.iter().chain(operands).flat_map(|number| number.to_le_bytes()));
        bytes.extend(crc32(&bytes).to_le_bytes());
        Some(bytes)
    }
}

fn numbers(bytes: &[u8]) -> Vec<u16> {
    bytes.chunks_exact(2).map(|pair| u16::from_le_bytes([pair[0], pair[1]])).collect()
}

/// The CRC-32 of zip and zlib: reflected, all ones at the start and added at the end.
fn crc32(bytes: &[u8]) -> u32 {
    const POLYNOMIAL: u32 = 0xedb8_8320;
    let bit = |crc: u32| if crc & 1 == 1 { crc >> 1 ^ POLYNOMIAL } else { crc >> 1 };
    let byte = |crc: u32, &byte: &u8| (0..8).fold(crc ^ u32::from(byte), |crc, _| bit(crc));
    !bytes.iter().fold(u32::MAX, byte)
}
