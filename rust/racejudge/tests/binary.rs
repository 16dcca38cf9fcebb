//! The binary form: what it looks like, and that no damage goes unnoticed.

use racejudge::{judge, Damage, Event, Refusal, Trace, Verdict, MAX_EVENTS};
use std::process::Command;

/// Document 01's example. The checksum was computed by zlib.
const EXAMPLE: [u8; 28] = [
    4, 0, 0, 0, // events
    2, 1, 4, 0, // kinds
    0, 0, 1, 0, 1, 0, 0, 0, // tasks
    1, 0, 5, 0, 0, 0, 5, 0, // operands
    0xdc, 0xbd, 0xf9, 0x3b, // checksum
];

fn example() -> Trace {
    Trace::from_slices(&[2, 1, 4, 0], &[0, 1, 1, 0], &[1, 5, 0, 5])
}

#[test]
fn layout() {
    assert_eq!(example().to_binary().as_deref(), Some(&EXAMPLE[..]));
    assert_eq!(Trace::from_binary(&EXAMPLE), Ok(example()));
    let none = [0, 0, 0, 0, 0x1c, 0xdf, 0x44, 0x21];
    assert_eq!(Trace::default().to_binary().as_deref(), Some(&none[..]));
    assert_eq!(Trace::from_binary(&none), Ok(Trace::default()));
}

/// Each kind has its byte. The checksum was computed by zlib.
#[test]
fn kinds() {
    let events = [
        Event::read(0, 5),
        Event::write(0, 5),
        Event::fork(0, 1),
        Event::sum(1, 1_023),
        Event::halt(1, 0),
        Event::join(0, 1),
    ];
    let trace: Trace = events.into_iter().collect();
    let bytes = trace.to_binary().expect("slices of one length");
    assert_eq!(bytes[4..10], [0, 1, 2, 5, 4, 3]);
    assert_eq!(bytes[bytes.len() - 4..], [0xee, 0x82, 0xc1, 0xa3]);
    assert_eq!(Trace::from_binary(&bytes).as_ref(), Ok(&trace));
    assert_eq!(judge(&trace), Ok(Verdict::Clean { links: 1 }));
}

#[test]
fn every_truncation_is_told() {
    for n in 0..EXAMPLE.len() {
        let damage = Trace::from_binary(&EXAMPLE[..n]).expect_err("cut short");
        match n {
            0..=7 => assert_eq!(damage, Damage::NoFrame { bytes: n }),
            _ => assert_eq!(damage, Damage::Length { events: 4, needed: 28, bytes: n }),
        }
    }
}

#[test]
fn every_byte_too_many_is_told() {
    for byte in 0..=255 {
        let longer = [&EXAMPLE[..], &[byte]].concat();
        let damage = Damage::Length { events: 4, needed: 28, bytes: 29 };
        assert_eq!(Trace::from_binary(&longer), Err(damage));
    }
}

#[test]
fn every_flipped_bit_is_told() {
    for bit in 0..8 * EXAMPLE.len() {
        let mut flipped = EXAMPLE;
        flipped[bit / 8] ^= 1 << (bit % 8);
        let damage = Trace::from_binary(&flipped).expect_err("a flipped bit");
        match bit / 8 {
            0..=3 => assert!(matches!(damage, Damage::Length { bytes: 28, .. }), "{damage:?}"),
            _ => assert!(matches!(damage, Damage::Checksum { .. }), "{damage:?}"),
        }
    }
}

#[test]
fn round_trips() {
    for n in [0, 1, 2, 255, 256, 65_536, MAX_EVENTS - 1, MAX_EVENTS, MAX_EVENTS + 1] {
        let number = |p: usize| (p * 40_503) as u16;
        let event =
            |p| Event { kind: number(p) as u8, task: number(p + 1), operand: number(p + 2) };
        let trace: Trace = (0..n).map(event).collect();
        let bytes = trace.to_binary().expect("slices of one length");
        assert_eq!(bytes.len(), 8 + 5 * n);
        assert_eq!(Trace::from_binary(&bytes), Ok(trace));
    }
}

/// Too many events are no damage, but the judge's to refuse.
#[test]
fn the_most_events_and_one_more() {
    let judged = |n: usize| {
        let trace: Trace = std::iter::repeat_n(Event::write(0, 5), n).collect();
        let bytes = trace.to_binary().expect("slices of one length");
        judge(&Trace::from_binary(&bytes).expect("an undamaged trace"))
    };
    assert_eq!(judged(MAX_EVENTS), Ok(Verdict::Clean { links: 0 }));
    assert_eq!(judged(MAX_EVENTS + 1), Err(Refusal { row: 2, position: 0 }));
}

#[test]
fn places_are_not_kept() {
    let text = Trace::from_text("T0|fork(T1)|10\nT1|w(V5)|20\nT0|r(V5)|30\n").expect("of the form");
    assert_eq!(text.to_binary().as_deref(), Some(&EXAMPLE[..]));
    assert_eq!(example().place(0), None);
}

#[test]
fn slices_of_different_lengths_have_no_binary_form() {
    for (kinds, tasks, operands) in
        [(1, 0, 0), (0, 1, 0), (0, 0, 1), (2, 2, 3), (2, 3, 2), (3, 2, 2)]
    {
        let cells = [0; 3];
        let trace = Trace::from_slices(&[0; 3][..kinds], &cells[..tasks], &cells[..operands]);
        assert_eq!(trace.to_binary(), None);
    }
}

#[test]
fn a_length_that_no_file_has() {
    let bytes = [0xff; 8];
    let damage = Trace::from_binary(&bytes).unwrap_err();
    let needed = 8 + 5 * u64::from(u32::MAX);
    assert_eq!(damage, Damage::Length { events: u32::MAX, needed, bytes: 8 });
}

#[test]
fn damage_in_words() {
    let told = |bytes: &[u8]| Trace::from_binary(bytes).unwrap_err().to_string();
    assert_eq!(told(&[1, 2, 3]), "3 bytes are no trace: even one of no events has 8");
    assert_eq!(told(&[0]), "1 byte is no trace: even one of no events has 8");
    assert_eq!(told(&[]), "0 bytes are no trace: even one of no events has 8");
    assert_eq!(told(&EXAMPLE[..27]), "too short: 4 events take 28 bytes, but there are 27");
    let longer = [&EXAMPLE[..], b"\n"].concat();
    assert_eq!(told(&longer), "too long: 4 events take 28 bytes, but there are 29");
    let one = [1, 0, 0, 0, 0, 0, 0, 0];
    assert_eq!(told(&one), "too short: 1 event takes 13 bytes, but there are 8");
    assert_eq!(told(&[0; 9]), "too long: 0 events take 8 bytes, but there are 9");
    let mut stored = EXAMPLE;
    stored[24..].copy_from_slice(&[0x0d, 0xf0, 0x01, 0x00]);
    assert_eq!(told(&stored), "the checksum is 0x0001f00d, but that of the bytes is 0x3bf9bddc");
}

/// The function that README.md has in Python gives the same bytes. A line of it is set in by four
/// blanks.
#[test]
fn in_python() {
    let readme = include_str!("../../../README.md");
    let lines = readme.lines().skip_while(|line| *line != "    import struct, zlib");
    let mut program: String =
        lines.map_while(|line| line.strip_prefix("    ")).flat_map(|line| [line, "\n"]).collect();
    program += "import sys\n";
    program += "sys.stdout.buffer.write(binary([2, 1, 5], [0, 1, 300], [1, 5, 777]))\n";
    let ran = Command::new("python3").args(["-c", &program]).output().expect("python3");
    let trace = Trace::from_slices(&[2, 1, 5], &[0, 1, 300], &[1, 5, 777]);
    assert_eq!(Some(ran.stdout), trace.to_binary());
}
