//! Which texts are plans, from the owner's sentences alone and in two ways, neither of which goes down
//! the grammar with the text in hand: the sets of all short texts that are plans or begin one, each
//! made of shorter ones; and for texts of any length a reader that puts plans together from the leaves
//! up. The test holds them to each other.

use crate::plan::{Operator, Plan, LETTERS, MAX_DEPTH};
use crate::trace::*;
use std::collections::HashSet;

type Texts = HashSet<Vec<u8>>;

/// The texts of up to so many bytes that are plans, and those that begin one, by their lengths.
pub struct Language {
    plans: Vec<Texts>,
    begun: Vec<Texts>,
}

impl Language {
    /// With the leaves that these bytes make. Plans of so few bytes do not nest too deep.
    pub fn over(bytes: &[u8], length: usize) -> Self {
        let leaf = |(letter, number)| format!("{letter}{number}");
        let leaves =
            LETTERS.into_iter().flat_map(|(letter, _)| (0..LOCATIONS).map(move |n| (letter, n)));
        let made = |leaf: &String| leaf.bytes().all(|byte| bytes.contains(&byte));
        let leaves: Vec<String> = leaves.map(leaf).filter(made).collect();
        let mut language = Language { plans: Vec::new(), begun: Vec::new() };
        for n in 0..=length {
            language.add(n, &leaves);
        }
        language
    }

    /// The texts of n bytes, where all shorter ones are there. With o for S or P, x and y for plans
    /// and b for what begins one: plans are the leaves and o(x,y); a plan is begun by what begins a
    /// leaf, by o, o(b and o(x,b and by each plan.
    fn add(&mut self, n: usize, leaves: &[String]) {
        let whole = leaves.iter().filter(|leaf| leaf.len() == n);
        let mut plans: Texts = whole.map(|leaf| leaf.as_bytes().to_vec()).collect();
        let longer = leaves.iter().filter(|leaf| leaf.len() >= n);
        let mut begun: Texts = longer.map(|leaf| leaf.as_bytes()[..n].to_vec()).collect();
        for o in [b"S", b"P"] {
            if n == 1 {
                begun.insert(o.to_vec());
            }
            for b in n.checked_sub(2).iter().flat_map(|&n| &self.begun[n]) {
                begun.insert([o, &b"("[..], b].concat());
            }
            for [x, b] in pairs(&self.plans, &self.begun, n.checked_sub(3)) {
                begun.insert([o, &b"("[..], x, b",", b].concat());
            }
            for [x, y] in pairs(&self.plans, &self.plans, n.checked_sub(4)) {
                plans.insert([o, &b"("[..], x, b",", y, b")"].concat());
            }
        }
        begun.extend(plans.iter().cloned());
        self.plans.push(plans);
        self.begun.push(begun);
    }

    pub fn plans(&self) -> impl Iterator<Item = &Vec<u8>> {
        self.plans.iter().flatten()
    }

    pub fn begun(&self) -> impl Iterator<Item = &Vec<u8>> {
        self.begun.iter().flatten()
    }

    /// What must come of a text of these bytes: row 17 and the first byte with which it begins no
    /// plan, or its length if it is none.
    pub fn said(&self, text: &[u8]) -> Translation {
        let stray = (1..=text.len()).find(|&n| !self.begun[n].contains(&text[..n]));
        match stray {
            Some(n) => Translation::Refused(17, n - 1),
            None if self.plans[text.len()].contains(text) => Translation::Events(events(text)),
            None => Translation::Refused(17, text.len()),
        }
    }
}

/// All pairs of a text of the one and a text of the other with so many bytes together.
fn pairs<'a>(
    one: &'a [Texts],
    other: &'a [Texts],
    bytes: Option<usize>,
) -> impl Iterator<Item = [&'a [u8]; 2]> {
    let lengths = bytes.into_iter().flat_map(|bytes| (0..=bytes).map(move |n| (n, bytes - n)));
    lengths.flat_map(move |(n, m)| {
        one[n].iter().flat_map(move |x| other[m].iter().map(move |y| [&x[..], y]))
    })
}

/// The events that a plan makes, by the letters of its text.
fn events(text: &[u8]) -> usize {
    let count = |letters: &[u8]| text.iter().filter(|byte| letters.contains(byte)).count();
    count(b"rws") + 3 * count(b"P")
}

/// What a text is put together of: a byte, or a plan in the place of its bytes.
enum Symbol {
    Byte(u8),
    Whole(Plan),
}
use Symbol::{Byte, Whole};

/// The plan that a text is, or the row, 17 or 18, and the position.
pub fn read(text: &[u8]) -> Result<Plan, (usize, usize)> {
    let mut symbols = Vec::new();
    for (at, &byte) in text.iter().enumerate() {
        take(&mut symbols, byte).map_err(|row| (row, at))?;
    }
    match symbols.pop() {
        Some(Whole(plan)) if symbols.is_empty() => Ok(plan),
        _ => Err((17, text.len())),
    }
}

/// Takes one byte more, or says which row refuses it. From its first digit on a leaf is a plan, which
/// may grow; a closing bracket makes one plan of all that it closes.
fn take(symbols: &mut Vec<Symbol>, byte: u8) -> Result<(), usize> {
    let digit = u16::from(byte.wrapping_sub(b'0'));
    // How many of the last symbols give way, and to what.
    let (last, symbol) = match (&symbols[..], byte) {
        ([] | [.., Byte(b'(' | b',')], b'S' | b'P') if levels(symbols) == MAX_DEPTH => {
            return Err(18);
        }
        ([] | [.., Byte(b'(' | b',')], b'r' | b'w' | b's' | b'S' | b'P')
        | ([.., Byte(b'S' | b'P')], b'(')
        | ([.., Byte(b'('), Whole(_)], b',') => (0, Byte(byte)),
        ([.., Byte(b'r')], b'0'..=b'9') => (1, Whole(Plan::Leaf(READ, digit))),
        ([.., Byte(b'w')], b'0'..=b'9') => (1, Whole(Plan::Leaf(WRITE, digit))),
        ([.., Byte(b's')], b'0'..=b'9') => (1, Whole(Plan::Leaf(SUM, digit))),
        (&[.., Whole(Plan::Leaf(kind, first @ 1..))], b'0'..=b'9')
            if usize::from(10 * first + digit) < LOCATIONS =>
        {
            (1, Whole(Plan::Leaf(kind, 10 * first + digit)))
        }
        ([.., Byte(letter), Byte(b'('), Whole(g1), Byte(b','), Whole(g2)], b')') => {
            let operator = if *letter == b'S' { Operator::S } else { Operator::P };
            (5, Whole(Plan::of(operator, g1.clone(), g2.clone())))
        }
        _ => return Err(17),
    };
    symbols.truncate(symbols.len() - last);
    symbols.push(symbol);
    Ok(())
}

/// How many levels are open.
fn levels(symbols: &[Symbol]) -> usize {
    symbols.iter().filter(|symbol| matches!(symbol, Byte(b'S' | b'P'))).count()
}

/// The trace that a text makes where slices of these lengths are lent, or the row and the position.
pub fn translate(text: &[u8], lent: [usize; 3]) -> Result<Trace, (usize, usize)> {
    let plan = read(text)?;
    let (events, tasks) = (plan.events(), 1 + plan.forks());
    let short = lent.into_iter().any(|cells| cells < events);
    if short || tasks > TASKS || events > MAX_EVENTS {
        return Err((19, 0));
    }
    Ok(plan.trace())
}
