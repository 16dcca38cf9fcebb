//! The cards of a trace by a plain count, and as the command tells them.

use super::json::Json;
use racejudge::{Event, Kind, Trace};
use std::collections::BTreeMap;

/// What is told of a location.
#[derive(Clone, Debug, PartialEq)]
pub struct Row {
    pub location: usize,
    pub reads: usize,
    pub writes: usize,
    pub sums: usize,
    pub first: usize,
    pub last: usize,
    /// The lines of the first and the last event, where the file is a text.
    pub lines: Option<(usize, usize)>,
}

impl Row {
    pub fn accesses(&self) -> usize {
        self.reads + self.writes + self.sums
    }
}

/// The rows of the locations that are touched, in their order. `is_text` asks for lines.
pub fn counted(trace: &Trace, is_text: bool) -> Vec<Row> {
    let events: Vec<Event> = trace.events().collect();
    let mut touching: BTreeMap<u16, Vec<usize>> = BTreeMap::new();
    for (p, event) in events.iter().enumerate() {
        if matches!(event.kind(), Some(Kind::Read | Kind::Write | Kind::Sum)) {
            touching.entry(event.operand).or_default().push(p);
        }
    }
    // Each event but the halts has made a line.
    let line = |p: usize| events[..=p].iter().filter(|it| it.kind() != Some(Kind::Halt)).count();
    let row = |(location, positions): (u16, Vec<usize>)| {
        let of = |kind| positions.iter().filter(|&&p| events[p].kind() == Some(kind)).count();
        let (first, last) = (positions[0], positions[positions.len() - 1]);
        Row {
            location: location.into(),
            reads: of(Kind::Read),
            writes: of(Kind::Write),
            sums: of(Kind::Sum),
            first,
            last,
            lines: is_text.then(|| (line(first), line(last))),
        }
    };
    touching.into_iter().map(row).collect()
}

/// The same with the busiest first, and of those that are as busy the lower location.
pub fn busiest_first(mut rows: Vec<Row>) -> Vec<Row> {
    rows.sort_by(|a, b| (b.accesses(), a.location).cmp(&(a.accesses(), b.location)));
    rows
}

/// The words have a table of these rows, with the bars that belong to them, and their totals beneath;
/// where there is no row, they say so.
#[track_caller]
pub fn hold(words: &str, rows: &[Row]) {
    let Some(most) = rows.iter().map(Row::accesses).max() else {
        assert!(words.ends_with("\n\nNo event of the trace touches a location.\n"), "{words}");
        return;
    };
    let table: Vec<&str> = words.lines().filter(|line| line.starts_with("  ")).skip(1).collect();
    let told = table.iter().map(|row| read(row));
    let wanted = rows.iter().map(|row| (row.clone(), marks(row.accesses(), most)));
    assert!(told.eq(wanted), "{rows:?} are not\n{words}");
    assert!(table.iter().all(|row| ends(row) == ends(table[0])), "not set to the right\n{words}");
    assert!(words.lines().all(|line| line.len() <= 100), "too wide\n{words}");
    let times = |number| format!("{number} access{}", if number == 1 { "" } else { "es" });
    let (touched, all) = (rows.len(), times(rows.iter().map(Row::accesses).sum()));
    let totals = format!(
        "\n\nTouched: {touched} of 1024 locations by {all}.\nThe longest bar stands for {}.\n",
        times(most)
    );
    assert!(words.replace(',', "").contains(&totals), "no {totals} in\n{words}");
}

/// Where the numbers of a row end.
fn ends(row: &str) -> Vec<usize> {
    row.match_indices(' ').map(|(at, _)| at).filter(|&at| !row[..at].ends_with(' ')).collect()
}

/// A row of the table, and the length of its bar.
fn read(row: &str) -> (Row, usize) {
    let words: Vec<&str> = row.split_whitespace().collect();
    let (bar, numbers) = words.split_last().expect("a row has words");
    assert!(bar.bytes().all(|mark| mark == b'#'), "{row}");
    let number = |word: &&str| word.replace(',', "").parse().expect("a number");
    let (lines, numbers) = match numbers.iter().map(number).collect::<Vec<usize>>()[..] {
        [location, reads, writes, sums, first, first_line, last, last_line] => {
            (Some((first_line, last_line)), [location, reads, writes, sums, first, last])
        }
        [location, reads, writes, sums, first, last] => {
            (None, [location, reads, writes, sums, first, last])
        }
        _ => panic!("{row}"),
    };
    let [location, reads, writes, sums, first, last] = numbers;
    (Row { location, reads, writes, sums, first, last, lines }, bar.len())
}

/// The length of a bar: the fewest of 20 marks that stand for so many accesses.
fn marks(accesses: usize, most: usize) -> usize {
    (0..=20).find(|marks| marks * most >= accesses * 20).expect("no more than the most")
}

/// The cards of an object.
#[track_caller]
pub fn listed(object: &Json) -> Vec<Row> {
    let row = |card: &Json| {
        let number = |name| card.field(name).number();
        let is_text = card.field("first_line") != &Json::Null;
        Row {
            location: number("location"),
            reads: number("reads"),
            writes: number("writes"),
            sums: number("sums"),
            first: number("first"),
            last: number("last"),
            lines: is_text.then(|| (number("first_line"), number("last_line"))),
        }
    };
    object.field("cards").items().iter().map(row).collect()
}
