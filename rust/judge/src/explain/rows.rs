//! Events in words, with their place in the text, set under each other.

use crate::phrases::{deed, visible};
use crate::study::Scene;

impl Scene<'_> {
    pub fn deed(&self, p: usize) -> String {
        self.trace.event(p).map_or(String::new(), deed)
    }

    /// `event 8 (line 9)`.
    pub fn mention(&self, p: usize) -> String {
        match self.place(p) {
            Some(place) => format!("event {p} (line {})", place.line),
            None => format!("event {p}"),
        }
    }

    /// One row for each of these events, set under each other as far as `widest` needs it.
    pub fn rows(&self, events: &[usize], widest: usize) -> Vec<String> {
        events.iter().map(|&p| self.row(p, widest)).collect()
    }

    fn row(&self, p: usize, widest: usize) -> String {
        let width = |widest: usize| widest.to_string().len();
        let event = format!("event {p:<0$}", width(widest));
        let lines = self.trace.place(widest).map(|place| width(place.line + 1));
        let line = lines.map(|width| match self.place(p) {
            Some(place) => format!("   line {:<width$}", place.line),
            None => " ".repeat("   line ".len() + width),
        });
        format!("{event}{}   {}", line.unwrap_or_default(), self.deed(p))
    }

    /// The same with the source line and the line's text behind.
    pub fn full_rows(&self, events: &[usize], widest: usize) -> Vec<String> {
        let mut rows = self.rows(events, widest);
        let source =
            |&p: &usize| self.place(p).map(|place| format!("   source line {}", place.source));
        let line = |&p: &usize| self.line(p).map(|line| format!("   {}", visible(line)));
        append(&mut rows, events.iter().map(source));
        append(&mut rows, events.iter().map(line));
        rows
    }
}

/// Sets one more column under each other behind the rows.
pub fn append(rows: &mut [String], column: impl Iterator<Item = Option<String>>) {
    let width = rows.iter().map(String::len).max().unwrap_or(0);
    for (row, cell) in rows.iter_mut().zip(column) {
        *row = format!("{row:<width$}{}", cell.unwrap_or_default());
    }
}
