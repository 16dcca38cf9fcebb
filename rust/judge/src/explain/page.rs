//! A page of words for a terminal.

use crate::phrases::wrapped;

/// Lines are no longer than this, unless they hold one long word.
const WIDTH: usize = 100;

const INDENT: &str = "  ";

#[derive(Default)]
pub struct Page(String);

impl Page {
    /// A paragraph.
    pub fn say(&mut self, text: &str) {
        self.gap();
        self.add(text);
    }

    /// A sentence on a line of its own, in the paragraph before it.
    pub fn add(&mut self, text: &str) {
        for line in wrapped(text, |line| line.len() <= WIDTH) {
            self.0 += &line;
            self.0.push('\n');
        }
    }

    /// A paragraph with each sentence on a line of its own; none where there is no sentence.
    pub fn list(&mut self, sentences: &[String]) {
        if sentences.is_empty() {
            return;
        }
        self.gap();
        sentences.iter().for_each(|sentence| self.add(sentence));
    }

    /// Rows that stand by themselves, as they are.
    pub fn rows(&mut self, rows: impl IntoIterator<Item = String>) {
        self.gap();
        for row in rows {
            self.0 += INDENT;
            self.0 += row.trim_end();
            self.0.push('\n');
        }
    }

    /// So many letters of a row fit.
    pub fn row_width() -> usize {
        WIDTH - INDENT.len()
    }

    fn gap(&mut self) {
        if !self.0.is_empty() {
            self.0.push('\n');
        }
    }

    pub fn text(self) -> String {
        self.0
    }
}

#[cfg(test)]
mod tests {
    use super::*;

    #[test]
    fn paragraphs_are_broken_at_blanks() {
        let mut page = Page::default();
        page.say(&["word"; 40].join(" "));
        page.say(&"x".repeat(150));
        let text = page.text();
        let lengths: Vec<usize> = text.lines().map(str::len).collect();
        assert_eq!(lengths, [99, 99, 0, 150]);
    }
}
