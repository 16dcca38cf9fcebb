//! Draws the rows and columns: bands, heads, numbers, lines, events and notes.

use super::canvas::Canvas;
use super::layout::{gap_words, Layout, Row, LABEL, LABEL_GAP, MARGIN, ROW, SIGN_GAP};
use super::lines::{lines, missing_join};
use super::story::{Mark, Story, Tone};
use super::strips::{Label, Strip, LEAF_GAP, STRIP};
use super::text::bold_width;
use super::words::{label, NO_ORDER};
use crate::phrases::grouped;
use racejudge::{Event, Kind, Operator};

pub struct Figure<'a> {
    pub story: &'a Story<'a>,
    pub layout: &'a Layout,
    pub canvas: &'a mut Canvas,
}

impl Figure<'_> {
    /// Returns how far down it reaches. What is drawn later lies on top.
    pub fn draw(&mut self) -> i32 {
        self.bands();
        self.plan();
        self.leaders();
        self.heads();
        self.lines();
        self.rows();
        self.race();
        self.brackets();
        self.layout.bottom()
    }

    /// The ground of rows that stand out, and a thin rule under each other one.
    fn bands(&mut self) {
        let right = self.layout.width - MARGIN;
        for (i, row) in self.layout.rows.iter().enumerate() {
            let top = self.layout.y(i) - ROW / 2;
            let mark = match *row {
                Row::Event(p) => self.story.mark(p),
                _ => None,
            };
            let class = match (row, mark) {
                (Row::Gap(_), _) => "band-gap",
                (_, Some(Mark::Racing | Mark::Refused)) => "band-hot",
                (_, Some(Mark::Parted)) => "band-note",
                _ => {
                    let under = top + ROW;
                    self.canvas.line(&[(MARGIN, under), (right, under)], "rule");
                    continue;
                }
            };
            self.canvas.rect((MARGIN - 8, top), (right - MARGIN + 16, ROW), class);
        }
    }

    /// The plan, in the rows of its events.
    fn plan(&mut self) {
        let layout = self.layout;
        let Some((strips, left)) = &layout.plan else { return };
        self.canvas.text((*left, layout.top + 26), "tiny", "plan");
        for strip in &strips.strips {
            self.strip(strip, left + STRIP * strip.level as i32);
        }
        for label in &strips.labels {
            self.leaf(label, left + STRIP * label.level as i32 + LEAF_GAP);
        }
    }

    fn strip(&mut self, strip: &Strip, x: i32) {
        let Strip { operator, position, events, pieces, .. } = strip;
        let tooltip =
            format!("{operator} at byte {position}: events {} to {}", events.start, events.end - 1);
        self.canvas.open(&format!("byte-{position}"), "operator", &tooltip);
        for piece in pieces {
            let [top, bottom] = piece.rows.map(|row| self.layout.y(row));
            let tone = piece.tone.map_or(operator_class(*operator), Tone::class);
            let size = (STRIP - 4, bottom - top + ROW - 4);
            self.canvas.rect((x, top - ROW / 2 + 2), size, &format!("strip {tone}"));
        }
        if let Some(first) = pieces.first() {
            let is_meet = pieces.iter().any(|piece| piece.tone.is_some());
            let class = if is_meet { "hot mid" } else { "mid" };
            let at = (x + STRIP / 2 - 2, self.layout.y(first.rows[0]));
            self.canvas.text(at, class, &operator.to_string());
        }
        self.canvas.close();
    }

    fn leaf(&mut self, label: &Label, x: i32) {
        let Label { leaf, row, .. } = label;
        let (y, text) = (self.layout.y(*row), leaf.to_string());
        let (tone, mark) = (self.story.tone(leaf.event), self.story.mark(leaf.event));
        let class = format!("leaf {}{}", tone.class(), mark_class(mark));
        let tooltip = format!("{leaf} at byte {}: event {}", leaf.position, leaf.event);
        self.canvas.open(&format!("byte-{}", leaf.position), &class, &tooltip);
        if mark == Some(Mark::Racing) {
            let width = bold_width(&text, LABEL) + 8;
            self.canvas.rect((x - 4, y - 10), (width, 20), "plate");
        }
        self.canvas.text((x, y), weight(mark, tone.class()), &text);
        self.canvas.close();
    }

    /// Leads the eye from events to their notes, where no band does.
    fn leaders(&mut self) {
        for (i, row) in self.layout.rows.iter().enumerate() {
            let (p, gap) = match (*row, self.story.pair) {
                (Row::Event(p), _) => match self.story.mark(p) {
                    Some(Mark::Ended) => (p, LABEL_GAP + 6),
                    Some(Mark::Late) => (p, self.layout.labels + 4),
                    _ => continue,
                },
                (Row::Missing, Some((_, t))) => (t, LABEL_GAP),
                _ => continue,
            };
            let task = self.story.trace.event(p).map(|event| event.task);
            if let Some(x) = task.and_then(|task| self.layout.x_of(task)) {
                let y = self.layout.y(i);
                self.canvas.line(&[(x + gap, y), (self.layout.notes - 8, y)], "leader");
            }
        }
    }

    fn heads(&mut self) {
        let (layout, upper, lower) = (self.layout, self.layout.top + 10, self.layout.top + 26);
        self.canvas.text((layout.table.event, lower), "tiny end", "event");
        if let Some((line, source)) = layout.table.places {
            for (x, word) in [(line, "text"), (source, "source")] {
                self.canvas.text((x, upper), "tiny end", word);
                self.canvas.text((x, lower), "tiny end", "line");
            }
        }
        let mut before = None;
        for column in &layout.columns {
            self.canvas.text((column.x, lower), "head", &format!("task {}", column.task));
            let x = before.map_or(column.x - layout.pitch / 2, |before| (before + column.x) / 2);
            self.skipped((x, upper), column.skipped);
            before = Some(column.x);
        }
        self.skipped((before.unwrap_or(0) + layout.pitch / 2, upper), layout.skipped_after);
    }

    /// How many tasks are left out at a place.
    fn skipped(&mut self, at: (i32, i32), tasks: usize) {
        if tasks > 0 {
            self.canvas.text(at, "tiny mid skip", &format!("⋯ {} ⋯", grouped(tasks)));
        }
    }

    /// The paler lie beneath the stronger.
    fn lines(&mut self) {
        let mut lines = lines(self.story, self.layout);
        lines.sort_by_key(|line| line.tone);
        for line in lines {
            let class = format!("line {} {}", line.stroke.class(), line.tone.class());
            self.canvas.line(&line.points, &class);
        }
        if let Some(points) = missing_join(self.story, self.layout) {
            self.canvas.line(&points, "missing");
            self.canvas.cross(points[2], 6, "cross");
        }
    }

    fn rows(&mut self) {
        for (i, row) in self.layout.rows.iter().enumerate() {
            let y = self.layout.y(i);
            match *row {
                Row::Event(p) => self.event(p, y),
                Row::Gap(events) => self.canvas.text((MARGIN, y), "tiny gap", &gap_words(events)),
                Row::Missing => {
                    let words = self.story.missing().unwrap_or_default();
                    self.canvas.text((self.layout.notes, y), "hot", &words);
                }
            }
        }
    }

    fn event(&mut self, p: usize, y: i32) {
        let Some(event) = self.story.trace.event(p) else { return };
        let (tone, mark) = (self.story.tone(p), self.story.mark(p));
        let class = format!("event {}{}", tone.class(), mark_class(mark));
        self.canvas.open(&format!("event-{p}"), &class, &self.story.tooltip(p));
        self.numbers(p, y, tone, mark);
        if let Some(x) = self.layout.x_of(event.task) {
            self.node((x, y), event, tone, mark);
            self.label((x, y), event, tone, mark);
        }
        if let Some(note) = self.story.note(p) {
            self.canvas.text((self.layout.notes, y), weight(mark, "plain"), &note);
        }
        self.canvas.close();
    }

    fn numbers(&mut self, p: usize, y: i32, tone: Tone, mark: Option<Mark>) {
        let weight = weight(mark, if tone == Tone::Pale { "pale" } else { "plain" });
        let table = &self.layout.table;
        self.canvas.text((table.event, y), &format!("end {weight}"), &p.to_string());
        let Some((line, source)) = self.story.place(p) else { return };
        if let Some((line_end, source_end)) = table.places {
            let class = if tone == Tone::Pale { "end pale" } else { "end soft" };
            self.canvas.text((line_end, y), class, &line.to_string());
            self.canvas.text((source_end, y), class, &source.to_string());
        }
    }

    fn node(&mut self, at: (i32, i32), event: Event, tone: Tone, mark: Option<Mark>) {
        let (x, y) = at;
        let racing = mark == Some(Mark::Racing);
        if racing {
            self.canvas.circle(at, 11, "ring");
        }
        let radius = if racing { 6 } else { 5 };
        let tone = tone.class();
        match event.kind() {
            _ if mark == Some(Mark::Refused) => self.canvas.cross(at, 7, "cross"),
            _ if mark == Some(Mark::Parted) => self.canvas.diamond(at, 8, "diamond"),
            Some(Kind::Write) => self.canvas.circle(at, radius, &format!("full {tone}")),
            Some(Kind::Read) => self.canvas.circle(at, radius, &format!("hollow {tone}")),
            Some(Kind::Sum) => self.canvas.sum(at, radius, &format!("sum {tone}")),
            Some(Kind::Halt) => self.canvas.line(&[(x - 8, y), (x + 8, y)], &format!("bar {tone}")),
            _ => self.canvas.circle(at, 3, &format!("full {tone}")),
        }
    }

    fn label(&mut self, (x, y): (i32, i32), event: Event, tone: Tone, mark: Option<Mark>) {
        let has_sign = matches!(mark, Some(Mark::Racing | Mark::Parted | Mark::Refused));
        if event.kind() != Some(Kind::Halt) || has_sign {
            let gap = if has_sign { SIGN_GAP } else { LABEL_GAP };
            self.canvas.text((x + gap, y), weight(mark, tone.class()), &label(event));
        }
    }

    /// The connection of the two accesses, beside the numbers of their rows.
    fn race(&mut self) {
        let (Some((s, t)), Some((x, half))) = (self.story.pair, self.layout.lane) else { return };
        let (Some(top), Some(bottom)) = (self.layout.y_of(s), self.layout.y_of(t)) else { return };
        self.canvas.line(&[(x + 24, top), (x, top), (x, bottom), (x + 24, bottom)], "bracket");
        let middle = (top + bottom) / 2;
        self.canvas.rect((x - half, middle - 11), (2 * half, 22), "plate");
        self.canvas.text((x, middle), "hot mid", NO_ORDER);
    }

    /// The connections of the pairs that are listed.
    fn brackets(&mut self) {
        let (brackets, end) = &self.layout.brackets;
        for bracket in brackets {
            let ends = [bracket.pair.s, bracket.pair.t].map(|p| self.layout.y_of(p));
            let [Some(top), Some(bottom)] = ends else { continue };
            let x = self.layout.bracket_x(bracket);
            self.canvas.line(&[(*end, top), (x, top), (x, bottom), (*end, bottom)], "bracket");
        }
    }
}

/// The class of what is written about an event.
fn weight(mark: Option<Mark>, otherwise: &'static str) -> &'static str {
    match mark {
        Some(Mark::Racing | Mark::Refused) => "hot",
        Some(Mark::Parted) => "bold",
        _ => otherwise,
    }
}

/// The class of an operator's strip.
pub fn operator_class(operator: Operator) -> &'static str {
    match operator {
        Operator::Series => "series",
        Operator::Parallel => "parallel",
    }
}

fn mark_class(mark: Option<Mark>) -> &'static str {
    match mark {
        Some(Mark::Racing) => " racing",
        Some(Mark::Parted) => " parted",
        Some(Mark::Ended) => " ended",
        Some(Mark::Late) => " late",
        Some(Mark::Refused) => " refused",
        None => "",
    }
}
