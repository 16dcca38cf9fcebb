//! Where everything stands: a row for each event that is drawn and for each gap, a column for each
//! task. All numbers are pixels.

use super::choice::Choice;
use super::listing::Bracket;
use super::story::{Mark, Story};
use super::strips::Strips;
use super::text::{bold_width, width};
use super::words::{label, NO_ORDER};
use crate::phrases::count;
use std::collections::HashMap;

pub const MARGIN: i32 = 28;
pub const ROW: i32 = 26;
/// The size of the text beside events, of the numbers at the margin and of the notes.
pub const LABEL: i32 = 12;
/// That of heads at the margin and of gaps.
const SMALL: i32 = 11;
/// From an event to its label.
pub const LABEL_GAP: i32 = 11;
/// The same for events with a large sign, whose labels are bold.
pub const SIGN_GAP: i32 = 17;
/// From one bracket to the next outer one, and from the innermost to where it ends.
const LANE: i32 = 11;
const STUB: i32 = 14;
/// Wide enough for the sentences above the figure.
const NARROWEST: i32 = 640;
/// The column heads have two lines: the upper one says how many tasks are left out between two.
pub const HEAD: i32 = 46;

#[derive(Clone, Copy, Debug, PartialEq, Eq)]
pub enum Row {
    Event(usize),
    /// So many events are not drawn.
    Gap(usize),
    /// The join that is missing, right before the second access.
    Missing,
}

pub struct Column {
    pub task: u16,
    pub x: i32,
    /// So many tasks between the column before and this one are not drawn.
    pub skipped: usize,
}

/// The columns of numbers at the left margin: where each ends.
pub struct Table {
    pub event: i32,
    /// Text lines and source lines, if the trace came from a text.
    pub places: Option<(i32, i32)>,
    pub right: i32,
}

pub struct Layout {
    pub rows: Vec<Row>,
    /// For each event of the trace its row, or that of the gap it is in.
    row_of: Vec<usize>,
    pub columns: Vec<Column>,
    /// So many tasks right of the last column are not drawn.
    pub skipped_after: usize,
    column_of: HashMap<u16, usize>,
    /// From one column to the next.
    pub pitch: i32,
    /// From an event to the end of its label, at most.
    pub labels: i32,
    pub table: Table,
    /// The plan, right of the table, and its left.
    pub plan: Option<(Strips, i32)>,
    /// Where the connection of the two accesses runs, if there is a race, and half the width of the
    /// plate on it.
    pub lane: Option<(i32, i32)>,
    /// Those that connect the pairs, where pairs are listed, and where they end at their right.
    pub brackets: (Vec<Bracket>, i32),
    /// The left of the notes.
    pub notes: i32,
    pub width: i32,
    /// The top of the column heads: what stands above takes as much room as it needs.
    pub top: i32,
}

impl Layout {
    pub fn new(story: &Story, choice: &Choice) -> Layout {
        let (rows, row_of) = rows(story, choice);
        let table = table(story, &rows);
        let strips = story.planned.and_then(|planned| Strips::new(planned, &rows));
        let plan = strips.map(|strips| (strips, table.right + 18));
        let right = plan.as_ref().map_or(table.right, |(strips, left)| left + strips.width());
        let half = bold_width(NO_ORDER, LABEL) / 2 + 7;
        let lane = story.pair.map(|_| (right + 14 + half, half));
        let brackets = brackets(story, choice);
        let lanes = brackets.iter().map(|bracket| bracket.lane as i32 + 1).max();
        let end = right + 14 + lanes.map_or(0, |lanes| LANE * (lanes - 1) + STUB);
        let left = lane.map_or(end + 6, |(x, half)| x + half + 2);
        let mut layout = Layout {
            rows,
            row_of,
            columns: Vec::new(),
            skipped_after: 0,
            column_of: HashMap::new(),
            pitch: 0,
            labels: 0,
            table,
            plan,
            lane,
            brackets: (brackets, end),
            notes: 0,
            width: 0,
            top: 0,
        };
        layout.labels = layout.label_width(story);
        layout.place_columns(story, choice, left);
        layout.width = (layout.notes + layout.note_width(story) + MARGIN).max(NARROWEST);
        layout
    }

    fn place_columns(&mut self, story: &Story, choice: &Choice, left: i32) {
        let heads = |task: u16| bold_width(&format!("task {task}"), LABEL);
        // Who acts against the rules may be a task that no fork made.
        let refused = story.refused.and_then(|p| story.trace.event(p)).map(|event| event.task);
        let stranger = refused.filter(|&task| !choice.knows(task));
        let known = story.graph.columns().iter().map(|&task| (task, choice.shows(task)));
        let tasks: Vec<(u16, bool)> = known.chain(stranger.map(|task| (task, true))).collect();
        let widest = tasks.iter().filter(|(_, shown)| *shown).map(|&(task, _)| heads(task)).max();
        let widest = widest.unwrap_or(0);
        self.pitch = (widest + 10).max(self.labels + 12);
        let skips_first = tasks.first().is_some_and(|(_, shown)| !shown);
        let mut x = left + if skips_first { self.pitch } else { widest / 2 + 8 };
        for (task, shown) in tasks {
            if !shown {
                self.skipped_after += 1;
                continue;
            }
            self.column_of.insert(task, self.columns.len());
            let skipped = std::mem::take(&mut self.skipped_after);
            self.columns.push(Column { task, x, skipped });
            x += self.pitch;
        }
        self.notes = x - self.pitch + self.labels.max(widest / 2) + 20;
    }

    fn label_width(&self, story: &Story) -> i32 {
        let extent = |p: usize| {
            let label = label(story.trace.event(p)?);
            Some(match story.mark(p) {
                Some(Mark::Racing | Mark::Parted | Mark::Refused) => {
                    SIGN_GAP + bold_width(&label, LABEL)
                }
                _ => LABEL_GAP + width(&label, LABEL),
            })
        };
        self.events().filter_map(extent).max().unwrap_or(0)
    }

    fn note_width(&self, story: &Story) -> i32 {
        let notes = self.events().filter_map(|p| story.note(p)).chain(story.missing());
        notes.map(|note| bold_width(&note, LABEL)).max().unwrap_or(0)
    }

    /// The events that are drawn.
    fn events(&self) -> impl Iterator<Item = usize> + '_ {
        self.rows.iter().filter_map(|row| match *row {
            Row::Event(p) => Some(p),
            _ => None,
        })
    }

    /// The middle of a row.
    pub fn y(&self, row: usize) -> i32 {
        self.top + HEAD + ROW / 2 + ROW * row as i32
    }

    pub fn bottom(&self) -> i32 {
        self.y(self.rows.len()) - ROW / 2
    }

    /// Whether an event has a row of its own.
    pub fn draws(&self, p: usize) -> bool {
        let row = self.row_of.get(p).and_then(|&row| self.rows.get(row));
        matches!(row, Some(Row::Event(_)))
    }

    /// The middle of an event's row, or of the gap it is in.
    pub fn y_of(&self, p: usize) -> Option<i32> {
        self.row_of.get(p).map(|&row| self.y(row))
    }

    /// The middle of a task's column, if it has one.
    pub fn x_of(&self, task: u16) -> Option<i32> {
        self.columns.get(*self.column_of.get(&task)?).map(|column| column.x)
    }

    /// The left of a bracket.
    pub fn bracket_x(&self, bracket: &Bracket) -> i32 {
        self.brackets.1 - STUB - LANE * bracket.lane as i32
    }

    /// The middle of the row above the second access.
    pub fn missing_y(&self) -> Option<i32> {
        self.rows.iter().position(|row| *row == Row::Missing).map(|row| self.y(row))
    }
}

/// Those between events that are drawn.
fn brackets(story: &Story, choice: &Choice) -> Vec<Bracket> {
    let is_drawn = |p: usize| choice.drawn.get(p) == Some(&true);
    story.listing.as_ref().map_or(Vec::new(), |listing| listing.brackets(is_drawn))
}

/// The rows from top to bottom, and each event's row.
fn rows(story: &Story, choice: &Choice) -> (Vec<Row>, Vec<usize>) {
    let missing_at = story.missing().and(story.pair).map(|(_, t)| t);
    let mut rows = Vec::new();
    let mut row_of = Vec::with_capacity(choice.drawn.len());
    for (p, &drawn) in choice.drawn.iter().enumerate() {
        if missing_at == Some(p) {
            rows.push(Row::Missing);
        }
        match rows.last_mut() {
            _ if drawn => rows.push(Row::Event(p)),
            Some(Row::Gap(events)) => *events += 1,
            _ => rows.push(Row::Gap(1)),
        }
        row_of.push(rows.len() - 1);
    }
    (rows, row_of)
}

/// As wide as its numbers, its heads and the words at a gap need.
fn table(story: &Story, rows: &[Row]) -> Table {
    let (mut event, mut line, mut source, mut gap) = (0, 0, 0, 0);
    for row in rows {
        match *row {
            Row::Event(p) => {
                event = event.max(bold_width(&p.to_string(), LABEL));
                let Some((l, s)) = story.place(p) else { continue };
                line = line.max(width(&l.to_string(), LABEL));
                source = source.max(width(&s.to_string(), LABEL));
            }
            Row::Gap(events) => gap = gap.max(width(&gap_words(events), SMALL)),
            Row::Missing => {}
        }
    }
    let event = MARGIN + event.max(width("event", SMALL));
    let places = (line > 0).then(|| {
        let line = event + 14 + line.max(width("line", SMALL));
        (line, line + 14 + source.max(width("source", SMALL)))
    });
    let right = places.map_or(event, |(_, source)| source).max(MARGIN + gap);
    Table { event, places, right }
}

pub fn gap_words(events: usize) -> String {
    format!("⋮ {} not drawn", count(events, "event"))
}
