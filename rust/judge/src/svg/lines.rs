//! Which lines run through the picture: each task's life, forks, joins, the join that is missing.
//!
//! A fork turns down into the child's column in the fork's own row, a join comes out of the joined
//! task's column in the join's own row. No task that is alive stands between the two then, so lines
//! do not cross, but for ways that are cut.

use super::layout::Layout;
use super::story::{Story, Tone};
use racejudge::Kind;
use std::collections::HashMap;

#[derive(Clone, Copy, Debug, PartialEq, Eq)]
pub enum Stroke {
    /// A task's life and the arc of its fork.
    Life,
    /// From a halt to the join that names the task.
    Join,
    /// Something is left out along this line.
    Cut,
}

impl Stroke {
    /// The class of the picture's style sheet.
    pub fn class(self) -> &'static str {
        match self {
            Stroke::Life => "life",
            Stroke::Join => "wait",
            Stroke::Cut => "cut",
        }
    }
}

pub struct Line {
    pub stroke: Stroke,
    pub tone: Tone,
    /// The corners, which are drawn round.
    pub points: Vec<(i32, i32)>,
}

/// All lines but the missing join.
pub fn lines(story: &Story, layout: &Layout) -> Vec<Line> {
    let mut lines = Vec::new();
    for p in 0..story.graph.len() {
        let starts = story.graph.starts(p).into_iter().flatten();
        lines.extend(starts.filter_map(|start| arc(story, layout, start, p)));
    }
    lines.extend(tails(story, layout));
    if let Some(why) = story.why {
        lines.extend(leaps(story, layout, &why.to_s, Tone::ToS));
        lines.extend(leaps(story, layout, &why.to_t, Tone::ToT));
        lines.extend(leaps(story, layout, &story.onward, Tone::Onward));
    }
    lines
}

/// The arc from one event to another, if it is to be seen.
fn arc(story: &Story, layout: &Layout, from: usize, to: usize) -> Option<Line> {
    let (start, end) = (story.trace.event(from)?, story.trace.event(to)?);
    let (y1, y2) = (layout.y_of(from)?, layout.y_of(to)?);
    let (x1, x2) = (layout.x_of(start.task), layout.x_of(end.task));
    let is_fork = start.kind() == Some(Kind::Fork);
    let (tone, turn) = (story.arc_tone(from, to), if is_fork { from } else { to });
    let stroke = if start.task == end.task || is_fork { Stroke::Life } else { Stroke::Join };
    // Where many events share a gap, their turns would lie over each other.
    let turns = start.task != end.task && (layout.draws(turn) || tone > Tone::Plain);
    let points = match (x1, x2) {
        (Some(x1), Some(x2)) if turns && is_fork => vec![(x1, y1), (x2, y1), (x2, y2)],
        (Some(x1), Some(x2)) if turns => vec![(x1, y1), (x1, y2), (x2, y2)],
        (Some(x), _) if stroke == Stroke::Join => vec![(x, y1), (x, y2)],
        (_, Some(x)) if stroke == Stroke::Life => vec![(x, y1), (x, y2)],
        _ => return None,
    };
    (points.first() != points.last()).then_some(Line { stroke, tone, points })
}

/// Tasks that have not halted live on, also one that was forked and has done nothing yet.
fn tails(story: &Story, layout: &Layout) -> Vec<Line> {
    let mut last: HashMap<u16, usize> = HashMap::new();
    for (p, event) in story.trace.events().enumerate().take(story.graph.len()) {
        last.insert(event.task, p);
    }
    let tail = |&task: &u16| {
        let x = layout.x_of(task)?;
        let mut points = vec![(x, layout.bottom())];
        match (last.get(&task), story.graph.forked_at(task)) {
            (Some(&p), _) => points.push((x, layout.y_of(p)?)),
            (None, Some(fork)) => {
                let (parent, y) = (story.trace.event(fork)?.task, layout.y_of(fork)?);
                points.extend([(x, y), (layout.x_of(parent)?, y)]);
            }
            (None, None) => points.push((x, layout.y(0))),
        }
        Some(Line { stroke: Stroke::Life, tone: story.rest_tone(), points })
    };
    let living = |task: &&u16| story.graph.halted_at(**task).is_none();
    story.graph.columns().iter().filter(living).filter_map(tail).collect()
}

/// Where a way runs through tasks that are not drawn, from the last event before them to the first
/// one after.
fn leaps(story: &Story, layout: &Layout, path: &[usize], tone: Tone) -> Vec<Line> {
    let mut leaps = Vec::new();
    let mut before: Option<(i32, i32)> = None;
    let mut hidden: Option<i32> = None;
    for &p in path {
        let (Some(event), Some(y)) = (story.trace.event(p), layout.y_of(p)) else { continue };
        let Some(x) = layout.x_of(event.task) else {
            hidden = Some(y);
            continue;
        };
        if let (Some((x1, y1)), Some(gap)) = (before, hidden.take()) {
            let points = vec![(x1, y1), (x1, gap), (x, gap), (x, y)];
            leaps.push(Line { stroke: Stroke::Cut, tone, points });
        }
        before = Some((x, y));
    }
    leaps
}

/// The join that would have ordered the two accesses: from the halt of the task that holds the
/// first to just above the second, where it is crossed out.
pub fn missing_join(story: &Story, layout: &Layout) -> Option<[(i32, i32); 3]> {
    let (_, t) = story.pair?;
    let (x1, y1) = (layout.x_of(story.holder()?)?, layout.y_of(story.ended()?)?);
    let (x2, y2) = (layout.x_of(story.trace.event(t)?.task)?, layout.missing_y()?);
    Some([(x1, y1), (x1, y2), (x2 - 14, y2)])
}
