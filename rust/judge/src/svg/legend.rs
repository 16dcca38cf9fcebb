//! What the signs mean, beneath the picture.

use super::canvas::Canvas;
use super::figure::operator_class;
use super::layout::{LABEL, MARGIN};
use super::story::Story;
use super::strips::STRIP;
use super::text::{width, wrap};
use crate::phrases::has_sums;
use racejudge::Operator;

/// A sign is drawn around the middle of a box that is so wide.
const SIGN: i32 = 34;
const GAP: i32 = 8;
const ROW: i32 = 30;
/// From one line of a sentence to the next.
const LINE: i32 = 17;

enum Sign {
    Operator(Operator),
    Write,
    Read,
    Sum,
    Fork,
    Halt,
    Join,
    ToS,
    ToT,
    Missing,
    Pale,
    Racing,
    Bracket,
}

const ROWS_AND_LINES: &str = "Rows follow this run; lines hold in all runs. \
    Events that no path of lines connects have no order.";

/// Returns how far down it reaches.
pub fn legend(canvas: &mut Canvas, story: &Story, top: i32, right: i32) -> i32 {
    let mut y = grid(canvas, &signs(story), top, right) + ROW;
    for line in wrap(ROWS_AND_LINES, LABEL, right - MARGIN) {
        canvas.text((MARGIN, y), "soft", &line);
        y += LINE;
    }
    y - LINE
}

fn signs(story: &Story) -> Vec<(Sign, String)> {
    let mut signs = vec![
        (Sign::Write, "w 3: writes location 3".into()),
        (Sign::Read, "r 3: reads location 3".into()),
    ];
    if has_sums(story.trace) {
        signs.push((Sign::Sum, "s 3: adds to location 3".into()));
    }
    signs.extend([
        (Sign::Fork, "fork: a task begins".into()),
        (Sign::Halt, "halt: it ends".into()),
        (Sign::Join, "join: waits for the end".into()),
    ]);
    if story.planned.is_some() {
        signs.push((Sign::Operator(Operator::Series), "S: one after the other".into()));
        signs.push((Sign::Operator(Operator::Parallel), "P: side by side".into()));
    }
    if story.listing.is_some() {
        signs.push((Sign::Racing, "an access that races".into()));
        signs.push((Sign::Bracket, "these two race".into()));
    }
    let Some((s, t)) = story.pair else { return signs };
    if story.why.is_some() {
        signs.push((Sign::ToS, format!("way to event {s}")));
        signs.push((Sign::ToT, format!("way to event {t}")));
    }
    if story.missing().is_some() {
        signs.push((Sign::Missing, "where a join is missing".into()));
    }
    signs.push((Sign::Pale, "before neither of the two".into()));
    signs
}

/// Rows of the same number of signs, as few as there is room for. Returns the height of the last.
fn grid(canvas: &mut Canvas, signs: &[(Sign, String)], top: i32, right: i32) -> i32 {
    let widest = signs.iter().map(|(_, words)| width(words, LABEL)).max().unwrap_or(0);
    let pitch = SIGN + GAP + widest + 2 * GAP;
    let fitting = ((right - MARGIN + 2 * GAP) / pitch).clamp(1, 5) as usize;
    let rows = signs.len().div_ceil(fitting).max(1);
    let (mut x, mut y) = (MARGIN, top);
    for row in signs.chunks(signs.len().div_ceil(rows).max(1)) {
        for (sign, words) in row {
            draw(canvas, sign, (x + SIGN / 2, y));
            canvas.text((x + SIGN + GAP, y), "plain", words);
            x += pitch;
        }
        (x, y) = (MARGIN, y + ROW);
    }
    y - ROW
}

fn draw(canvas: &mut Canvas, sign: &Sign, (x, y): (i32, i32)) {
    let (left, right) = (x - 12, x + 12);
    let across = [(x - 17, y), (x + 17, y)];
    match sign {
        Sign::Operator(operator) => strip(canvas, *operator, (x, y)),
        Sign::Write => canvas.circle((x, y), 5, "full plain"),
        Sign::Read => canvas.circle((x, y), 5, "hollow plain"),
        Sign::Sum => canvas.sum((x, y), 5, "sum plain"),
        Sign::Fork => {
            canvas.line(&[(right, y - 11), (right, y + 11)], "line life plain");
            canvas.line(&[(right, y - 6), (left, y - 6), (left, y + 11)], "line life plain");
            canvas.circle((right, y - 6), 3, "full plain");
        }
        Sign::Halt => {
            canvas.line(&[(x, y - 9), (x, y + 4)], "line life plain");
            canvas.line(&[(x - 8, y + 4), (x + 8, y + 4)], "bar plain");
        }
        Sign::Join => {
            canvas.line(&[(right, y - 11), (right, y + 11)], "line life plain");
            canvas.line(&[(left, y - 9), (left, y + 6), (right, y + 6)], "line wait plain");
            canvas.line(&[(left - 5, y - 9), (left + 9, y - 9)], "bar plain");
            canvas.circle((right, y + 6), 3, "full plain");
        }
        Sign::ToS => canvas.line(&across, "line life to-s"),
        Sign::ToT => canvas.line(&across, "line life to-t"),
        Sign::Missing => {
            canvas.line(&[(x - 17, y), (x - 5, y)], "line life onward");
            canvas.line(&[(x - 5, y), (x + 17, y)], "missing");
        }
        Sign::Pale => canvas.line(&across, "line life pale"),
        Sign::Racing => {
            canvas.circle((x, y), 11, "ring");
            canvas.circle((x, y), 6, "full plain");
        }
        Sign::Bracket => {
            canvas
                .line(&[(x + 6, y - 9), (x - 6, y - 9), (x - 6, y + 9), (x + 6, y + 9)], "bracket");
        }
    }
}

/// That of a P has two pieces, one for each operand.
fn strip(canvas: &mut Canvas, operator: Operator, (x, y): (i32, i32)) {
    let class = format!("strip {}", operator_class(operator));
    let pieces: &[(i32, i32)] = match operator {
        Operator::Series => &[(y - 12, 24)],
        Operator::Parallel => &[(y - 12, 17), (y + 7, 7)],
    };
    for &(top, height) in pieces {
        canvas.rect((x - STRIP / 2 + 2, top), (STRIP - 4, height), &class);
    }
    canvas.text((x, y - 3), "mid", &operator.to_string());
}
