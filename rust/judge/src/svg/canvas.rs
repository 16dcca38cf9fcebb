//! Shapes and text, written as SVG. All text is escaped here.

use super::style::STYLE;
use super::text::escape;
use std::fmt::{Arguments, Write};

/// The radius of the corners of lines.
const CORNER: i32 = 15;

#[derive(Default)]
pub struct Canvas {
    out: String,
}

impl Canvas {
    /// Writing to a `String` does not fail.
    fn put(&mut self, text: Arguments) {
        let _ = self.out.write_fmt(text);
    }

    /// Text at the height of a row's middle.
    pub fn text(&mut self, (x, y): (i32, i32), class: &str, text: &str) {
        let (y, text) = (y + 4, escape(text));
        self.put(format_args!("<text x=\"{x}\" y=\"{y}\" class=\"{class}\">{text}</text>\n"));
    }

    /// A rectangle with round corners, from its left top.
    pub fn rect(&mut self, (x, y): (i32, i32), (width, height): (i32, i32), class: &str) {
        let round = height.min(width).min(12) / 3;
        self.put(format_args!(
            "<rect x=\"{x}\" y=\"{y}\" width=\"{width}\" height=\"{height}\" rx=\"{round}\" \
             class=\"{class}\"/>\n"
        ));
    }

    pub fn circle(&mut self, (x, y): (i32, i32), radius: i32, class: &str) {
        self.put(format_args!(
            "<circle cx=\"{x}\" cy=\"{y}\" r=\"{radius}\" class=\"{class}\"/>\n"
        ));
    }

    pub fn diamond(&mut self, (x, y): (i32, i32), radius: i32, class: &str) {
        let (left, right, top, bottom) = (x - radius, x + radius, y - radius, y + radius);
        self.put(format_args!(
            "<path d=\"M{left} {y}L{x} {top}L{right} {y}L{x} {bottom}Z\" class=\"{class}\"/>\n"
        ));
    }

    /// A square with a plus in it.
    pub fn sum(&mut self, (x, y): (i32, i32), radius: i32, class: &str) {
        let (left, right, top, bottom) = (x - radius, x + radius, y - radius, y + radius);
        self.put(format_args!(
            "<path d=\"M{left} {top}L{right} {top}L{right} {bottom}L{left} {bottom}Z\" \
             class=\"{class}\"/>\n"
        ));
        let arm = radius - 2;
        let (left, right, top, bottom) = (x - arm, x + arm, y - arm, y + arm);
        self.put(format_args!(
            "<path d=\"M{left} {y}L{right} {y}M{x} {top}L{x} {bottom}\" class=\"plus\"/>\n"
        ));
    }

    /// A line through these points, round at its corners.
    pub fn line(&mut self, points: &[(i32, i32)], class: &str) {
        let path = rounded(points);
        self.put(format_args!("<path d=\"{path}\" class=\"{class}\"/>\n"));
    }

    pub fn cross(&mut self, (x, y): (i32, i32), radius: i32, class: &str) {
        let (left, right, top, bottom) = (x - radius, x + radius, y - radius, y + radius);
        self.put(format_args!(
            "<path d=\"M{left} {top}L{right} {bottom}M{left} {bottom}L{right} {top}\" \
             class=\"{class}\"/>\n"
        ));
    }

    /// What follows up to `close` belongs together, has a name to link to, and says what it is to
    /// who points at it.
    pub fn open(&mut self, id: &str, class: &str, tooltip: &str) {
        let tooltip = escape(tooltip);
        self.put(format_args!("<g id=\"{id}\" class=\"{class}\"><title>{tooltip}</title>\n"));
    }

    pub fn close(&mut self) {
        self.out.push_str("</g>\n");
    }

    /// The whole picture, with its title and its description for screen readers.
    pub fn framed(self, (width, height): (i32, i32), title: &str, description: &str) -> String {
        let (title, description, shapes) = (escape(title), escape(description), self.out);
        format!(
            "<?xml version=\"1.0\" encoding=\"UTF-8\"?>\n\
             <svg xmlns=\"http://www.w3.org/2000/svg\" viewBox=\"0 0 {width} {height}\" \
             width=\"{width}\" height=\"{height}\" role=\"img\" aria-labelledby=\"title desc\">\n\
             <title id=\"title\">{title}</title>\n<desc id=\"desc\">{description}</desc>\n\
             <style>\n{STYLE}</style>\n\
             <rect width=\"{width}\" height=\"{height}\" fill=\"#fff\"/>\n{shapes}</svg>\n"
        )
    }
}

/// The data of a path through these points.
fn rounded(points: &[(i32, i32)]) -> String {
    let mut path = String::new();
    for (i, &(x, y)) in points.iter().enumerate() {
        let before = i.checked_sub(1).and_then(|i| points.get(i));
        let _ = match (before, points.get(i + 1)) {
            (None, _) => write!(path, "M{x} {y}"),
            (Some(_), None) => write!(path, "L{x} {y}"),
            (Some(&before), Some(&after)) => {
                let radius = CORNER.min(distance(before, (x, y))).min(distance((x, y), after));
                let ((x1, y1), (x2, y2)) =
                    (towards((x, y), before, radius), towards((x, y), after, radius));
                write!(path, "L{x1} {y1}Q{x} {y} {x2} {y2}")
            }
        };
    }
    path
}

/// Of two points of which one is beside or above the other.
fn distance((x1, y1): (i32, i32), (x2, y2): (i32, i32)) -> i32 {
    (x1 - x2).abs().max((y1 - y2).abs())
}

fn towards((x, y): (i32, i32), (to_x, to_y): (i32, i32), step: i32) -> (i32, i32) {
    (x + step * (to_x - x).signum(), y + step * (to_y - y).signum())
}
