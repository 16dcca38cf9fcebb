//! The whole picture: the words above it, the figure and the legend.

use super::canvas::Canvas;
use super::choice::Choice;
use super::figure::Figure;
use super::layout::{Layout, MARGIN};
use super::legend::legend;
use super::story::Story;
use super::text::{shorten, wrap};
use racejudge::Verdict;

const TITLE: i32 = 18;
/// The size of the sentences, and from one of their lines to the next.
const SAY: i32 = 13;
const SAY_LINE: i32 = 19;

const DEEPER: &str = "The innermost S and P of the plan are not drawn.";

pub fn page(story: &Story, choice: &Choice, title: &str) -> String {
    let mut layout = Layout::new(story, choice);
    let inner = layout.width - 2 * MARGIN;
    let mut told = story.summary();
    told.extend(story.extent(choice.events(), choice.tasks()));
    told.extend(story.connected(&choice.drawn, layout.brackets.0.len()));
    told.extend(layout.plan.iter().filter(|(strips, _)| strips.is_cut).map(|_| DEEPER.into()));
    let said: Vec<String> = told.iter().flat_map(|text| wrap(text, SAY, inner)).collect();
    let mut canvas = Canvas::default();
    layout.top = words(&mut canvas, story, &shorten(title, TITLE, inner), &said);
    let mut bottom = layout.top;
    if !layout.rows.is_empty() {
        bottom = Figure { story, layout: &layout, canvas: &mut canvas }.draw();
        bottom = legend(&mut canvas, story, bottom + 40, layout.width - MARGIN) + MARGIN;
    }
    let name = format!("{title}: {}", story.answer_line());
    canvas.framed((layout.width, bottom), &name, &told.join(" "))
}

/// Returns how far down they reach.
fn words(canvas: &mut Canvas, story: &Story, title: &str, said: &[String]) -> i32 {
    let mut y = MARGIN + 8;
    canvas.text((MARGIN, y), "title", title);
    y += 28;
    let class = match story.answer {
        Ok(Verdict::Clean { .. }) => "answer clean",
        _ => "answer bad",
    };
    canvas.text((MARGIN, y), class, &story.answer_line());
    y += 26;
    for line in said {
        canvas.text((MARGIN, y), "say", line);
        y += SAY_LINE;
    }
    y + 6
}
