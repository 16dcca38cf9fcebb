//! A plan as a tree: a row for each operator and each leaf, in the order of the text.

use super::sketch::{leaves, Sketch};
use super::RACES;
use crate::explain::rows::append;
use crate::phrases::count;
use crate::study::Clash;

const MEET: &str = "   <- here they meet";

struct Row {
    byte: usize,
    /// That of a leaf.
    event: Option<usize>,
    drawn: String,
}

pub fn rows(sketch: &Sketch, clash: Option<&Clash>) -> Vec<String> {
    let mut drawn = Vec::new();
    add(&mut drawn, sketch, clash, ["", ""]);
    let mut rows: Vec<String> = drawn.iter().map(|row| format!("byte {}", row.byte)).collect();
    append(&mut rows, drawn.iter().map(|row| Some(format!("   event {}", row.event?))));
    append(&mut rows, drawn.iter().map(|row| Some(format!("   {}", row.drawn))));
    rows
}

/// Adds the rows of a tree: the first line has the one stem before it, what is beneath it the other.
fn add(rows: &mut Vec<Row>, sketch: &Sketch, clash: Option<&Clash>, [stem, beneath]: [&str; 2]) {
    let (byte, event, label) = match sketch {
        Sketch::Leaf(leaf) => (leaf.position, Some(leaf.event), leaf.to_string()),
        Sketch::Node(node, _) => (node.position, None, node.operator.to_string()),
        Sketch::Rest(tree) => {
            (tree.position(), None, format!(".. {} left out", count(leaves(tree), "leaf")))
        }
    };
    rows.push(Row { byte, event, drawn: format!("{stem}{label}{}", note(byte, clash)) });
    if let Sketch::Node(_, operands) = sketch {
        for (operand, [branch, gap]) in operands.iter().zip([["+-", "| "], ["'-", "  "]]) {
            let stems = [branch, gap].map(|end| format!("{beneath}{end}"));
            add(rows, operand, clash, [&stems[0], &stems[1]]);
        }
    }
}

/// What is said of the two leaves that race and of the operator where they meet.
fn note(byte: usize, clash: Option<&Clash>) -> &'static str {
    match clash {
        Some(Clash { s, t, .. }) if [s.position, t.position].contains(&byte) => RACES,
        Some(Clash { meet, .. }) if meet.position == byte => MEET,
        _ => "",
    }
}
