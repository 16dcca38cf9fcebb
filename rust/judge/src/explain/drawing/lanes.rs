//! The task graph of a plan: a row for each event, and lanes for the tasks that run side by side. As in
//! the line of tasks, what a task forks stands left of it.

use super::sketch::Sketch;
use super::RACES;
use crate::explain::rows::append;
use crate::study::{Clash, Scene};
use racejudge::{Node, Operator};

/// From one lane to the next.
const LANE: usize = 2;

struct Row {
    event: usize,
    lanes: String,
    told: String,
}

struct Lanes<'a> {
    scene: &'a Scene<'a>,
    /// The events that race.
    pair: Vec<usize>,
    width: usize,
    /// Those whose task is in the line.
    taken: Vec<usize>,
    rows: Vec<Row>,
}

pub fn rows(sketch: &Sketch, scene: &Scene, clash: Option<&Clash>) -> Vec<String> {
    let width = sketch.lanes();
    let pair = clash.iter().flat_map(|clash| [clash.s.event, clash.t.event]).collect();
    let mut lanes = Lanes { scene, pair, width, taken: vec![width - 1], rows: Vec::new() };
    lanes.add(sketch, width - 1);
    let drawn = lanes.rows;
    let mut rows: Vec<String> = drawn.iter().map(|row| format!("event {}", row.event)).collect();
    append(&mut rows, drawn.iter().map(|row| Some(format!("   {}", row.lanes))));
    append(&mut rows, drawn.iter().map(|row| Some(format!("   {}", row.told))));
    rows
}

impl Lanes<'_> {
    /// Adds the events of a plan whose task is in this lane.
    fn add(&mut self, sketch: &Sketch, lane: usize) {
        match sketch {
            Sketch::Leaf(leaf) => self.event(leaf.event, lane),
            Sketch::Rest(tree) => {
                let events = tree.events();
                let told = format!("up to event {} left out", events.end - 1);
                self.row(events.start, lane, ':', told);
            }
            Sketch::Node(node, operands) => match node.operator {
                Operator::Series => operands.iter().for_each(|operand| self.add(operand, lane)),
                Operator::Parallel => self.parallel(node, operands, lane),
            },
        }
    }

    /// A fork, the left operand and its halt in the child's lane, the right operand, and a join.
    fn parallel(&mut self, node: &Node, [left, right]: &[Sketch; 2], lane: usize) {
        // Those of the right operand stand between, so that no line crosses another.
        let child = lane - right.lanes();
        let [left_events, right_events] = [&node.left, &node.right].map(|tree| tree.events());
        self.event(left_events.start - 1, lane);
        self.link(child, lane, '.');
        self.taken.push(child);
        self.add(left, child);
        self.event(left_events.end, child);
        self.add(right, lane);
        self.event(right_events.end, lane);
        self.link(child, lane, '\'');
        self.taken.retain(|&taken| taken != child);
    }

    fn event(&mut self, p: usize, lane: usize) {
        let races = self.pair.contains(&p);
        let (sign, note) = if races { ('X', RACES) } else { ('*', "") };
        self.row(p, lane, sign, self.scene.deed(p) + note);
    }

    fn row(&mut self, event: usize, lane: usize, sign: char, told: String) {
        let letter = |at: usize| match (at % LANE, at / LANE) {
            (0, it) if it == lane => sign,
            (0, it) if self.taken.contains(&it) => '|',
            _ => ' ',
        };
        let lanes = (0..LANE * self.width - 1).map(letter).collect();
        self.rows.push(Row { event, lanes, told });
    }

    /// Leads a line from the last row's event to the child's lane, which begins or ends there.
    fn link(&mut self, child: usize, lane: usize, corner: char) {
        if let Some(row) = self.rows.last_mut() {
            let line = "-".repeat(LANE * (lane - child) - 1);
            row.lanes.replace_range(LANE * child..LANE * lane, &format!("{corner}{line}"));
        }
    }
}
