//! `judge plan --draw`: the tree is the plan, the lines are the arcs of its task graph, and the two
//! leaves that race are marked in both.

mod common;

use common::{balanced, file, folder, plan, plan_at_random, run};
use judge::explain::drawn;
use judge::graph::Graph;
use judge::phrases::deed;
use judge::schedule::Schedule;
use judge::study::Planned;
use racejudge::{Leaf, Plan, Verdict};
use racejudge_bench::rng::Rng;

const RACE: &str = "S(w3,P(r3,w3))";
const TREE: &str = "The plan as a tree, ";
const GRAPH: &str = "The task graph downward: ";

/// A row: what stands before the drawing, the drawing with what is told behind it, and the mark.
struct Row {
    before: String,
    drawn: String,
    mark: Option<String>,
}

impl Row {
    fn letter(&self, column: usize) -> char {
        self.drawn.as_bytes().get(column).map_or(' ', |&byte| byte.into())
    }

    /// The number behind a word before the drawing.
    fn number(&self, word: &str) -> Option<usize> {
        let mut words = self.before.split_whitespace().skip_while(|&it| it != word);
        words.nth(1).map(|number| number.parse().expect("a number"))
    }
}

/// Where `byte 7`, `event 3` or both end, before the drawing.
fn numbered(line: &str) -> usize {
    let mut end = 0;
    for word in ["byte ", "event "] {
        if let Some(rest) = line[end..].trim_start().strip_prefix(word) {
            end = line.len() - rest.trim_start_matches(|it: char| it.is_ascii_digit()).len();
        }
    }
    end
}

/// The rows beneath the line that begins so.
#[track_caller]
fn rows(drawing: &str, head: &str) -> Vec<Row> {
    let lines = drawing.lines().skip_while(|line| !line.starts_with(head)).skip(2);
    let lines: Vec<&str> = lines.take_while(|line| !line.is_empty()).collect();
    let before = lines.iter().map(|line| numbered(line)).max().expect("rows") + "   ".len();
    let row = |line: &&str| {
        let (before, rest) = line.split_at(before);
        let (drawn, mark) = match rest.split_once("   <- ") {
            Some((drawn, mark)) => (drawn, Some(mark.to_string())),
            None => (rest, None),
        };
        Row { before: before.to_string(), drawn: drawn.to_string(), mark }
    };
    lines.iter().map(row).collect()
}

/// A tree's row is a label behind its branches.
fn label(row: &Row) -> &str {
    row.drawn.trim_start_matches(['|', '+', '\'', '-', ' '])
}

/// The text of what hangs at a row: beneath the label of an operator a line leads to both operands.
fn text(rows: &[Row], at: usize) -> String {
    let label = label(&rows[at]);
    if !["S", "P"].contains(&label) {
        return label.to_string();
    }
    let column = rows[at].drawn.len() - label.len();
    let ends = |row: &usize| rows[*row].letter(column) == '\'';
    let (left, right) = (at + 1, (at + 2..).find(ends).expect("a right operand"));
    assert_eq!(rows[left].letter(column), '+');
    assert!((left + 1..right).all(|row| rows[row].letter(column) == '|'));
    format!("{label}({},{})", text(rows, left), text(rows, right))
}

/// The event that a line leads up to from above a row: its own lane's, or the fork at its corner.
fn upward(rows: &[Row], at: usize, column: usize) -> Option<usize> {
    let row = rows[..at].iter().rev().find(|row| row.letter(column) != '|')?;
    assert!("*X.".contains(row.letter(column)), "a line ends in {:?}", row.drawn);
    row.number("event")
}

/// The starts of the arcs into the event of a row.
fn starts(rows: &[Row], at: usize) -> [Option<usize>; 2] {
    let row = &rows[at];
    let sign = row.drawn.find(['*', 'X']).expect("an event");
    let joined = row.drawn.find('\'').filter(|&corner| corner < sign);
    [upward(rows, at, sign), joined.and_then(|corner| upward(rows, at, corner))]
}

struct Drawn {
    plan: Plan,
    drawing: String,
    race: Option<[Leaf; 2]>,
}

fn draw(text: &str) -> Drawn {
    let schedule = Schedule::of(text.into()).expect("it is not too long");
    let plan = Plan::parse(text).expect("a plan");
    let race = match racejudge::judge(plan.trace()) {
        Ok(Verdict::Race { s, t, .. }) => Some([s, t].map(|p| *plan.leaf_of(p).expect("a leaf"))),
        _ => None,
    };
    Drawn { drawing: drawn(&Planned::new(&schedule)), plan, race }
}

impl Drawn {
    /// The two that race are marked, and nothing else is.
    fn check_marks(&self) {
        let marked = |head: &str, mark: &str, word: &str| -> Vec<usize> {
            let rows = rows(&self.drawing, head).into_iter();
            let rows = rows.filter(|row| row.mark.as_deref() == Some(mark));
            rows.map(|row| row.number(word).expect("a number")).collect()
        };
        let pair = self.race.iter().flatten();
        let (bytes, events): (Vec<usize>, Vec<usize>) =
            pair.map(|leaf| (leaf.position, leaf.event)).unzip();
        let meet = self.race.as_ref().map(|[s, t]| self.plan.meet(s, t).expect("an operator"));
        let meet: Vec<usize> = meet.iter().map(|node| node.position).collect();
        assert_eq!(marked(TREE, "races", "byte"), bytes, "{}", self.drawing);
        assert_eq!(marked(TREE, "here they meet", "byte"), meet, "{}", self.drawing);
        assert_eq!(marked(GRAPH, "races", "event"), events, "{}", self.drawing);
        let graph = rows(&self.drawing, GRAPH);
        let crossed = graph.iter().filter(|row| row.drawn.contains('X'));
        assert!(crossed.map(|row| row.number("event")).eq(events.into_iter().map(Some)));
    }
}

#[test]
fn the_tree_is_the_plan() {
    let mut rng = Rng::new(1);
    let mut whole = 0;
    for _ in 0..400 {
        let plan = plan_at_random(&mut rng, 6);
        let drawn = draw(&plan);
        drawn.check_marks();
        if drawn.drawing.contains(" left out") {
            continue;
        }
        let tree = rows(&drawn.drawing, TREE);
        assert_eq!(text(&tree, 0), plan, "{}", drawn.drawing);
        let leaves = drawn.plan.leaves().map(|leaf| (Some(leaf.position), Some(leaf.event)));
        let leaf_rows = tree.iter().filter(|row| !["S", "P"].contains(&label(row)));
        assert!(leaves.eq(leaf_rows.map(|row| (row.number("byte"), row.number("event")))));
        for row in tree.iter().filter(|row| ["S", "P"].contains(&label(row))) {
            let byte = row.number("byte").expect("a byte");
            assert_eq!((&plan[byte..=byte], row.number("event")), (label(row), None));
        }
        whole += 1;
    }
    assert!(whole > 300, "{whole}");
}

#[test]
fn the_lines_are_the_arcs() {
    let mut rng = Rng::new(2);
    let mut joins = 0;
    for _ in 0..400 {
        let Drawn { plan, drawing, .. } = draw(&plan_at_random(&mut rng, 6));
        if drawing.contains(" left out") {
            continue;
        }
        let (graph, rows) = (Graph::new(plan.trace(), plan.trace().len()), rows(&drawing, GRAPH));
        assert_eq!(rows.len(), plan.trace().len());
        for (p, row) in rows.iter().enumerate() {
            assert_eq!(row.number("event"), Some(p));
            assert_eq!(starts(&rows, p), graph.starts(p), "event {p} of\n{drawing}");
            let told = deed(plan.trace().event(p).expect("an event"));
            assert!(row.drawn.ends_with(&format!("   {told}")), "{}", row.drawn);
            joins += usize::from(graph.starts(p)[1].is_some());
        }
    }
    assert!(joins > 300, "{joins}");
}

/// How many leaves the tree has, and how many it says it leaves out.
fn leaves(drawing: &str) -> [usize; 2] {
    let rows = rows(drawing, TREE);
    let labels = || rows.iter().map(label);
    let left_out = labels().filter_map(|it| it.strip_prefix(".. ")?.split_once(" lea"));
    let left_out = left_out.map(|(number, _)| number.replace(',', "").parse::<usize>().unwrap());
    let drawn = labels().filter(|it| !["S", "P"].contains(it) && !it.starts_with("..")).count();
    [drawn, left_out.sum()]
}

#[test]
fn a_large_plan_is_cut_and_says_so() {
    for (plan, all) in [
        (balanced('S', 64), 64),
        (balanced('P', 24), 24),
        (format!("S({},{})", balanced('P', 24), balanced('P', 24)), 48),
    ] {
        let Drawn { drawing, .. } = draw(&plan);
        assert_eq!((leaves(&drawing), drawing.contains("left out")), ([all, 0], false));
    }
    let rule = "a plan of more than 64 leaves, or with more than 24 tasks side by side, is drawn";
    for (plan, all, shown) in [
        (balanced('S', 65), 65, 0),
        (balanced('P', 25), 25, 7),
        (balanced('S', 32_768), 32_768, 0),
        (balanced('P', 1_024), 1_024, 0),
        (format!("S(r1,S(r2,P(r3,{})))", balanced('S', 1_000)), 1_003, 3),
    ] {
        let drawn = draw(&plan);
        drawn.check_marks();
        let Drawn { drawing, .. } = drawn;
        assert_eq!(leaves(&drawing), [shown, all - shown], "{drawing}");
        let told = drawing.replace('\n', " ");
        assert!(told.contains(&format!(" are left out: {rule} 4 levels deep.")), "{drawing}");
        let (lines, widest) = (drawing.lines().count(), drawing.lines().map(str::len).max());
        assert!(lines < 110 && widest <= Some(100), "{lines} {widest:?}");
    }
}

#[test]
fn of_a_large_plan_with_a_race_what_leads_to_it_is_drawn() {
    let rest = balanced('S', 1_000);
    let plan = format!("S({rest},S(P(S({rest},w1),P({rest},S(r1,{rest}))),{rest}))");
    let drawn = draw(&plan);
    drawn.check_marks();
    let Drawn { drawing, .. } = drawn;
    assert_eq!(leaves(&drawing), [2, 5_000], "{drawing}");
    let told = drawing.replace('\n', " ");
    let sentence =
        "Of 5,002 leaves 5,000 are left out: a plan of more than 64 leaves, or with more \
                    than 24 tasks side by side, is drawn only as far as it leads to the two leaves \
                    that race.";
    assert!(told.contains(sentence), "{drawing}");
    let events = rows(&drawing, GRAPH).into_iter().map(|row| row.drawn);
    let left_out: Vec<String> = events.filter(|row| row.contains(" left out")).collect();
    let wanted = [
        "    :   up to event 999 left out",
        ":   |   up to event 2000 left out",
        "| : |   up to event 3003 left out",
        "| | :   up to event 4005 left out",
        "    :   up to event 5007 left out",
    ];
    assert_eq!(left_out, wanted, "{drawing}");
}

#[test]
fn the_drawing_stands_behind_the_words() {
    for (text, status) in [("S(w3,P(r3,r3))", 0), (RACE, 1), ("x", 2)] {
        let path = file(text);
        let (with, without) = (plan(&["--draw"], &path), plan(&[], &path));
        let drawing = with.out.strip_prefix(&without.out).expect("the words");
        assert_eq!((with.status, with.err.as_str()), (status, ""));
        let head =
            if status == 2 { "There is no drawing: the file makes no trace.\n" } else { TREE };
        assert!(drawing.starts_with(&format!("\n{head}")), "{drawing}");
        assert_eq!(plan(&["--draw", "--draw"], &path), with);
    }
    let (path, folder) = (file(RACE), folder());
    let picture = folder.join("plan.svg");
    let name = picture.to_str().expect("a plain path");
    let said = plan(&["--svg", name, "--draw"], &path);
    let drawn = plan(&["--draw"], &path).out;
    assert_eq!(said.out, format!("{drawn}\nThe picture is in {name}.\n"));
}

#[test]
fn an_object_has_no_drawing() {
    let path = file(RACE);
    let said = plan(&["--draw", "--json"], &path);
    assert_eq!((said.status, said.out.as_str()), (3, ""));
    let told =
        "judge: --draw draws behind the words, and with --json there are none\nusage: judge ";
    assert!(said.err.starts_with(told), "{}", said.err);
    // A trace has no tree.
    assert!(run(["--draw".as_ref(), path.as_os_str()]).err.contains("there is no option --draw"));
}
