//! The picture: well-formed, true to the graph, cut where it must be, with nothing over a label.

mod common;

use common::plan_at_random;
use judge::answer::{self, Answer};
use judge::graph::Graph;
use judge::recording::Recording;
use judge::schedule::Schedule;
use judge::study::{Listed, Planned};
use judge::svg::{draw, draw_pairs, draw_plan};
use judge::why::Why;
use racejudge::{judge, pairs, Event, Kind, Operator, Pair, Plan, Refusal, Trace, Tree, Verdict};
use racejudge_bench::rng::Rng;
use racejudge_bench::trace as slow;
use racejudge_bench::{samples, workloads};
use std::collections::HashSet;
use std::fs;
use xml::Element;

/// A trace with all that is known of it, and its picture.
struct Drawn {
    trace: Trace,
    graph: Graph,
    answer: Answer,
    why: Option<Why>,
    text: String,
    root: Element,
}

impl Drawn {
    fn new(trace: Trace, title: &str) -> Self {
        let answer = judge(&trace);
        Drawn::told(trace, answer, title)
    }

    fn told(trace: Trace, answer: Answer, title: &str) -> Self {
        let graph = Graph::new(&trace, trace.len());
        let why = match answer {
            Ok(Verdict::Race { s, t, .. }) => Why::new(&graph, s, t),
            _ => None,
        };
        let text = draw(&trace, &graph, &answer, why.as_ref(), title);
        Drawn { trace, graph, answer, why, root: read(&text, title), text }
    }

    /// The picture of a plan.
    fn of_plan(plan: &Plan, title: &str) -> Self {
        let schedule = Schedule::of(plan.to_string().into_bytes()).expect("a plan");
        let text = draw_plan(&Planned::new(&schedule), title).expect("a picture");
        let run = Drawn::new(plan.trace().clone(), title);
        Drawn { root: read(&text, title), text, ..run }
    }

    /// The picture of the close pairs.
    fn of_pairs(trace: &Trace, title: &str) -> Self {
        let recording = Recording { text: None, trace: Ok(trace.clone()) };
        let text = draw_pairs(&Listed::new(&recording), title).expect("a picture");
        let run = Drawn::new(trace.clone(), title);
        Drawn { root: read(&text, title), text, ..run }
    }

    fn of_events(events: impl IntoIterator<Item = Event>, title: &str) -> Self {
        Drawn::new(events.into_iter().collect(), title)
    }

    fn pair(&self) -> Option<(usize, usize)> {
        match self.answer {
            Ok(Verdict::Race { s, t, .. }) => Some((s, t)),
            _ => None,
        }
    }

    fn texts(&self) -> Vec<&Element> {
        self.root.all("text")
    }

    /// The elements of a name above the legend.
    fn figure(&self, name: &str) -> Vec<&Element> {
        let elements = self.root.children.iter();
        let above = elements.take_while(|element| element.text != "w 3: writes location 3");
        let within = above.flat_map(|element| {
            let own = (element.name == name).then_some(element);
            own.into_iter().chain(element.all(name))
        });
        within.collect()
    }

    fn says(&self, words: &str) -> bool {
        self.texts().iter().any(|text| text.text == words)
    }

    /// The words of all sentences, without the places where they are broken.
    fn said(&self) -> String {
        let said: Vec<&str> = self.of_class("say").iter().map(|text| text.text.as_str()).collect();
        said.join(" ")
    }

    fn of_class(&self, class: &str) -> Vec<&Element> {
        self.texts().into_iter().filter(|text| text.has_class(class)).collect()
    }

    /// The events that are drawn, from top to bottom, with their groups.
    fn events(&self) -> Vec<(usize, &Element)> {
        let groups = self.root.all("g").into_iter();
        let number = |group: &Element| group.attribute("id")?.strip_prefix("event-")?.parse().ok();
        groups.filter_map(|group| number(group).zip(Some(group))).collect()
    }

    /// The operators and leaves of a plan that are drawn, with their bytes.
    fn of_plan_class(&self, class: &str) -> Vec<(usize, &Element)> {
        let groups = self.root.all("g").into_iter().filter(|group| group.has_class(class));
        let byte = |group: &Element| group.attribute("id")?.strip_prefix("byte-")?.parse().ok();
        groups.map(|group| (byte(group).expect("a byte"), group)).collect()
    }

    fn event(&self, p: usize) -> &Element {
        let events = self.events();
        let found = events.iter().find(|(number, _)| *number == p);
        found.unwrap_or_else(|| panic!("event {p} is drawn")).1
    }

    /// How many events each gap says are not drawn.
    fn gaps(&self) -> Vec<usize> {
        self.of_class("gap").iter().map(|gap| number_in(&gap.text)).collect()
    }

    fn tasks(&self) -> Vec<u16> {
        let heads = self.of_class("head").into_iter();
        heads.map(|head| head.text.trim_start_matches("task ").parse().expect("a task")).collect()
    }

    fn tasks_skipped(&self) -> usize {
        self.of_class("skip").iter().map(|skip| number_in(&skip.text)).sum()
    }
}

fn read(text: &str, title: &str) -> Element {
    xml::parse(text).unwrap_or_else(|error| panic!("{title}: {error}\n{text}"))
}

/// The number of a text, commas left out.
fn number_in(text: &str) -> usize {
    let digits: String = text.chars().filter(char::is_ascii_digit).collect();
    digits.parse().expect("a number")
}

fn from_bench(trace: &slow::Trace) -> Trace {
    Trace::from_slices(&trace.kinds, &trace.tasks, &trace.operands)
}

fn examples() -> Vec<Drawn> {
    let folder = concat!(env!("CARGO_MANIFEST_DIR"), "/../../examples");
    let entries = fs::read_dir(folder).expect("the examples");
    let mut paths: Vec<_> = entries.map(|entry| entry.expect("an entry").path()).collect();
    paths.retain(|path| path.extension().is_some_and(|extension| extension == "std"));
    paths.sort();
    let drawn = |path: &std::path::PathBuf| {
        let trace = Trace::from_text(fs::read(path).expect("a file")).expect("a trace");
        Drawn::new(trace, &path.file_name().expect("a name").to_string_lossy())
    };
    paths.iter().map(drawn).collect()
}

fn example(name: &str) -> Drawn {
    let path = format!("{}/../../examples/{name}", env!("CARGO_MANIFEST_DIR"));
    Drawn::new(Trace::from_text(fs::read(path).expect("a file")).expect("a trace"), name)
}

/// Tasks 1 to n, each forked by the one before; the last writes, and so does task 0 at the end. On
/// the way back all are joined but `kept`.
fn deep(n: u16, kept: Option<u16>) -> Vec<Event> {
    let mut events: Vec<Event> = (0..n).map(|task| Event::fork(task, task + 1)).collect();
    events.push(Event::write(n, 3));
    for task in (1..=n).rev() {
        events.push(Event::halt(task, task - 1));
        if kept.is_some_and(|kept| kept != task) {
            events.push(Event::join(task - 1, task));
        }
    }
    events.push(Event::write(0, 3));
    events
}

/// Tasks 1 to n beside each other, each of which writes its own location; task 0 does `last`.
fn wide(n: u16, last: Event) -> Vec<Event> {
    let one = |task| [Event::fork(0, task), Event::write(task, task), Event::halt(task, 0)];
    (1..=n).flat_map(one).chain([last]).collect()
}

/// Long runs of many shapes, clean, racing and refused.
fn long_runs() -> Vec<Drawn> {
    let mut runs = vec![
        Drawn::of_events(deep(1_000, None), "deep"),
        Drawn::of_events(deep(1_000, Some(500)), "deep, joined but for one"),
        Drawn::of_events(deep(600, Some(601)), "deep, joined"),
        Drawn::of_events(wide(1_000, Event::read(0, 1)), "wide, a far race"),
        Drawn::of_events(wide(1_000, Event::read(0, 1_000)), "wide, a near race"),
        Drawn::of_events(wide(1_000, Event::join(0, 3)), "wide, refused"),
        Drawn::of_events(wide(1_000, Event::write(70, 3)), "wide, refused otherwise"),
        Drawn::of_events(wide(1_000, Event::write(5_000, 3)), "a stranger"),
        Drawn::of_events((0..32_768).map(|_| Event::write(0, 1)), "one task alone"),
        Drawn::of_events((0..32_769).map(|_| Event::write(0, 1)), "one event too many"),
    ];
    for workload in &workloads::WORKLOADS {
        for n in [2_000, 32_768] {
            let trace = (workload.make)(n, &mut Rng::new(n as u64));
            runs.push(Drawn::new(from_bench(&trace), workload.name));
        }
    }
    runs
}

/// Traces at random: some keep the rules, some are damaged, some are noise.
fn random_runs(tries: usize) -> Vec<Drawn> {
    let mut rng = Rng::new(11);
    let mut runs = Vec::new();
    for i in 0..tries {
        let n = rng.one_of(&[1, 5, 20, 60, 200, 1_000]);
        let care = rng.below(101);
        let valid = samples::valid(&mut rng, n, care);
        let trace = match i % 3 {
            0 => valid,
            1 => samples::damage(&mut rng, &valid),
            _ => samples::noise(&mut rng, n),
        };
        runs.push(Drawn::new(from_bench(&trace), &format!("random {i}")));
    }
    runs
}

#[test]
fn short_runs_are_drawn_whole() {
    let examples = examples();
    assert!(examples.len() >= 9);
    for drawn in examples {
        let positions: Vec<usize> = drawn.events().iter().map(|(p, _)| *p).collect();
        assert!(positions.into_iter().eq(0..drawn.trace.len()));
        assert!(drawn.gaps().is_empty());
        assert_eq!(drawn.tasks(), drawn.graph.columns());
        assert_eq!(drawn.tasks_skipped(), 0);
        assert!(drawn.says(&answer::line(&drawn.answer, drawn.trace.len())));
    }
}

#[test]
fn a_race_shows_its_pair_its_fork_and_the_missing_join() {
    let drawn = example("pipeline_race.std");
    assert_eq!(drawn.pair(), Some((8, 20)));
    for p in [8, 20] {
        let event = drawn.event(p);
        assert!(event.has_class("racing"));
        assert!(event.all("text").iter().any(|text| text.text == "w 3"), "the label of {p}");
        assert!(event.all("circle").iter().any(|circle| circle.has_class("ring")));
    }
    assert!(drawn.event(6).has_class("parted"));
    assert!(drawn.event(6).all("text").iter().any(|text| text.text == "fork 11"));
    assert_eq!(drawn.root.all("g").iter().filter(|event| event.has_class("racing")).count(), 2);
    for words in ["race 8 20", "no order", "no join of task 11 before event 20"] {
        assert!(drawn.says(words), "{words}");
    }
    let missing = |path: &&Element| path.has_class("missing");
    assert!(drawn.root.all("path").iter().any(missing));
    assert!(drawn.says("task 11 writes location 3, source line 33"));
    assert_eq!(
        drawn.event(8).child_text("title"),
        "event 8: task 11 writes location 3 (text line 9, source line 33)"
    );
}

/// Tasks 1 and 2 add to location 9, and so does task 0, which then reads it and has joined task 2 alone.
const COUNTER: [Event; 11] = [
    Event::fork(0, 1),
    Event::read(1, 3),
    Event::sum(1, 9),
    Event::sum(1, 9),
    Event::halt(1, 0),
    Event::fork(0, 2),
    Event::sum(2, 9),
    Event::halt(2, 0),
    Event::join(0, 2),
    Event::sum(0, 9),
    Event::read(0, 9),
];

#[test]
fn sums_have_a_sign_of_their_own() {
    let legend = "s 3: adds to location 3";
    let race = Drawn::of_events(COUNTER, "race");
    assert_eq!(race.pair(), Some((2, 10)));
    for (p, event) in race.events() {
        let is_sum = race.trace.event(p).expect("an event").kind() == Some(Kind::Sum);
        let signs = event.all("path").into_iter().filter(|path| path.has_class("sum"));
        let signs: Vec<&Element> = signs.collect();
        assert_eq!(signs.len(), usize::from(is_sum), "event {p}");
        let labels = event.all("text").into_iter().filter(|text| text.text == "s 9").count();
        assert_eq!(labels, usize::from(is_sum), "event {p}");
    }
    for (p, tone) in [(2, "to-s"), (3, "pale"), (6, "plain"), (9, "to-t")] {
        let signs = race.event(p).all("path");
        assert!(
            signs.iter().any(|path| path.has_class("sum") && path.has_class(tone)),
            "event {p}"
        );
    }
    assert!(race.says(legend) && race.says("task 1 adds to location 9"));
    assert!(race.said().contains("Event 2 (task 1 adds to location 9) and event 10 (task 0 reads"));
    let clean = Drawn::of_events(COUNTER.into_iter().take(10), "clean");
    assert!(clean.says(legend) && clean.says("clean 10"));
    assert!(clean.said().contains("order the two, unless both read it or both add to it."));
    for drawn in examples() {
        assert!(!drawn.says(legend) && !drawn.said().contains("add to"));
    }
    nothing_lies_over_a_label(&race);
    nothing_lies_over_a_label(&clean);
}

#[test]
fn clean_runs_and_refusals_show_no_race() {
    let refused = "T0|fork(T1)|1\nT1|w(V5)|2\nT0|fork(T2)|3\nT0|join(T1)|5\nT0|r(V5)|6\n";
    let refused = Drawn::new(Trace::from_text(refused).expect("a trace"), "refused");
    assert!(refused.says("refused 11 5"));
    assert!(refused.event(5).has_class("refused"));
    assert!(refused.said().contains("the joined task is not the left neighbour of the actor"));
    assert!(refused
        .said()
        .contains("The left neighbour is task 2. No two accesses before event 5"));
    assert_eq!(refused.gaps(), [1]);
    let nest = [Event::fork(0, 1), Event::fork(1, 2), Event::halt(2, 0)];
    let stored = Drawn::of_events(nest, "stored");
    assert!(stored.event(2).has_class("refused") && stored.says("halt 0"));
    assert!(stored.said().contains("own halt. Task 1 resumes. No two accesses before event 2"));
    let ended = Drawn::of_events([Event::halt(0, 7)], "ended");
    assert!(ended.says("halt 7") && ended.said().contains("own halt. No task resumes."));
    for drawn in [example("pipeline.std"), example("two_readers.std"), refused] {
        assert!(!drawn.says("no order"));
        assert!(!drawn.root.all("g").iter().any(|event| event.has_class("racing")));
        for (_, event) in drawn.events() {
            assert!(event.has_class("plain"));
        }
    }
}

#[test]
fn what_reaches_neither_is_pale_and_the_ways_are_not() {
    let (mut races, mut ways) = (0, 0);
    for drawn in random_runs(1_500).into_iter().chain(long_runs()).chain(examples()) {
        let Some((s, t)) = drawn.pair() else { continue };
        let why = drawn.why.as_ref().expect("a race has a reason");
        let (to_s, to_t) = (drawn.graph.reaching(s), drawn.graph.reaching(t));
        let reaches = |reaching: &[bool], p: usize| reaching.get(p) == Some(&true);
        for (p, event) in drawn.events() {
            let is_pale = !reaches(&to_s, p) && !reaches(&to_t, p);
            assert_eq!(event.has_class("pale"), is_pale, "event {p}");
            let is_on = |path: &[usize]| p != why.parted && path.contains(&p);
            assert_eq!(event.has_class("to-s"), is_on(&why.to_s), "event {p}");
            assert_eq!(event.has_class("to-t"), is_on(&why.to_t), "event {p}");
            ways += usize::from(is_on(&why.to_s) || is_on(&why.to_t));
        }
        for p in [s, t] {
            assert!(drawn.event(p).has_class("racing"));
        }
        assert!(drawn.event(why.parted).has_class("parted"));
        for class in ["to-s", "to-t", "onward", "missing", "bracket"] {
            let paths = drawn.figure("path");
            assert!(paths.iter().any(|path| path.has_class(class)), "a line of {class}");
        }
        races += 1;
    }
    assert!(races > 200 && ways > 1_000, "{races} races, {ways} events of ways");
}

#[test]
fn pictures_stay_small_and_say_what_they_leave_out() {
    for drawn in long_runs().into_iter().chain(random_runs(900)) {
        let rows = drawn.events().len() + drawn.gaps().len() + 1;
        let tasks = drawn.tasks();
        assert!(rows <= 80, "{rows} rows");
        assert!(tasks.len() <= 25, "{} tasks", tasks.len());
        assert_eq!(drawn.events().len() + drawn.gaps().iter().sum::<usize>(), drawn.trace.len());
        let positions: Vec<usize> = drawn.events().iter().map(|(p, _)| *p).collect();
        assert!(positions.is_sorted(), "{positions:?}");
        // Tasks stand in the line's order; one that no fork made may stand behind them.
        let columns = drawn.graph.columns();
        let (known, strange): (Vec<u16>, Vec<u16>) =
            tasks.iter().partition(|task| columns.contains(task));
        let in_line = columns.iter().filter(|task| known.contains(task));
        assert!(strange.len() <= 1 && in_line.eq(&known));
        if rows > 1 {
            assert_eq!(known.len() + drawn.tasks_skipped(), columns.len());
        }
        for (p, _) in drawn.events().into_iter().filter(|(p, _)| *p < drawn.graph.len()) {
            let event = drawn.trace.event(p).expect("an event");
            let is_about_task = matches!(event.kind(), Some(Kind::Fork | Kind::Join));
            assert!(tasks.contains(&event.task), "the task of event {p}");
            assert!(
                !is_about_task || tasks.contains(&event.operand),
                "the other task of event {p}"
            );
        }
    }
}

#[test]
fn a_cut_race_keeps_what_it_needs() {
    for drawn in long_runs() {
        let Some((s, t)) = drawn.pair() else { continue };
        let why = drawn.why.as_ref().expect("a race has a reason");
        let holder = *why.unjoined.last().expect("a task that is not joined");
        let halt = drawn.graph.halted_at(holder).expect("it has halted");
        for p in [s, t, why.parted, halt].into_iter().chain(why.joined_later) {
            drawn.event(p);
        }
        let missing =
            drawn.texts().into_iter().find(|text| text.text.starts_with("no join of task"));
        let missing = missing.expect("the missing join");
        assert!(missing.text.ends_with(&format!("before event {t}")));
        assert!(missing.text.contains(&format!("task {holder}")));
    }
}

#[test]
fn a_long_clean_run_shows_its_beginning() {
    let drawn = Drawn::new(from_bench(&workloads::pipeline(2_000, &mut Rng::new(1))), "long");
    assert!(matches!(drawn.answer, Ok(Verdict::Clean { .. })));
    let shown = drawn.events().len();
    assert!(drawn.events().iter().map(|(p, _)| *p).eq(0..shown));
    assert!(shown >= 20);
    assert_eq!(drawn.gaps(), [2_000 - shown]);
}

#[test]
fn titles_may_have_any_characters() {
    let title = "a<b>&\"'\u{0}\u{1b}\t\u{7f}\u{85}\u{202e}\u{fffe}\u{1f600}é ]]>.std";
    let shown = "a<b>&\"'\u{fffd}\u{fffd} \u{fffd}\u{fffd}\u{fffd}\u{fffd}\u{1f600}é ]]>.std";
    let drawn = Drawn::of_events([Event::write(0, 1)], title);
    assert!(drawn.says(shown));
    assert_eq!(drawn.root.child_text("title"), format!("{shown}: clean 1"));
    for long in ["x".repeat(5_000), "é ".repeat(3_000), "\u{1f600}".repeat(900), String::new()] {
        let drawn = Drawn::of_events(deep(3, None), &long);
        nothing_lies_over_a_label(&drawn);
    }
}

#[test]
fn a_picture_needs_nothing_from_outside_and_is_always_the_same() {
    for drawn in examples() {
        let again = draw(&drawn.trace, &drawn.graph, &drawn.answer, drawn.why.as_ref(), "title");
        let same = draw(&drawn.trace, &drawn.graph, &drawn.answer, drawn.why.as_ref(), "title");
        assert_eq!(again, same);
        for word in ["<script", "href", "url(", "@import", "onload", "<image", "<!"] {
            assert!(!drawn.text.contains(word), "{word}");
        }
        assert_eq!(drawn.text.matches("http").count(), 1, "the name of SVG alone");
        assert!(!drawn.root.child_text("desc").is_empty());
        assert!(!drawn.root.child_text("title").is_empty());
        let mut names: Vec<&str> = drawn.root.ids();
        let count = names.len();
        names.sort();
        names.dedup();
        assert_eq!(names.len(), count, "a name is given once");
    }
}

/// Answers that belong to no such trace: nothing must go wrong, whatever is drawn.
#[test]
fn wrong_answers_are_drawn_without_harm() {
    let mut rng = Rng::new(5);
    for i in 0..400 {
        let trace = from_bench(&match i % 2 {
            0 => samples::valid(&mut rng, 200, 0),
            _ => samples::noise(&mut rng, 30),
        });
        let n = trace.len() + 3;
        let (s, t) = (rng.below(n), rng.below(n));
        let race = Ok(Verdict::Race { s, t, links: 0, first: Vec::new(), second: Vec::new() });
        let refused = Err(Refusal { row: rng.below(17), position: rng.below(n) });
        for answer in [race, refused, Ok(Verdict::Clean { links: 0 })] {
            let drawn = Drawn::told(trace.clone(), answer, "wrong");
            let graph = Graph::new(&trace, rng.below(n));
            let why = Why {
                parted: rng.below(n),
                to_s: (0..rng.below(9)).map(|_| rng.below(n)).collect(),
                to_t: (0..rng.below(9)).map(|_| rng.below(n)).collect(),
                unjoined: (0..rng.below(4)).map(|_| rng.cell(1_100)).collect(),
                joined_later: Some(rng.below(n)),
            };
            for why in [None, Some(&why)] {
                let text = draw(&trace, &graph, &drawn.answer, why, "wrong");
                xml::parse(&text).expect("well-formed");
            }
        }
    }
}

#[test]
fn empty_and_unreadable_texts_have_a_picture() {
    let empty = Drawn::new(Trace::default(), "empty");
    assert!(empty.says("clean 0"));
    let unread = Drawn::told(Trace::default(), Err(Refusal { row: 14, position: 3 }), "unread");
    assert!(unread.says("refused 14 3"));
    assert!(unread.said().starts_with("Line 3, counted from 0"));
}

#[test]
fn no_line_and_no_label_lies_over_a_label() {
    for drawn in long_runs().into_iter().chain(examples()).chain(random_runs(300)) {
        nothing_lies_over_a_label(&drawn);
    }
}

/// Plans of all shapes: at random, deep, wide and long.
fn plans() -> Vec<Plan> {
    let mut rng = Rng::new(3);
    let mut texts: Vec<String> = (0..300).map(|i| plan_at_random(&mut rng, 1 + i % 9)).collect();
    let double = |operator: &str, plan: &str| format!("{operator}({plan},{plan})");
    for operator in ["S", "P"] {
        let wide = (0..9).fold("r5".to_string(), |plan, _| double(operator, &plan));
        let long = (0..4).fold(wide.clone(), |plan, _| double("S", &plan));
        let deep = |close: &str| format!("{operator}(").repeat(62) + "w5" + &close.repeat(62);
        texts.push(format!("P({},w5)", deep(",r6)")));
        texts.push(format!("S({wide},P({wide},w5))"));
        texts.push(format!("P(S(w5,{wide}),{})", if operator == "S" { &long } else { "r5" }));
    }
    // S and P in turn, so that no two of them are one strip.
    let turns = (0..31).fold("w5".to_string(), |plan, i| format!("P(S({plan},r{i}),s{i})"));
    texts.push(turns.replace("w5", "P(w5,w5)"));
    texts
        .iter()
        .map(|text| text.parse().unwrap_or_else(|error| panic!("{text}: {error}")))
        .collect()
}

/// The operators of a tree that have a strip of their own, with their bytes: an S within an S has
/// none.
fn strips<'a>(tree: &'a Tree, within: Option<Operator>, found: &mut Vec<(usize, &'a Tree)>) {
    let Tree::Node(node) = tree else { return };
    if node.operator == Operator::Parallel || within != Some(Operator::Series) {
        found.push((node.position, tree));
    }
    strips(&node.left, Some(node.operator), found);
    strips(&node.right, Some(node.operator), found);
}

/// The left, top, right and bottom of a rectangle.
fn rect_box(rect: &Element) -> Box {
    let [x, y, width, height] = ["x", "y", "width", "height"].map(|name| rect.number(name));
    [x, y, x + width, y + height]
}

/// The events that are drawn, and where their rows are.
fn event_rows(drawn: &Drawn) -> Vec<(usize, f64)> {
    drawn.events().into_iter().map(|(p, event)| (p, sign(event).1)).collect()
}

/// The strips of a plan stand in the rows of their events. How many pieces they have, and whether the
/// picture says that some are not drawn.
fn check_strips(drawn: &Drawn, plan: &Plan) -> (usize, bool) {
    let (rows, mut own, mut pieces) = (event_rows(drawn), Vec::new(), 0);
    strips(plan.tree(), None, &mut own);
    let shown = drawn.of_plan_class("operator");
    for (byte, group) in &shown {
        let (_, tree) = own.iter().find(|(own, _)| own == byte).expect("an operator");
        let Tree::Node(node) = tree else { panic!("{byte}") };
        assert_eq!(group.all("text")[0].text, node.operator.to_string());
        let boxes: Vec<Box> = group.all("rect").into_iter().map(rect_box).collect();
        let covers = |y: f64| boxes.iter().any(|it| it[1] < y && y < it[3]);
        for &(p, y) in &rows {
            assert_eq!(covers(y), tree.events().contains(&p), "event {p} and byte {byte}: {plan}");
        }
        pieces += boxes.len();
    }
    // All that have a row that is drawn are there, unless the picture says that it is cut.
    let has_row = |tree: &Tree| rows.iter().any(|(p, _)| tree.events().contains(p));
    let wanted = own.iter().filter(|(_, tree)| has_row(tree)).count();
    let says_so = drawn.said().contains("The innermost S and P of the plan are not drawn.");
    assert_eq!(shown.len() < wanted, says_so, "{plan}");
    // Outer strips stand left of inner ones, at most twelve beside each other.
    let lefts = shown.iter().flat_map(|(_, group)| group.all("rect")).map(|it| it.number("x"));
    let mut lefts: Vec<i64> = lefts.map(|x| x as i64).collect();
    lefts.sort();
    lefts.dedup();
    assert!(lefts.len() <= 12, "{lefts:?}");
    (pieces, says_so)
}

/// The leaves of a plan stand in the rows of their events.
fn check_leaves(drawn: &Drawn, plan: &Plan) {
    let (rows, leaves) = (event_rows(drawn), drawn.of_plan_class("leaf"));
    let drawn_leaves = plan.leaves().filter(|leaf| rows.iter().any(|(p, _)| *p == leaf.event));
    assert!(leaves.iter().map(|(byte, _)| *byte).eq(drawn_leaves.map(|leaf| leaf.position)));
    for (byte, group) in leaves {
        let leaf = plan.leaves().find(|leaf| leaf.position == byte).expect("a leaf");
        let label = group.all("text")[0];
        assert_eq!(label.text, leaf.to_string());
        let row = rows.iter().find(|(p, _)| *p == leaf.event).expect("its row").1;
        assert_eq!(label.number("y"), row + 4.0, "{plan}");
    }
}

#[test]
fn a_plan_stands_in_the_rows_of_its_events() {
    let (mut pieces, mut cut) = (0, 0);
    for plan in plans() {
        let drawn = Drawn::of_plan(&plan, "plan");
        nothing_lies_over_a_label(&drawn);
        check_leaves(&drawn, &plan);
        let (own, says_so) = check_strips(&drawn, &plan);
        pieces += own;
        cut += usize::from(says_so);
    }
    assert!(pieces > 2_000 && cut > 1, "{pieces} {cut}");
}

/// The operands that have the colours of the ways, by the bytes of their operators.
fn toned(drawn: &Drawn) -> Vec<(usize, &'static str)> {
    let mut toned = Vec::new();
    for (byte, group) in drawn.of_plan_class("operator") {
        for rect in group.all("rect") {
            let tone = ["to-s", "to-t"].into_iter().find(|tone| rect.has_class(tone));
            toned.extend(tone.map(|tone| (byte, tone)));
        }
    }
    toned
}

#[test]
fn the_leaves_of_a_race_are_marked_in_the_plan_and_in_the_run() {
    let mut races = 0;
    for plan in plans() {
        let drawn = Drawn::of_plan(&plan, "plan");
        let racing = |class| {
            let groups = drawn.of_plan_class(class).into_iter();
            groups.filter(|(_, it)| it.has_class("racing")).map(|(byte, _)| byte)
        };
        let Some((s, t)) = drawn.pair() else {
            assert_eq!(racing("leaf").count(), 0);
            assert!(!drawn.said().contains("meet at the P"));
            continue;
        };
        let [s, t] = [s, t].map(|event| plan.leaf_of(event).expect("a leaf"));
        assert!(racing("leaf").eq([s.position, t.position]), "{plan}");
        let meet = plan.meet(s, t).expect("an operator").position;
        for leaf in [s, t] {
            let event = drawn.event(leaf.event);
            assert!(event.has_class("racing"));
            let note = format!(", {leaf} at byte {}", leaf.position);
            assert!(event.all("text").iter().any(|text| text.text.ends_with(&note)), "{plan}");
        }
        assert_eq!(toned(&drawn), [(meet, "to-s"), (meet, "to-t")], "{plan}");
        let said = format!(
            "The {s} at byte {} and the {t} at byte {} meet at the P at byte {meet}.",
            s.position, t.position
        );
        assert!(drawn.said().starts_with(&said), "{}", drawn.said());
        races += 1;
    }
    assert!(races > 100, "{races}");
}

/// The rows that each bracket connects, from its path.
fn bracket_rows(drawn: &Drawn) -> Vec<(f64, f64)> {
    let brackets = drawn.figure("path").into_iter().filter(|path| path.has_class("bracket"));
    let rows = |path: &Element| {
        let pieces = segments(path);
        (pieces[0].0 .1, pieces[pieces.len() - 1].1 .1)
    };
    brackets.map(rows).collect()
}

/// The numbers of a sentence, commas left out.
fn numbers_in(text: &str) -> Vec<usize> {
    let text = text.replace(',', "");
    let words = text.split(|c: char| !c.is_ascii_digit()).filter(|word| !word.is_empty());
    words.map(|word| word.parse().expect("a number")).collect()
}

/// Marked are the accesses of the pairs, all that are drawn and no other; each bracket connects a pair, and
/// what is left out is told. How many brackets there are.
fn check_pairs(drawn: &Drawn, pairs: &[Pair]) -> usize {
    let racing: HashSet<usize> = pairs.iter().flat_map(|pair| [pair.s, pair.t]).collect();
    let is_racing = |p: usize| racing.contains(&p);
    for (p, event) in drawn.events() {
        assert_eq!(event.has_class("racing"), is_racing(p), "event {p}");
        let rings = event.all("circle").into_iter().filter(|it| it.has_class("ring")).count();
        assert_eq!(rings, usize::from(is_racing(p)), "event {p}");
        assert!(event.has_class("plain"), "event {p}");
    }
    let rows = event_rows(drawn);
    let row = |p: usize| rows.iter().find(|(drawn, _)| *drawn == p).map(|(_, y)| *y);
    let drawn_pairs = pairs.iter().filter_map(|pair| row(pair.s).zip(row(pair.t)));
    let drawn_pairs: Vec<(f64, f64)> = drawn_pairs.collect();
    let mut brackets = bracket_rows(drawn);
    assert!(brackets.iter().all(|rows| drawn_pairs.contains(rows)), "{brackets:?}");
    brackets.sort_by(|a, b| a.partial_cmp(b).expect("numbers"));
    brackets.dedup();
    let connected = bracket_rows(drawn).len();
    assert_eq!(brackets.len(), connected, "a pair is connected once");
    assert!(connected > 0 && connected <= 24, "{connected}");
    check_lanes(drawn);
    check_told(drawn, [racing.len(), pairs.len()], connected);
    connected
}

/// Brackets above each other do not meet, and all stand between the table and the tasks.
fn check_lanes(drawn: &Drawn) {
    let brackets = drawn.figure("path").into_iter().filter(|path| path.has_class("bracket"));
    let boxes = brackets.map(|path| {
        let points = segments(path).into_iter().flat_map(|(a, b)| [a, b]);
        points.fold([f64::MAX, f64::MAX, f64::MIN, f64::MIN], |[l, t, r, b], (x, y)| {
            [l.min(x), t.min(y), r.max(x), b.max(y)]
        })
    });
    let boxes: Vec<Box> = boxes.collect();
    for (i, one) in boxes.iter().enumerate() {
        for other in &boxes[i + 1..] {
            let are_apart = one[0] != other[0] || one[3] < other[1] || other[3] < one[1];
            assert!(are_apart && one[2] == other[2], "{one:?} {other:?}");
        }
        let signs = drawn.events().into_iter().map(|(_, event)| sign(event).0);
        assert!(signs.into_iter().all(|x| one[2] < x - 11.0), "{one:?}");
    }
}

/// How many accesses are marked and pairs connected, where that is not all.
fn check_told(drawn: &Drawn, [racing, pairs]: [usize; 2], connected: usize) {
    let said = drawn.said();
    let marked = drawn.events().iter().filter(|(_, it)| it.has_class("racing")).count();
    let sentence = |start: &str| {
        let found = said.split_once(start).map(|(_, rest)| rest.split('.').next());
        found.map(|rest| numbers_in(rest.unwrap_or_default()))
    };
    let marks = (marked < racing).then(|| vec![marked, racing]);
    let connects = (marked < racing || connected < pairs).then(|| vec![connected, pairs]);
    let told = (sentence("Marked are "), sentence("Brackets connect "));
    assert_eq!(told, (marks, connects), "{said}");
    assert_eq!(said.contains("accesses of these pairs."), marked < racing, "{said}");
    assert_eq!(numbers_in(&said)[..2], [pairs, 256], "{said}");
    // Where the judge's race is none of them, that is told.
    let far = drawn.pair().filter(|(s, t)| t - s > 256);
    let far = far.map(|(s, t)| vec![s, t]);
    assert_eq!(sentence("The first race of the trace is farther apart: "), far, "{said}");
}

#[test]
fn every_access_of_a_close_pair_is_marked() {
    let (mut met, mut many, mut cut) = (0, 0, 0);
    for run in examples().into_iter().chain(random_runs(500)).chain(long_runs()) {
        let Ok(list) = pairs(&run.trace) else { continue };
        let list: Vec<Pair> = list.take(200_000).collect();
        if list.is_empty() || list.len() == 200_000 {
            continue;
        }
        let drawn = Drawn::of_pairs(&run.trace, "pairs");
        nothing_lies_over_a_label(&drawn);
        let connected = check_pairs(&drawn, &list);
        assert!(drawn.says(&format!("pairs {}", list.len())));
        assert!(drawn.says("an access that races") && drawn.says("these two race"));
        assert!(!drawn.says("no order") && !drawn.said().contains("Cut to what the race needs"));
        met += 1;
        many += usize::from(connected > 5);
        cut += usize::from(!drawn.gaps().is_empty());
        assert!(drawn.events().len() + drawn.gaps().len() <= 80 && drawn.tasks().len() <= 25);
    }
    assert!(met > 60 && many > 10 && cut > 10, "{met} {many} {cut}");
}

#[test]
fn all_pairs_of_a_short_run_are_connected() {
    let path = format!("{}/../../examples/several_races.std", env!("CARGO_MANIFEST_DIR"));
    let trace = Trace::from_text(fs::read(path).expect("a file")).expect("a trace");
    let drawn = Drawn::of_pairs(&trace, "several");
    assert_eq!(bracket_rows(&drawn).len(), 15);
    assert!(!drawn.said().contains("Brackets connect"), "{}", drawn.said());
    assert!(drawn.says("task 3 writes location 41, source line 66"));
}

#[test]
fn a_picture_of_very_many_pairs_stays_small() {
    let child = |task| {
        let writes = (0..30).map(move |_| Event::write(task, 5));
        [Event::fork(0, task)].into_iter().chain(writes).chain([Event::halt(task, 0)])
    };
    let trace: Trace = (1..=100).flat_map(child).collect();
    let drawn = Drawn::of_pairs(&trace, "many");
    nothing_lies_over_a_label(&drawn);
    assert!(pairs(&trace).expect("the rules are kept").len() > 600_000);
    assert_eq!(bracket_rows(&drawn).len(), 3);
    assert!(drawn.events().len() < 80);
}

/// One race is close, and the first is not.
#[test]
fn a_picture_of_pairs_tells_a_first_race_that_is_farther_apart() {
    let mut events = vec![Event::fork(0, 1), Event::write(1, 5), Event::halt(1, 0)];
    events.extend(vec![Event::read(0, 6); 300]);
    events.push(Event::read(0, 5));
    events.extend([Event::fork(0, 2), Event::write(2, 9), Event::halt(2, 0), Event::read(0, 9)]);
    let drawn = Drawn::of_pairs(&events.into_iter().collect(), "far");
    let said = "1 pair of accesses at most 256 events apart races: either can come first. It comes down \
                to 1 location and 2 tasks. The first race of the trace is farther apart: events 1 and \
                303. ";
    assert!(drawn.said().starts_with(said), "{}", drawn.said());
    assert!(drawn.event(305).has_class("racing"));
    nothing_lies_over_a_label(&drawn);
}

/// Where no pair is close, the picture is the judge's, with the line of the list.
#[test]
fn without_close_pairs_the_picture_is_that_of_the_judge() {
    let mut far = vec![Event::fork(0, 1), Event::write(1, 5), Event::halt(1, 0)];
    far.extend(vec![Event::read(0, 6); 300]);
    far.push(Event::read(0, 5));
    let trace: Trace = far.iter().copied().collect();
    let (drawn, race) = (Drawn::of_pairs(&trace, "far"), Drawn::new(trace.clone(), "far"));
    let said = "No two accesses race that are at most 256 events apart. These are farther apart. ";
    assert_eq!(drawn.said(), format!("{said}{}", race.said()));
    assert!(drawn.says("pairs 0") && drawn.says("no order"));
    nothing_lies_over_a_label(&drawn);
    let clean: Trace = far[..303].iter().copied().collect();
    let (drawn, whole) = (Drawn::of_pairs(&clean, "clean"), Drawn::new(clean.clone(), "clean"));
    assert_eq!((drawn.said(), drawn.says("pairs 0")), (whole.said(), true));
    // A refusal is told as the judge tells it, but for what stands before it where that races.
    let early: Trace = far[..9].iter().copied().chain([Event::join(0, 9)]).collect();
    let (drawn, whole) = (Drawn::of_pairs(&early, "early"), Drawn::new(early.clone(), "early"));
    assert_eq!(drawn.text, whole.text);
    let late: Trace = far.iter().copied().chain([Event::join(0, 9)]).collect();
    let late = Drawn::of_pairs(&late, "late");
    assert!(late.says("refused 11 304") && !late.said().contains("No two accesses before"));
    assert!(late.event(304).has_class("refused"));
}

#[test]
fn what_is_no_trace_has_no_picture_of_pairs() {
    let recording = Recording::of(b"T0|r(V1)".to_vec()).expect("a text");
    assert_eq!(draw_pairs(&Listed::new(&recording), "none"), None);
}

#[test]
fn what_is_no_plan_has_no_picture() {
    let schedule = Schedule::of(b"S(r1".to_vec()).expect("a short text");
    assert_eq!(draw_plan(&Planned::new(&schedule), "none"), None);
}

/// The box of a text: its left, top, right and bottom.
type Box = [f64; 4];

fn nothing_lies_over_a_label(drawn: &Drawn) {
    let texts = drawn.texts();
    let boxes: Vec<Box> = texts.iter().map(|text| text_box(text)).collect();
    let size = |name: &str| drawn.root.number(name);
    let page = [0.0, 0.0, size("width"), size("height")];
    for (i, a) in boxes.iter().enumerate() {
        let within = a[0] >= page[0] && a[1] >= page[1] && a[2] <= page[2] && a[3] <= page[3];
        assert!(within, "{:?} leaves the page\n{}", texts[i].text, drawn.text);
        for (j, b) in boxes.iter().enumerate().skip(i + 1) {
            let (one, other) = (&texts[i].text, &texts[j].text);
            assert!(!overlap(a, b), "{one:?} over {other:?}\n{}", drawn.text);
        }
    }
    for path in drawn.root.all("path") {
        for piece in segments(path) {
            for (text, a) in texts.iter().zip(&boxes) {
                // These words lie on a plate that covers what is beneath.
                let is_struck = overlap(a, &piece_box(piece)) && text.text != "no order";
                assert!(!is_struck, "a line through {:?}\n{}", text.text, drawn.text);
            }
        }
    }
}

fn overlap(a: &Box, b: &Box) -> bool {
    a[0] < b[2] && b[0] < a[2] && a[1] < b[3] && b[1] < a[3]
}

/// The widths of the characters from the blank to the tilde in a wide font that is common (DejaVu
/// Sans), in thousandths of its size.
const WIDTHS: [u16; 95] = [
    318, 401, 460, 838, 636, 950, 780, 275, 390, 390, 500, 838, 318, 361, 318, 337, 636, 636, 636,
    636, 636, 636, 636, 636, 636, 636, 337, 337, 838, 838, 838, 531, 1000, 684, 686, 698, 770, 632,
    575, 775, 752, 295, 295, 656, 557, 863, 748, 787, 603, 787, 695, 635, 611, 732, 684, 989, 685,
    611, 685, 390, 337, 390, 838, 500, 500, 613, 635, 550, 635, 615, 352, 635, 634, 278, 278, 579,
    278, 974, 634, 612, 635, 635, 411, 521, 392, 634, 592, 818, 592, 592, 525, 636, 337, 636, 838,
];

/// Bold text is wider by this factor.
const BOLD: f64 = 1.135;

fn text_box(text: &Element) -> Box {
    let sizes = [("title", 18.0), ("answer", 17.0), ("say", 13.0), ("tiny", 11.0)];
    let size =
        sizes.iter().find(|(class, _)| text.has_class(class)).map_or(12.0, |(_, size)| *size);
    let is_bold =
        ["title", "answer", "hot", "bold", "head"].iter().any(|class| text.has_class(class));
    let advance = |c: char| {
        let place = u32::from(c).checked_sub(32).and_then(|place| usize::try_from(place).ok());
        place.and_then(|place| WIDTHS.get(place)).map_or(1.0, |width| f64::from(*width) / 1000.0)
    };
    let wide =
        text.text.chars().map(advance).sum::<f64>() * size * if is_bold { BOLD } else { 1.0 };
    let (x, y) = (text.number("x"), text.number("y"));
    let left = match (text.has_class("end"), text.has_class("mid") || text.has_class("head")) {
        (true, _) => x - wide,
        (_, true) => x - wide / 2.0,
        _ => x,
    };
    [left, y - 0.75 * size, left + wide, y + 0.2 * size]
}

type Point = (f64, f64);

/// The straight pieces of a path; a curve counts as the corner it rounds.
fn segments(path: &Element) -> Vec<(Point, Point)> {
    let data = path.attribute("d").unwrap_or_default();
    let spaced = data.replace(['L', 'Q'], " ").replace('M', " M ").replace('Z', "");
    let (mut last, mut segments): (Option<Point>, Vec<(Point, Point)>) = (None, Vec::new());
    let mut words = spaced.split_whitespace();
    while let Some(word) = words.next() {
        if word == "M" {
            last = None;
            continue;
        }
        let number = |word: &str| word.parse::<f64>().expect("a number");
        let point = (number(word), number(words.next().expect("a second number")));
        segments.extend(last.map(|last| (last, point)));
        last = Some(point);
    }
    segments
}

/// A thin box around a piece of a line.
fn piece_box(((x1, y1), (x2, y2)): (Point, Point)) -> Box {
    [x1.min(x2) - 0.5, y1.min(y2) - 0.5, x1.max(x2) + 0.5, y1.max(y2) + 0.5]
}

/// Where the sign of an event stands.
fn sign(event: &Element) -> Point {
    if let Some(circle) = event.all("circle").first() {
        return (circle.number("cx"), circle.number("cy"));
    }
    let pieces: Vec<_> = event.all("path").into_iter().flat_map(segments).collect();
    let middle = |of: fn(Point) -> f64| {
        let all = || pieces.iter().flat_map(|&(a, b)| [of(a), of(b)]);
        (all().fold(f64::MAX, f64::min) + all().fold(f64::MIN, f64::max)) / 2.0
    };
    (middle(|point| point.0), middle(|point| point.1))
}

/// Whether one of the two lies across the other.
fn cross((a, b): (Point, Point), (c, d): (Point, Point)) -> bool {
    let between = |low: f64, x: f64, high: f64| low.min(high) < x && x < low.max(high);
    let is_level = |a: Point, b: Point| a.1 == b.1;
    match (is_level(a, b), is_level(c, d)) {
        (true, false) => between(a.0, c.0, b.0) && between(c.1, a.1, d.1),
        (false, true) => between(c.0, a.0, d.0) && between(a.1, c.1, b.1),
        _ => false,
    }
}

/// The class of the arc from one event to another.
fn arc_class(drawn: &Drawn, from: usize, to: usize) -> &'static str {
    let (Some(why), Some((s, t))) = (&drawn.why, drawn.pair()) else { return "plain" };
    let is_on = |path: &[usize]| path.windows(2).any(|arc| arc == [from, to]);
    let reaches = |q: usize| drawn.graph.reaching(q).get(to) == Some(&true);
    let holder = *why.unjoined.last().expect("a task that is not joined");
    let halt = drawn.graph.halted_at(holder).expect("it has halted");
    if is_on(&why.to_s) {
        "to-s"
    } else if is_on(&why.to_t) {
        "to-t"
    } else if reaches(s) || reaches(t) {
        "plain"
    } else if is_on(&drawn.graph.path(s, halt)) {
        "onward"
    } else {
        "pale"
    }
}

#[test]
fn every_arc_is_a_line_of_its_own_and_no_two_cross() {
    let mut arcs = 0;
    let short = |drawn: &Drawn| drawn.gaps().is_empty() && drawn.graph.len() == drawn.trace.len();
    for drawn in examples().into_iter().chain(random_runs(900)).filter(short) {
        let lines = drawn.figure("path").into_iter().filter(|path| path.has_class("line"));
        let lines: Vec<_> = lines.map(|path| (path, segments(path))).collect();
        let signs: Vec<Point> = drawn.events().iter().map(|(_, event)| sign(event)).collect();
        assert!(signs.is_sorted_by(|a, b| a.1 < b.1), "time goes down");
        for p in 0..drawn.graph.len() {
            for start in drawn.graph.starts(p).into_iter().flatten() {
                let ends = (signs[start], signs[p]);
                let is_arc = |pieces: &[(Point, Point)]| {
                    pieces.first().map(|a| a.0).zip(pieces.last().map(|b| b.1)) == Some(ends)
                };
                let found: Vec<_> = lines.iter().filter(|(_, pieces)| is_arc(pieces)).collect();
                assert_eq!(found.len(), 1, "lines from {start} to {p}");
                let class = arc_class(&drawn, start, p);
                assert!(found[0].0.has_class(class), "{start} to {p} is {class}");
                arcs += 1;
            }
        }
        for (i, (_, line)) in lines.iter().enumerate() {
            for (_, other) in &lines[i + 1..] {
                let crossing = |a: &(Point, Point)| other.iter().any(|b| cross(*a, *b));
                assert!(!line.iter().any(crossing), "{line:?} and {other:?}");
            }
        }
    }
    assert!(arcs > 3_000, "{arcs} arcs");
}

/// A small reader of XML that takes no more than the pictures need, and that strictly.
mod xml {
    #[derive(Debug, Default)]
    pub struct Element {
        pub name: String,
        pub attributes: Vec<(String, String)>,
        pub text: String,
        pub children: Vec<Element>,
    }

    impl Element {
        pub fn attribute(&self, name: &str) -> Option<&str> {
            self.attributes.iter().find(|(n, _)| n == name).map(|(_, value)| value.as_str())
        }

        pub fn number(&self, name: &str) -> f64 {
            let value = self.attribute(name).unwrap_or_else(|| panic!("{} has {name}", self.name));
            value.parse().expect("a number")
        }

        pub fn has_class(&self, class: &str) -> bool {
            self.attribute("class").is_some_and(|all| all.split(' ').any(|one| one == class))
        }

        /// All elements of this name beneath it, in the text's order.
        pub fn all(&self, name: &str) -> Vec<&Element> {
            let mut found = Vec::new();
            for child in &self.children {
                if child.name == name {
                    found.push(child);
                }
                found.extend(child.all(name));
            }
            found
        }

        pub fn child_text(&self, name: &str) -> &str {
            let child = self.children.iter().find(|child| child.name == name);
            child.map_or("", |child| &child.text)
        }

        pub fn ids(&self) -> Vec<&str> {
            let own = self.attribute("id").into_iter();
            own.chain(self.children.iter().flat_map(Element::ids)).collect()
        }
    }

    pub fn parse(text: &str) -> Result<Element, String> {
        if let Some(c) = text.chars().find(|&c| !is_allowed(c)) {
            return Err(format!("{c:?} is no character of XML"));
        }
        let declaration = "<?xml version=\"1.0\" encoding=\"UTF-8\"?>\n";
        let rest = text.strip_prefix(declaration).ok_or("no declaration")?;
        let (root, rest) = element(rest)?;
        if root.name != "svg" || !rest.trim().is_empty() {
            return Err(format!("{:?}, and behind it {rest:?}", root.name));
        }
        Ok(root)
    }

    fn is_allowed(c: char) -> bool {
        matches!(c, '\t' | '\n' | '\r' | '\u{20}'..='\u{d7ff}' | '\u{e000}'..='\u{fffd}')
            || c >= '\u{10000}'
    }

    fn is_name(name: &str) -> bool {
        !name.is_empty() && name.chars().all(|c| c.is_ascii_alphabetic() || c == '-' || c == ':')
    }

    /// The element that the text begins with, and what follows it.
    fn element(text: &str) -> Result<(Element, &str), String> {
        let inner = text.strip_prefix('<').ok_or_else(|| format!("no tag: {:.40}", text))?;
        let end = inner.find([' ', '>', '/']).ok_or("a tag without end")?;
        let (name, mut rest) = inner.split_at(end);
        if !is_name(name) {
            return Err(format!("a tag named {name:?}"));
        }
        let mut element = Element { name: name.to_string(), ..Element::default() };
        loop {
            if let Some(rest) = rest.strip_prefix("/>") {
                return Ok((element, rest));
            }
            if let Some(rest) = rest.strip_prefix('>') {
                return content(element, rest);
            }
            let spaced = rest.strip_prefix(' ').ok_or("no blank before an attribute")?;
            let (attribute, after) = attribute(spaced)?;
            if element.attribute(&attribute.0).is_some() {
                return Err(format!("{} twice in {name}", attribute.0));
            }
            element.attributes.push(attribute);
            rest = after;
        }
    }

    fn attribute(text: &str) -> Result<((String, String), &str), String> {
        let (name, rest) = text.split_once("=\"").ok_or("an attribute without a value")?;
        let (value, rest) = rest.split_once('"').ok_or("a value without end")?;
        if !is_name(name) || value.contains('<') {
            return Err(format!("the attribute {name:?}={value:?}"));
        }
        Ok(((name.to_string(), plain(value)?), rest))
    }

    fn content(mut element: Element, mut rest: &str) -> Result<(Element, &str), String> {
        loop {
            let at = rest.find('<').ok_or_else(|| format!("{} is not closed", element.name))?;
            let (text, tag) = rest.split_at(at);
            if text.contains("]]>") {
                return Err("]]> in text".into());
            }
            element.text.push_str(&plain(text)?);
            if let Some(closing) = tag.strip_prefix("</") {
                let (name, rest) = closing.split_once('>').ok_or("a tag without end")?;
                let closes = name == element.name;
                return closes.then_some((element, rest)).ok_or(format!("</{name}> out of place"));
            }
            let (child, after) = self::element(tag)?;
            element.children.push(child);
            rest = after;
        }
    }

    /// The text with its entities resolved.
    fn plain(text: &str) -> Result<String, String> {
        let mut parts = text.split('&');
        let mut plain = parts.next().unwrap_or_default().to_string();
        for part in parts {
            let (entity, rest) = part.split_once(';').ok_or("& alone")?;
            plain.push(match entity {
                "amp" => '&',
                "lt" => '<',
                "gt" => '>',
                "quot" => '"',
                "#39" => '\'',
                _ => return Err(format!("the entity {entity:?}")),
            });
            plain.push_str(rest);
        }
        Ok(plain)
    }

    #[test]
    fn the_reader_refuses_what_is_not_well_formed() {
        let head = "<?xml version=\"1.0\" encoding=\"UTF-8\"?>\n";
        let read = |body: &str| parse(&format!("{head}{body}"));
        assert!(read("<svg a=\"1\"><g>x &amp; y</g><g/></svg>\n").is_ok());
        for wrong in [
            "<svg><g></svg></g>",
            "<svg>",
            "<svg/><svg/>",
            "<svg a=\"1\" a=\"2\"/>",
            "<svg a=1/>",
            "<svg a=\"<\"/>",
            "<svg>&</svg>",
            "<svg>&nbsp;</svg>",
            "<svg>\u{1}</svg>",
            "<svg>]]></svg>",
            "<g/>",
            "text",
        ] {
            assert!(read(wrong).is_err(), "{wrong}");
        }
    }
}
