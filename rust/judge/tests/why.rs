//! What the graph and the explanation of a race say, against an all-ancestors judge and against the
//! proved ordering call.

mod common;

use common::proved;
use judge::graph::Graph;
use judge::why::Why;
use racejudge::{reaches, Event, Trace, Verdict};
use racejudge_bench::ancestors::Ancestors;
use racejudge_bench::line::{names_resumed, Line};
use racejudge_bench::rng::Rng;
use racejudge_bench::samples;
use racejudge_bench::trace::{self as slow, Ordering, FORK, HALT, JOIN, WORKSPACE};

/// Whether p reaches q, by the sets of all ancestors.
fn slowly(trace: &slow::Trace, p: usize, q: usize) -> bool {
    let outcome = Ancestors::default().ordering(trace, WORKSPACE + trace.len(), p, q);
    outcome.said == Ordering::Yes
}

/// Traces that keep the rules, with the race that the proved judge finds in each, if any.
fn races(seed: u64, tries: usize, events: usize) -> Vec<(slow::Trace, usize, usize)> {
    let mut rng = Rng::new(seed);
    let mut races = Vec::new();
    for _ in 0..tries {
        let n = 1 + rng.below(events);
        let care = rng.below(101);
        let trace = samples::valid(&mut rng, n, care);
        if let Ok(Verdict::Race { s, t, .. }) = racejudge::judge(&proved(&trace)) {
            races.push((trace, s, t));
        }
    }
    races
}

/// The starts of the arcs into q, looked for event by event.
fn arcs(trace: &slow::Trace, q: usize) -> [Option<usize>; 2] {
    let (task, kind, operand) = trace.event(q);
    let last = |test: &dyn Fn(slow::Event) -> bool| (0..q).rev().find(|&p| test(trace.event(p)));
    let own = last(&|(other, ..)| other == task);
    let fork = last(&|(_, kind, child)| kind == FORK && child == task);
    let halt = last(&|(other, kind, _)| kind == HALT && other == operand);
    [own.or(fork), halt.filter(|_| kind == JOIN)]
}

#[test]
fn the_graph_has_the_paths_of_the_slow_judge() {
    let mut rng = Rng::new(1);
    for _ in 0..300 {
        let n = 1 + rng.below(40);
        let trace = samples::valid(&mut rng, n, 0);
        let graph = Graph::new(&proved(&trace), trace.len());
        assert_eq!(graph.len(), trace.len());
        for q in 0..trace.len() {
            assert_eq!(graph.starts(q), arcs(&trace, q), "to {q} in {trace}");
            let wanted: Vec<bool> = (0..=q).map(|p| slowly(&trace, p, q)).collect();
            assert_eq!(graph.reaching(q), wanted, "to {q} in {trace}");
        }
    }
}

/// The line of document 01 after some events, from left to right: as it is, and as it would be if
/// no join took a task out; and the running task over its paused ancestors.
#[derive(Default)]
struct Lists {
    line: Vec<u16>,
    columns: Vec<u16>,
    running: Vec<u16>,
}

impl Lists {
    fn of(trace: &slow::Trace, events: usize) -> Self {
        let mut lists = Lists { line: vec![0], columns: vec![0], running: vec![0] };
        for p in 0..events {
            let (task, kind, operand) = trace.event(p);
            match kind {
                FORK => {
                    for list in [&mut lists.line, &mut lists.columns] {
                        let parent = list.iter().position(|&it| it == task).expect("it is there");
                        list.insert(parent, operand);
                    }
                    lists.running.push(operand);
                }
                JOIN => lists.line.retain(|&it| it != operand),
                HALT => _ = lists.running.pop(),
                _ => {}
            }
        }
        lists
    }
}

#[test]
fn the_graph_has_the_line_of_tasks() {
    let mut rng = Rng::new(5);
    for _ in 0..200 {
        let n = 1 + rng.below(120);
        let trace = samples::valid(&mut rng, n, 0);
        let graph = Graph::new(&proved(&trace), trace.len());
        assert_eq!(graph.columns(), Lists::of(&trace, trace.len()).columns, "{trace}");
        for p in 0..=trace.len() {
            let Lists { line, running, .. } = Lists::of(&trace, p);
            assert_eq!(graph.active_before(p), running, "before {p} in {trace}");
            let paused = running.iter().rev().copied();
            let whole: Vec<u16> = graph.left_before(p).into_iter().chain(paused).collect();
            assert_eq!(whole, line, "before {p} in {trace}");
        }
    }
}

#[test]
fn the_graph_ends_before_the_first_event_that_breaks_a_rule() {
    let mut rng = Rng::new(6);
    let mut broken = 0;
    for _ in 0..2_000 {
        let n = 1 + rng.below(60);
        let whole = samples::valid(&mut rng, n, 0);
        let trace = match rng.below(2) {
            0 => samples::noise(&mut rng, n),
            _ => samples::damage(&mut rng, &whole),
        };
        let mut line = Line::start(names_resumed);
        let kept = |&p: &usize| {
            let (task, kind, operand) = trace.event(p);
            line.step(task, kind, operand).is_ok()
        };
        let wanted = (0..trace.len()).take_while(kept).count();
        let graph = Graph::new(&proved(&trace), trace.len() + 5);
        assert_eq!(graph.len(), wanted, "{trace}");
        assert_eq!(Graph::new(&proved(&trace), wanted / 2).len(), wanted / 2);
        broken += usize::from(wanted < trace.len());
        // Any question about it has an answer.
        let (p, q) = (rng.below(70), rng.below(70));
        let reaches = graph.reaching(q).get(p) == Some(&true);
        assert_eq!(graph.path(p, q).is_empty(), !reaches, "{p} {q} in {trace}");
        assert_eq!(graph.reached(p).get(q) == Some(&true), reaches, "{p} {q} in {trace}");
        let unordered = p < q && q < wanted && !reaches;
        assert_eq!(Why::new(&graph, p, q).is_some(), unordered, "{p} {q} in {trace}");
    }
    assert!(broken > 1_000, "{broken} that break a rule");
}

#[test]
fn a_race_is_parted_by_the_last_event_before_both() {
    let races = races(2, 3_000, 60);
    assert!(races.len() > 500, "{} races", races.len());
    for (trace, s, t) in races {
        let graph = Graph::new(&proved(&trace), trace.len());
        let why = Why::new(&graph, s, t).expect("a race has a reason");
        let both = |&p: &usize| slowly(&trace, p, s) && slowly(&trace, p, t);
        assert_eq!((0..s).rev().find(both), Some(why.parted), "{s} {t} in {trace}");
        assert_eq!(trace.kinds[why.parted], FORK);
        assert_path(&graph, &why.to_s, why.parted, s);
        assert_path(&graph, &why.to_t, why.parted, t);
        let child = trace.operands[why.parted];
        assert_eq!(trace.tasks[why.to_s[1]], child, "{s} {t} in {trace}");
        assert_eq!(trace.tasks[why.to_t[1]], trace.tasks[why.parted], "{s} {t} in {trace}");
    }
}

/// From the one event to the other, each step along an arc.
fn assert_path(graph: &Graph, path: &[usize], from: usize, to: usize) {
    assert_eq!((path.first(), path.last()), (Some(&from), Some(&to)));
    for step in path.windows(2) {
        assert!(graph.starts(step[1]).contains(&Some(step[0])), "{path:?}");
    }
}

/// The trace up to t with these joins by its task right before t.
fn joined(trace: &slow::Trace, t: usize, tasks: &[u16]) -> Trace {
    let mut events: Vec<Event> = proved(trace).events().take(t + 1).collect();
    let joins = tasks.iter().map(|&task| Event::join(trace.tasks[t], task));
    events.splice(t..t, joins);
    events.into_iter().collect()
}

#[test]
fn the_joins_that_are_named_order_the_pair_and_fewer_do_not() {
    let races = races(3, 3_000, 200);
    assert!(races.len() > 500, "{} races", races.len());
    let mut several = 0;
    for (trace, s, t) in races {
        let graph = Graph::new(&proved(&trace), trace.len());
        let why = Why::new(&graph, s, t).expect("a race has a reason");
        let n = why.unjoined.len();
        assert_eq!(reaches(&joined(&trace, t, &why.unjoined), s, t + n), Ok(true), "{trace}");
        let fewer = &why.unjoined[..n - 1];
        assert_eq!(reaches(&joined(&trace, t, fewer), s, t + n - 1), Ok(false), "{trace}");
        several += usize::from(n > 1);
    }
    assert!(several > 50, "{several} races with more than one task to join");
}

#[test]
fn a_later_join_is_found() {
    let races = races(4, 3_000, 60);
    let mut later = 0;
    for (trace, s, t) in races {
        let graph = Graph::new(&proved(&trace), trace.len());
        let why = Why::new(&graph, s, t).expect("a race has a reason");
        let last = *why.unjoined.last().expect("a task that is not joined");
        let join = |&p: &usize| trace.kinds[p] == JOIN && trace.operands[p] == last;
        assert_eq!((t + 1..trace.len()).find(join), why.joined_later, "{trace}");
        later += usize::from(why.joined_later.is_some());
    }
    assert!(later > 50, "{later} races with a later join");
}
