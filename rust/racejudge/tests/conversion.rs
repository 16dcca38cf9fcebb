//! The conversion of stored traces: against a slow one, against the verdicts of before, and what it
//! leaves of what is lent.

use racejudge::raw::{self, Told};
use racejudge::{
    judge, Conversion, Event, Kind, Refusal, Trace, Verdict, LOCATIONS, MAX_EVENTS, TASKS,
};
use racejudge_bench::ancestors::{conflict, Ancestors};
use racejudge_bench::builder::Builder;
use racejudge_bench::line::names_nothing;
use racejudge_bench::rng::Rng;
use racejudge_bench::trace::Answer;
use racejudge_bench::{samples, trace as slow};

fn trace(events: &[Event]) -> Trace {
    events.iter().copied().collect()
}

/// The tasks of a run that is held to the rules by which it was stored.
struct Run {
    /// The running task is the last, and beneath each stands its parent.
    active: Vec<u16>,
    /// Those that are not joined, the last to halt behind.
    halted: Vec<u16>,
    used: Vec<u16>,
}

impl Run {
    fn start() -> Self {
        Run { active: vec![0], halted: Vec::new(), used: vec![0] }
    }

    /// The row that the event breaks.
    fn row(&self, event: Event) -> Option<usize> {
        let Event { task, operand, .. } = event;
        let Some(kind) = event.kind() else { return Some(5) };
        let Some(&running) = self.active.last() else { return Some(6) };
        let number = usize::from(operand);
        match kind {
            _ if task != running => Some(7),
            Kind::Read | Kind::Write | Kind::Sum => (number >= LOCATIONS).then_some(8),
            Kind::Fork if number >= TASKS => Some(9),
            Kind::Fork => self.used.contains(&operand).then_some(10),
            Kind::Join => (self.halted.last() != Some(&operand)).then_some(11),
            Kind::Halt => (operand != 0).then_some(12),
        }
    }

    /// Goes on with an event that breaks none.
    fn step(&mut self, event: Event) {
        match event.kind() {
            Some(Kind::Fork) => {
                self.active.push(event.operand);
                self.used.push(event.operand);
            }
            Some(Kind::Join) => _ = self.halted.pop(),
            Some(Kind::Halt) => self.halted.extend(self.active.pop()),
            _ => {}
        }
    }
}

/// What must come of a conversion.
struct Wanted {
    events: Vec<Event>,
    halts: usize,
    /// The row that ended it, and the position.
    stop: Option<Refusal>,
}

/// The slow conversion: each halt gets the task beneath.
fn slowly(stored: &Trace) -> Wanted {
    let (mut run, mut halts) = (Run::start(), 0);
    let mut events: Vec<Event> = stored.events().collect();
    for position in 0..events.len() {
        let event = events[position];
        if let Some(row) = run.row(event) {
            return Wanted { events, halts, stop: Some(Refusal { row, position }) };
        }
        run.step(event);
        if event.kind() == Some(Kind::Halt) {
            events[position].operand = run.active.last().copied().unwrap_or(0);
            halts += 1;
        }
    }
    Wanted { events, halts, stop: None }
}

/// What is lent to the call, with contents of its own.
#[derive(Clone, Debug, PartialEq)]
struct Lent {
    kinds: Vec<u8>,
    tasks: Vec<u16>,
    operands: Vec<u16>,
    workspace: Vec<u16>,
}

impl Lent {
    /// With so many cells of the workspace more than are needed.
    fn new(trace: &Trace, more: usize) -> Self {
        Lent {
            kinds: trace.kinds().to_vec(),
            tasks: trace.tasks().to_vec(),
            operands: trace.operands().to_vec(),
            workspace: vec![7; raw::WORKSPACE + trace.len() + more],
        }
    }

    fn convert(&mut self) -> Told<2> {
        raw::convert(&self.kinds, &self.tasks, &mut self.operands, &mut self.workspace)
    }
}

const CONVERTED: Told<2> = Told { code: raw::CONVERTED, values: [0, 0] };

/// The conversion does to the trace what the slow one does, and nothing more when it comes again.
/// Gives the converted trace and what ended it.
#[track_caller]
fn held(stored: &Trace, more: usize) -> (Trace, Option<Refusal>) {
    let Wanted { events, halts, stop } = slowly(stored);
    let wanted = trace(&events);

    let mut lent = Lent::new(stored, more);
    assert_eq!(lent.convert(), CONVERTED);
    let mut left = Lent::new(&wanted, more);
    left.workspace[..raw::WORKSPACE + stored.len()].fill(0);
    assert!(lent == left, "{:?} became {:?}", stored.operands(), lent.operands);

    let mut converted = stored.clone();
    let told = converted.convert().expect("the sizes are right");
    assert_eq!(converted, wanted);
    let stopped = stop.map(|refusal| refusal.position);
    assert_eq!((told.halts, told.stopped), (halts, stopped), "{stored:?}");
    let at_stop = told.broken.filter(|refusal| Some(refusal.position) == stopped);
    match stop {
        // A halt that names a task may be right by now.
        Some(Refusal { row: 12, .. }) => assert!(at_stop.is_none() || at_stop == stop, "{told:?}"),
        _ => assert_eq!(told.broken, stop, "{stored:?}"),
    }
    hold_again(&converted);
    (converted, stop)
}

/// What is converted already stays as it is.
#[track_caller]
fn hold_again(converted: &Trace) {
    let mut again = converted.clone();
    _ = again.convert().expect("the sizes are right");
    assert_eq!(&again, converted);
}

fn proved(trace: &slow::Trace) -> Trace {
    Trace::from_slices(&trace.kinds, &trace.tasks, &trace.operands)
}

/// A trace as it was stored, which kept the rules: of few tasks or many, or a deep nest.
fn stored(rng: &mut Rng) -> slow::Trace {
    let (n, care) = (rng.below(120), rng.one_of(&[0, 50, 100]));
    match rng.below(3) {
        0 => nest(rng, n),
        _ => samples::valid(rng, n, care),
    }
    .stored()
}

/// Tasks within each other to a depth at random, with accesses here and there; then they halt and
/// are joined at random, some of them all.
fn nest(rng: &mut Rng, n: usize) -> slow::Trace {
    let mut b = Builder::shuffled(rng);
    for _ in 0..n / 2 {
        b.fork();
        if rng.chance(1, 4) {
            let location = rng.cell(3);
            b.touch(rng, location);
        }
    }
    let depth = rng.below(b.depth() + 1);
    while b.depth() > depth {
        b.halt();
        if b.depth() > 0 && rng.chance(1, 2) {
            b.join();
        }
    }
    b.trace
}

/// Breaks a rule somewhere, as likely by each row.
fn damage(rng: &mut Rng, trace: &mut slow::Trace) {
    let p = rng.below(trace.len());
    let (task, ..) = trace.event(p);
    match rng.below(9) {
        0 => trace.kinds[p] = 6 + rng.cell(250) as u8,
        1 => trace.tasks[p] = rng.cell(1_100),
        2 => trace.insert(p, (task, slow::ACCESSES[rng.below(3)], 1_024 + rng.cell(64_512))),
        3 => fork(trace, p, 1_024 + rng.cell(64_512)),
        4 => fork(trace, p, 0),
        5 => trace.insert(p, (task, slow::JOIN, task)),
        // It names a task at random, or the one that the rules of now ask for.
        6 => name(rng, trace, p),
        7 => end(rng, trace),
        // A halt of a task that does not run.
        _ => trace.insert(p, (task.wrapping_add(1), slow::HALT, rng.cell(2))),
    }
}

/// The task of event p forks this one before it, which halts at once.
fn fork(trace: &mut slow::Trace, p: usize, child: u16) {
    trace.insert(p, (child, slow::HALT, 0));
    trace.insert(p, (trace.tasks[p + 1], slow::FORK, child));
}

/// The first halt from event p on names a task.
fn name(rng: &mut Rng, trace: &mut slow::Trace, p: usize) {
    if let Some(at) = (p..trace.len()).find(|&at| trace.kinds[at] == slow::HALT) {
        trace.operands[at] = match rng.below(3) {
            0 => trace.tasks[rng.below(trace.len())],
            1 => 1 + rng.cell(65_535),
            _ => slowly(&proved(trace)).events[at].operand,
        };
    }
}

/// All halt, and something follows: an event at random, or a nest.
fn end(rng: &mut Rng, trace: &mut slow::Trace) {
    let mut run = Run::start();
    proved(trace).events().for_each(|event| run.step(event));
    for task in run.active.into_iter().rev() {
        trace.push(task, slow::HALT, 0);
    }
    if rng.chance(1, 2) {
        return trace.push(0, rng.cell(6) as u8, rng.cell(3));
    }
    let used = |task: &u16| trace.operands.contains(task);
    let unused: Vec<u16> = (1..TASKS as u16).filter(|task| !used(task)).take(2).collect();
    if let [parent, child] = unused[..] {
        trace.push(0, slow::FORK, parent);
        trace.push(parent, slow::FORK, child);
        trace.push(child, slow::HALT, 0);
    }
}

#[test]
fn as_by_the_slow_one() {
    let mut rng = Rng::new(41);
    let mut met = [0; 13];
    for _ in 0..12_000 {
        let mut stored = stored(&mut rng);
        if rng.chance(3, 4) && !stored.is_empty() {
            damage(&mut rng, &mut stored);
        }
        let more = rng.below(3);
        let (_, stop) = held(&proved(&stored), more);
        met[stop.map_or(0, |refusal| refusal.row)] += 1;
    }
    // Those that were converted whole, and those that each row has ended.
    let [whole, _, _, _, _, rows @ ..] = met;
    assert!(whole > 2_000 && rows.iter().all(|&count| count > 200), "{met:?}");
}

/// Events of small numbers, most of which break a rule soon.
#[test]
fn noise_is_converted_as_by_the_slow_one() {
    let mut rng = Rng::new(42);
    for _ in 0..4_000 {
        let n = rng.below(40);
        _ = held(&proved(&samples::noise(&mut rng, n)), 1);
    }
}

/// What was clean or a race by the rules of then is the same by the rules of now. So is what was
/// refused by a row that has not changed.
#[test]
fn what_was_said_before_is_said_after() {
    let (mut rng, mut before) = (Rng::new(43), Ancestors::by(conflict, names_nothing));
    let mut met = [0; 3];
    for _ in 0..8_000 {
        let mut stored = stored(&mut rng);
        if rng.chance(1, 2) && !stored.is_empty() {
            damage(&mut rng, &mut stored);
        }
        let n = stored.len();
        let outcome = before.judge(&stored, raw::WORKSPACE + n, n, n);
        let (converted, _) = held(&proved(&stored), 0);
        let now = judge(&converted);
        match outcome.said {
            Answer::Clean => {
                assert_eq!(now, Ok(Verdict::Clean { links: outcome.links }), "{stored}");
                met[0] += 1;
            }
            Answer::Race(s, t) => {
                let (first, second) = outcome.orders.expect("a race has orders");
                let race = Verdict::Race { s, t, links: outcome.links, first, second };
                assert_eq!(now, Ok(race), "{stored}");
                met[1] += 1;
            }
            Answer::Refused(12, _) => {}
            Answer::Refused(row, position) => {
                assert_eq!(now, Err(Refusal { row, position }), "{stored}");
                met[2] += 1;
            }
        }
    }
    assert!(met.iter().all(|&count| count > 1_000), "{met:?}");
}

/// A nest of three, in which task 2 ends, then task 1, then task 0.
const NEST: [Event; 5] =
    [Event::fork(0, 1), Event::fork(1, 2), Event::halt(2, 0), Event::halt(1, 0), Event::halt(0, 0)];

#[test]
fn a_nest() {
    let mut nest = trace(&NEST);
    let told = nest.convert().expect("the sizes are right");
    assert_eq!((told.halts, told.stopped, told.broken), (3, None, None));
    assert!(nest.events().skip(2).eq([Event::halt(2, 1), Event::halt(1, 0), Event::halt(0, 0)]));
    _ = held(&trace(&NEST), 5);
}

#[test]
fn no_events() {
    let (converted, stop) = held(&Trace::default(), 3);
    assert_eq!((converted.len(), stop), (0, None));
}

/// As deep as a nest can be: each task but the last forks the next, and all halt.
#[test]
fn the_deepest_nest() {
    let last = TASKS as u16 - 1;
    let forks = (0..last).map(|task| Event::fork(task, task + 1));
    let halts = |resumes: fn(u16) -> u16| (0..=last).rev().map(move |k| Event::halt(k, resumes(k)));
    let mut nest: Trace = forks.clone().chain(halts(|_| 0)).collect();
    let wanted: Trace = forks.chain(halts(|task| task.saturating_sub(1))).collect();
    let told = nest.convert().expect("the sizes are right");
    assert_eq!((told.halts, told.stopped), (TASKS, None));
    assert_eq!(nest, wanted);
    assert_eq!(judge(&nest), Ok(Verdict::Clean { links: 0 }));
}

/// Task 1 forks one task after the other, which halt at once; a task's last event is the trace's.
#[test]
fn as_many_events_as_a_trace_may_have() {
    let round = |task: u16| [Event::fork(1, task), Event::read(task, 5), Event::halt(task, 0)];
    let mut events = vec![Event::fork(0, 1)];
    events.extend((2..TASKS as u16).flat_map(round));
    events.resize(MAX_EVENTS - 1, Event::read(1, 5));
    events.push(Event::halt(1, 0));
    let (converted, stop) = held(&trace(&events), 0);
    assert_eq!((converted.len(), stop), (MAX_EVENTS, None));
    let halts = converted.events().filter(|event| event.kind() == Some(Kind::Halt));
    let resumed: Vec<u16> = halts.map(|halt| halt.operand).collect();
    assert_eq!(resumed, [vec![1; TASKS - 2], vec![0]].concat());
}

/// The first halt of the nest, then an event that breaks a rule, and halts that would be set if it
/// broke none.
#[test]
fn each_row_ends_it() {
    let nest = [Event::fork(1, 8), Event::halt(8, 0)];
    for (event, row) in [
        (Event { kind: 6, task: 1, operand: 0 }, 5),
        (Event { kind: 255, task: 9, operand: 9 }, 5),
        (Event::read(0, 5), 7),
        (Event::halt(0, 0), 7),
        (Event::halt(2, 1), 7),
        (Event::halt(9, 65_535), 7),
        (Event::sum(1, 1_024), 8),
        (Event::fork(1, 65_535), 9),
        (Event::fork(1, 2), 10),
        (Event::join(1, 0), 11),
        (Event::halt(1, 1), 12),
        (Event::halt(1, 65_535), 12),
    ] {
        let is_fork = event.kind() == Some(Kind::Fork);
        let ends: Vec<Event> = is_fork.then(|| Event::halt(event.operand, 0)).into_iter().collect();
        let behind = [&[event][..], &ends, &nest, &NEST[3..]].concat();
        let mut broken = trace(&[&NEST[..3], &behind].concat());
        _ = held(&broken, 0);
        let told = broken.convert().expect("the sizes are right");
        let refusal = Refusal { row, position: 3 };
        assert_eq!((told.halts, told.stopped, told.broken), (1, Some(3), Some(refusal)));
        let wanted = [&NEST[..2], &[Event::halt(2, 1)], &behind].concat();
        assert_eq!(broken, trace(&wanted), "{event}");
    }
}

#[test]
fn the_end_of_task_0_ends_it() {
    let nest = [Event::fork(0, 7), Event::fork(7, 8), Event::halt(8, 0)];
    let halts = [Event::halt(0, 0), Event::halt(0, 1), Event::halt(7, 7)].map(|halt| vec![halt]);
    for behind in [nest.to_vec(), vec![Event::read(0, 5)]].into_iter().chain(halts) {
        let mut ended = trace(&[&NEST[..], &behind].concat());
        let told = ended.convert().expect("the sizes are right");
        let refusal = Refusal { row: 6, position: 5 };
        assert_eq!((told.halts, told.stopped, told.broken), (3, Some(5), Some(refusal)));
        assert!(ended.events().skip(5).eq(behind));
    }
}

/// A halt that names its task already breaks the rule of then, and none of now. What is broken behind
/// it is told as that.
#[test]
fn a_halt_that_names_its_task_ends_it() {
    let named = [&NEST[..2], &[Event::halt(2, 1)], &NEST[3..]].concat();
    let told = trace(&named).convert().expect("the sizes are right");
    assert_eq!((told.halts, told.stopped, told.broken), (0, Some(2), None));
    let more = [Event::fork(0, 1), Event::fork(1, 2), Event::halt(2, 1), Event::fork(1, 3)];
    let half = [&more[..], &[Event::halt(3, 0)]].concat();
    let told = trace(&half).convert().expect("the sizes are right");
    let later = Refusal { row: 12, position: 4 };
    assert_eq!((told.halts, told.stopped, told.broken), (0, Some(2), Some(later)));
    _ = held(&trace(&half), 0);
}

/// Task 1's halt stands where task 2 runs, and so does task 2's behind it.
#[test]
fn a_halt_of_a_task_that_does_not_run_is_not_touched() {
    let events = [Event::fork(0, 1), Event::fork(1, 2), Event::halt(1, 0), Event::halt(2, 0)];
    let (converted, stop) = held(&trace(&events), 0);
    assert_eq!(converted, trace(&events));
    assert_eq!(stop, Some(Refusal { row: 7, position: 2 }));
}

/// Task 1 reads what its child has written, which it has not joined; a break follows, and a nest that
/// is not looked at.
#[test]
fn a_race_does_not_end_it_and_keeps_its_answer() {
    let stored = [
        Event::fork(0, 1),
        Event::fork(1, 2),
        Event::write(2, 5),
        Event::halt(2, 0),
        Event::read(1, 5),
        Event::fork(1, 3),
        Event::halt(3, 0),
        Event::read(7, 5),
        Event::halt(1, 0),
    ];
    let (converted, stop) = held(&trace(&stored), 0);
    assert_eq!(stop, Some(Refusal { row: 7, position: 7 }));
    let set = [(3, Event::halt(2, 1)), (6, Event::halt(3, 1)), (8, Event::halt(1, 0))];
    assert!(set.iter().all(|&(p, event)| converted.event(p) == Some(event)));
    let Ok(Verdict::Race { s, t, .. }) = judge(&converted) else { panic!("a race") };
    assert_eq!((s, t), (2, 4));
}

#[track_caller]
fn refused(row: u64, mut lent: Lent) {
    let before = lent.clone();
    assert_eq!(lent.convert(), Told { code: raw::REFUSED, values: [row, 0] });
    assert!(lent == before, "row {row} changed what was lent");
}

/// Whatever the events are: these halts would be set.
#[test]
fn rows_1_to_3_leave_all_as_it_was() {
    let lent = Lent::new(&trace(&NEST), 0);
    let (n, cells) = (NEST.len(), raw::WORKSPACE + NEST.len());
    refused(1, Lent { kinds: lent.kinds[1..].to_vec(), ..lent.clone() });
    refused(1, Lent { tasks: lent.tasks[..n - 1].to_vec(), ..lent.clone() });
    refused(1, Lent { operands: lent.operands[..n - 1].to_vec(), ..lent.clone() });
    refused(1, Lent { operands: vec![0; n + 1], ..lent.clone() });
    for short in [0, 1, n, raw::WORKSPACE, cells - 1] {
        refused(3, Lent { workspace: vec![7; short], ..lent.clone() });
    }
    refused(3, Lent { workspace: vec![7; raw::WORKSPACE - 1], ..Lent::new(&Trace::default(), 0) });
    let mut long = trace(&NEST[..4]);
    long.extend(std::iter::repeat_n(Event::read(0, 5), MAX_EVENTS - 3));
    refused(2, Lent::new(&long, 0));
    // In the order of the rows.
    refused(2, Lent { workspace: Vec::new(), ..Lent::new(&long, 0) });
    let uneven = Lent { kinds: vec![4; MAX_EVENTS + 2], ..Lent::new(&long, 0) };
    refused(1, Lent { workspace: Vec::new(), ..uneven });
}

#[test]
fn a_refused_trace_is_as_it_was() {
    let uneven = Trace::from_slices(&[2, 2, 4, 4], &[0, 1, 2, 1], &[1, 2, 0]);
    let mut long = trace(&NEST[..4]);
    long.extend(std::iter::repeat_n(Event::read(0, 5), MAX_EVENTS - 3));
    for (trace, row) in [(uneven, 1), (long, 2)] {
        let mut same = trace.clone();
        assert_eq!(same.convert(), Err(Refusal { row, position: 0 }));
        assert_eq!(same, trace);
    }
}

/// The places of a text stay, and so does what `Conversion` says in a pattern.
#[test]
fn a_text_needs_none() {
    let text = "T0|fork(T1)|1\nT1|fork(T2)|2\nT1|r(V5)|3\nT0|r(V5)|4\n";
    let mut trace = Trace::from_text(text).expect("of the form");
    let before = trace.clone();
    let told = trace.convert().expect("the sizes are right");
    assert!(matches!(told, Conversion { halts: 0, stopped: Some(2), broken: None, .. }));
    assert_eq!((&trace, trace.place(2)), (&before, before.place(2)));
}
