//! Every close pair: against all pairs of a set of ancestors for each event, made from the rules alone;
//! what is close and what is not; long lists; and what a lender's slices hold after each answer.

use racejudge::raw::{self, Told};
use racejudge::{
    judge, max_pairs, pairs, Event, Kind, Pair, Refusal, Trace, Verdict, CLOSE, MAX_EVENTS,
};
use racejudge_bench::rng::Rng;
use racejudge_bench::{samples, trace as slow, workloads};
use std::collections::HashMap;

fn trace(events: &[Event]) -> Trace {
    events.iter().copied().collect()
}

fn proved(trace: &slow::Trace) -> Trace {
    Trace::from_slices(&trace.kinds, &trace.tasks, &trace.operands)
}

/// The close pairs as positions.
#[track_caller]
fn listed(trace: &Trace) -> Vec<(usize, usize)> {
    let told = pairs(trace).expect("the rules are kept");
    let (number, list) = (told.len(), told.map(|Pair { s, t }| (s, t)).collect::<Vec<_>>());
    assert_eq!(number, list.len());
    list
}

/// For each event of a trace that keeps the rules, which of the events before reach it: the same task's
/// event before, the fork that made the task, the halt of a task that is joined, and what reaches those.
fn ancestors(trace: &Trace) -> Vec<Vec<bool>> {
    let mut all: Vec<Vec<bool>> = Vec::new();
    // Where the next arc of each task starts: its last event, or else its fork.
    let mut last: HashMap<u16, usize> = HashMap::new();
    for (p, event) in trace.events().enumerate() {
        let mut starts: Vec<usize> = last.get(&event.task).copied().into_iter().collect();
        match event.kind() {
            Some(Kind::Join) => starts.push(last[&event.operand]),
            Some(Kind::Fork) => _ = last.insert(event.operand, p),
            _ => {}
        }
        last.insert(event.task, p);
        let mut own = vec![false; p];
        for start in starts {
            own[start] = true;
            own.iter_mut().zip(&all[start]).for_each(|(own, reaches)| *own |= reaches);
        }
        all.push(own);
    }
    all
}

/// What touches one location, and not both read it nor both add to it.
fn conflict(one: Event, other: Event) -> bool {
    let kinds = [one.kind(), other.kind()];
    let touch = kinds.iter().all(|kind| kind.is_some_and(Kind::is_access));
    let alike = [[Some(Kind::Read); 2], [Some(Kind::Sum); 2]].contains(&kinds);
    touch && one.operand == other.operand && !alike
}

/// Every pair that races, whatever its distance, in order of t and then of s.
fn races(trace: &Trace) -> Vec<(usize, usize)> {
    let (events, ancestors): (Vec<Event>, _) = (trace.events().collect(), ancestors(trace));
    let mut races = Vec::new();
    for t in 0..events.len() {
        for s in 0..t {
            if conflict(events[s], events[t]) && !ancestors[t][s] {
                races.push((s, t));
            }
        }
    }
    races
}

fn is_close(&(s, t): &(usize, usize)) -> bool {
    t - s <= 256
}

/// A child writes location 5, at event 1, and its parent reads it so often, from event 3 on.
fn beside(reads: usize) -> Vec<Event> {
    let mut events = vec![Event::fork(0, 1), Event::write(1, 5), Event::halt(1, 0)];
    events.extend(vec![Event::read(0, 5); reads]);
    events
}

#[test]
fn races_behind_the_first_are_listed() {
    let mut events = beside(2);
    assert_eq!(listed(&trace(&events)), [(1, 3), (1, 4)]);
    // Behind the join all is ordered. Then another child, and another location.
    events.extend([Event::join(0, 1), Event::write(0, 5), Event::fork(0, 2)]);
    assert_eq!(listed(&trace(&events)), [(1, 3), (1, 4)]);
    events.extend([Event::read(2, 7), Event::write(2, 5), Event::halt(2, 0)]);
    events.extend([Event::write(0, 7), Event::write(0, 5), Event::read(0, 7)]);
    assert_eq!(listed(&trace(&events)), [(1, 3), (1, 4), (8, 11), (9, 12)]);
    assert!(matches!(judge(&trace(&events)), Ok(Verdict::Race { s: 1, t: 3, .. })));
}

#[test]
fn a_trace_may_break_off_anywhere() {
    let mut events = beside(2);
    events.extend([Event::fork(0, 2), Event::write(2, 5), Event::fork(2, 3), Event::read(3, 5)]);
    let whole = listed(&trace(&events));
    assert_eq!(whole, [(1, 3), (1, 4), (1, 6), (1, 8)]);
    for end in 0..=events.len() {
        let begun: Vec<_> = whole.iter().copied().filter(|&(_, t)| t < end).collect();
        assert_eq!(listed(&trace(&events[..end])), begun);
    }
}

#[test]
fn no_pairs() {
    for events in [
        vec![],
        vec![Event::write(0, 5); 300],
        vec![Event::fork(0, 1), Event::read(1, 5), Event::halt(1, 0), Event::read(0, 5)],
        vec![Event::fork(0, 1), Event::sum(1, 5), Event::halt(1, 0), Event::sum(0, 5)],
        vec![Event::fork(0, 1), Event::write(1, 5), Event::halt(1, 0), Event::write(0, 6)],
    ] {
        let told = pairs(&trace(&events)).expect("the rules are kept");
        assert_eq!((told.len(), told.collect::<Vec<_>>()), (0, vec![]));
    }
}

#[test]
fn sums_race_with_reads_and_writes() {
    let child = |event| [Event::fork(0, 1), event, Event::halt(1, 0)];
    let own = [Event::read(0, 5), Event::write(0, 5), Event::sum(0, 5), Event::sum(0, 6)];
    let after = |event| listed(&trace(&[&child(event)[..], &own].concat()));
    assert_eq!(after(Event::sum(1, 5)), [(1, 3), (1, 4)]);
    assert_eq!(after(Event::read(1, 5)), [(1, 4), (1, 5)]);
    assert_eq!(after(Event::write(1, 5)), [(1, 3), (1, 4), (1, 5)]);
}

#[test]
fn a_distance_of_256_is_close_and_one_of_257_is_not() {
    assert_eq!(CLOSE, 256);
    for (reads, number) in [(254, 254), (255, 255), (256, 255), (300, 255)] {
        let pairs = listed(&trace(&beside(reads)));
        assert!(pairs.iter().copied().eq((3..3 + number).map(|t| (1, t))), "{reads}");
    }
    // One race alone, which is too far apart, and then is not.
    for (own, number) in [(255, 0), (254, 1)] {
        let mut events = beside(0);
        events.extend(vec![Event::read(0, 6); own]);
        events.push(Event::write(0, 5));
        let trace = trace(&events);
        assert_eq!(listed(&trace).len(), number);
        assert!(matches!(judge(&trace), Ok(Verdict::Race { s: 1, .. })));
    }
}

/// A child writes one location so often, and so does its parent beside it.
fn writes(child: usize, parent: usize) -> Trace {
    let mut events = vec![Event::fork(0, 1)];
    events.extend(vec![Event::write(1, 5); child]);
    events.push(Event::halt(1, 0));
    events.extend(vec![Event::write(0, 5); parent]);
    trace(&events)
}

#[test]
fn lists_of_more_than_65535_pairs() {
    // Each child writes 128 times: what it writes races with the 128 of the child before.
    let child = |task| {
        let begin = [Event::fork(0, task)];
        begin.into_iter().chain(vec![Event::write(task, 5); 128]).chain([Event::halt(task, 0)])
    };
    let trace: Trace = (1..=12).flat_map(child).collect();
    let list = listed(&trace);
    let wanted: Vec<_> = races(&trace).into_iter().filter(is_close).collect();
    assert!(list.len() > 2 * 65_536 && list == wanted, "{}", list.len());
}

/// Nothing is joined, so all accesses race that are of different tasks: here there is one access to a
/// task in three events, and 30 in 32.
#[test]
fn lists_of_millions_of_pairs() {
    for (accesses, least) in [(1, 80_000), (30, 6_500_000)] {
        let child = |task| {
            let begin = [Event::fork(0, task)];
            begin
                .into_iter()
                .chain(vec![Event::write(task, 5); accesses])
                .chain([Event::halt(task, 0)])
        };
        let trace: Trace = (1..=1_023).flat_map(child).collect();
        let (kinds, tasks) = (trace.kinds(), trace.tasks());
        let is_access = |p: usize| kinds[p] == Kind::Write.number();
        let near = |t: usize| {
            let before = t.saturating_sub(CLOSE)..t;
            before.filter(|&s| is_access(s) && tasks[s] != tasks[t]).count()
        };
        let wanted: usize = (0..trace.len()).filter(|&t| is_access(t)).map(near).sum();
        let told = pairs(&trace).expect("the rules are kept");
        assert!(told.len() == wanted && wanted > least, "{wanted}");
        assert!(told.is_sorted_by(|one, other| (one.t, one.s) < (other.t, other.s)));
    }
}

#[test]
fn the_longest_traces() {
    for (child, parent) in [(16_383, 16_383), (1, 32_765), (32_765, 1)] {
        let trace = writes(child, parent);
        assert_eq!(trace.len(), MAX_EVENTS);
        // The child's last write stands 2 before the parent's first.
        let near = |own: usize| (CLOSE - 1).saturating_sub(own).min(child);
        let wanted: usize = (0..parent).map(near).sum();
        assert_eq!(listed(&trace).len(), wanted);
    }
    let mut rng = Rng::new(7);
    for workload in &workloads::WORKLOADS {
        let trace = proved(&(workload.make)(MAX_EVENTS, &mut rng));
        let close = listed(&trace);
        assert!(close.iter().all(is_close) && close.len() <= max_pairs(trace.len()));
        if matches!(judge(&trace), Ok(Verdict::Clean { .. })) {
            assert!(close.is_empty(), "{}", workload.name);
        }
    }
}

/// From both ends, by parts and copied.
#[test]
fn the_iterator() {
    let all: Vec<Pair> = (3..8).map(|t| Pair { s: 1, t }).collect();
    let mut told = pairs(&trace(&beside(5))).expect("the rules are kept");
    assert_eq!((told.len(), told.size_hint()), (5, (5, Some(5))));
    assert!(told.clone().eq(all.iter().copied()));
    assert!(told.clone().rev().eq(all.iter().rev().copied()));
    assert_eq!((told.next(), told.next_back(), told.len()), (Some(all[0]), Some(all[4]), 3));
    assert_eq!(format!("{told:?}"), format!("{:?}", &all[1..4]));
    assert_eq!(told.clone().nth(1), Some(all[2]));
    assert!(told.by_ref().eq(all[1..4].iter().copied()));
    assert_eq!((told.next(), told.next_back(), told.len()), (None, None, 0));
    assert_eq!(format!("{told:?}"), "[]");
}

/// The number of pairs of positions that are close, counted one by one.
#[test]
fn the_most_pairs_are_those_of_all_close_positions() {
    let mut most = 0;
    for n in 0..1_000 {
        assert_eq!(max_pairs(n), most);
        most += (0..n).filter(|s| n - s <= 256).count();
    }
    for n in [MAX_EVENTS, MAX_EVENTS + 1, usize::MAX] {
        assert_eq!(max_pairs(n), 8_355_712);
    }
}

#[test]
fn at_random_those_of_the_ancestors() {
    let mut rng = Rng::new(41);
    let (mut lists, mut behind, mut sums, mut far, mut refused) = (0, 0, 0, 0, 0);
    for i in 0..1_500 {
        let n = if i % 15 == 0 { 300 + rng.below(500) } else { rng.below(120) };
        let care = rng.one_of(&[0, 50, 95]);
        let mut slow = samples::valid(&mut rng, n, care);
        if rng.chance(1, 4) {
            slow = samples::damage(&mut rng, &slow);
        }
        let trace = proved(&slow);
        // The ordering call holds the rules to the whole trace, whatever is asked.
        let broken = racejudge::reaches(&trace, 0, 0).err().filter(|refusal| refusal.row != 13);
        if let Some(refusal) = broken {
            assert_eq!(pairs(&trace).err(), Some(refusal), "{slow}");
            refused += 1;
            continue;
        }
        let races = races(&trace);
        let close: Vec<_> = races.iter().copied().filter(is_close).collect();
        assert_eq!(listed(&trace), close, "{slow}");
        lists += usize::from(!close.is_empty());
        behind += usize::from(close.iter().any(|pair| pair.1 != close[0].1));
        far += usize::from(close.len() < races.len());
        let is_sum = |p: usize| trace.event(p).and_then(|it| it.kind()) == Some(Kind::Sum);
        sums += usize::from(close.iter().any(|&(s, t)| is_sum(s) || is_sum(t)));
    }
    let met = [lists, behind, sums, far, refused];
    assert!(met.iter().all(|&met| met > 20), "{met:?}");
}

/// What a refusal of the judge hides behind a race is told here.
#[test]
fn a_rule_that_is_broken_behind_a_race_is_refused() {
    let mut events = beside(1);
    events.push(Event::write(9, 5));
    assert!(matches!(judge(&trace(&events)), Ok(Verdict::Race { .. })));
    assert_eq!(pairs(&trace(&events)).err(), Some(Refusal { row: 7, position: 4 }));
}

/// What is lent, with contents of its own.
#[derive(Clone, Debug, PartialEq)]
struct Lent {
    workspace: Vec<u16>,
    earlier: Vec<u16>,
    later: Vec<u16>,
}

impl Lent {
    /// Some cells of the workspace more than so many events need.
    fn new(events: usize, earlier: usize, later: usize) -> Self {
        Lent {
            workspace: vec![7; raw::WORKSPACE + events + 3],
            earlier: vec![7; earlier],
            later: vec![7; later],
        }
    }

    fn pairs(&mut self, trace: &Trace) -> Told<2> {
        let Lent { workspace, earlier, later } = self;
        raw::pairs(trace.kinds(), trace.tasks(), trace.operands(), workspace, earlier, later)
    }

    /// As they are once the call has looked at so many events: that much of the workspace is 0.
    fn cleared(&self, events: usize) -> Self {
        let mut cleared = self.clone();
        cleared.workspace[..raw::WORKSPACE + events].fill(0);
        cleared
    }
}

/// Each slice needs as many cells as there are pairs, and no more are written.
#[test]
fn slices_of_every_length() {
    let trace = trace(&beside(3));
    for earlier in 0..6 {
        for later in 0..6 {
            let mut lent = Lent::new(trace.len(), earlier, later);
            let mut wanted = lent.cleared(trace.len());
            let told = lent.pairs(&trace);
            if earlier.min(later) < 3 {
                assert_eq!((told.code, told.values), (raw::REFUSED, [20, 0]));
            } else {
                assert_eq!((told.code, told.values), (raw::LISTED, [3, 0]));
                wanted.earlier[..3].fill(1);
                wanted.later[..3].copy_from_slice(&[3, 4, 5]);
            }
            assert!(lent == wanted, "{earlier} {later}");
        }
    }
}

/// Any trace, and slices of any lengths: what is written is the list, or nothing.
#[test]
fn slices_at_random() {
    let mut rng = Rng::new(43);
    let mut met = [0; 3];
    for _ in 0..2_000 {
        let n = rng.below(25);
        let mut slow = samples::valid(&mut rng, n, 0);
        if rng.chance(1, 3) {
            slow = samples::damage(&mut rng, &slow);
        }
        let trace = proved(&slow);
        let [earlier, later] = [0, 1].map(|_| rng.below(12));
        let mut lent = Lent::new(trace.len(), earlier, later);
        let mut wanted = lent.cleared(trace.len());
        let told = lent.pairs(&trace);
        let (kind, values) = match pairs(&trace) {
            Ok(list) if list.len() <= earlier.min(later) => {
                for (i, Pair { s, t }) in list.clone().enumerate() {
                    (wanted.earlier[i], wanted.later[i]) = (s as u16, t as u16);
                }
                (usize::from(list.len() == 0), [list.len(), 0])
            }
            Ok(_) => (2, [20, 0]),
            Err(refusal) => (1, [refusal.row, refusal.position]),
        };
        assert_eq!(told.values, values.map(|value| value as u64), "{slow}");
        assert!(lent == wanted, "{slow}");
        met[kind] += 1;
    }
    assert!(met.iter().all(|&met| met > 50), "{met:?}");
}

/// Row 20 comes behind all others, also those of the last event.
#[test]
fn other_rows_come_before_row_20() {
    let race = trace(&beside(1));
    let sizes = Lent::new(race.len(), 0, 0);
    for (row, trace, lent) in [
        (1, Trace::from_slices(&[0, 0], &[0, 0], &[0]), sizes.clone()),
        (2, trace(&vec![Event::read(0, 0); MAX_EVENTS + 1]), sizes.clone()),
        (3, race.clone(), Lent { workspace: vec![7; raw::WORKSPACE], ..sizes }),
    ] {
        let mut after = lent.clone();
        let told = after.pairs(&trace);
        assert_eq!((told.code, told.values), (raw::REFUSED, [row, 0]));
        assert!(after == lent, "row {row} changed what was lent");
    }
    for (last, row) in [
        (Event { kind: 6, task: 0, operand: 0 }, 5),
        (Event::write(7, 5), 7),
        (Event::write(0, 1_024), 8),
        (Event::fork(0, 1_024), 9),
        (Event::fork(0, 1), 10),
        (Event::join(0, 2), 11),
        (Event::halt(0, 1), 12),
    ] {
        let broken = trace(&[&beside(1)[..], &[last]].concat());
        let mut lent = Lent::new(broken.len(), 0, 0);
        let wanted = lent.cleared(broken.len());
        let told = lent.pairs(&broken);
        assert_eq!((told.code, told.values), (raw::REFUSED, [row, 4]));
        assert!(lent == wanted, "row {row}");
    }
}
