//! The links of the table of joins: up to the most, at a race, with a refusal, and at random against
//! a table that counts by walking.

use racejudge::raw::{self, Told};
use racejudge::{judge, Card, Event, Refusal, Trace, Verdict, LOCATIONS, MAX_LINKS};
use racejudge_bench::ancestors::Ancestors;
use racejudge_bench::builder::Builder;
use racejudge_bench::rng::Rng;
use racejudge_bench::workloads::{join_equals, join_group};
use racejudge_bench::{samples, trace as slow};

fn proved(trace: &slow::Trace) -> Trace {
    Trace::from_slices(&trace.kinds, &trace.tasks, &trace.operands)
}

/// Task 0 and others join trees of equal size, so that a chain of so many links grows.
fn chain(links: usize) -> Trace {
    let mut b = Builder::default();
    join_equals(&mut b, links as u32, &mut |_, _| {});
    proved(&b.trace)
}

/// What the judge tells, with cards and without.
fn told(trace: &Trace) -> Told<3> {
    let (kinds, tasks, operands, n) = (trace.kinds(), trace.tasks(), trace.operands(), trace.len());
    let workspace = &mut vec![7; raw::WORKSPACE + n];
    let (first, second) = (&mut vec![7; n], &mut vec![7; n]);
    let cards = &mut [Card::UNTOUCHED; LOCATIONS];
    let told = raw::judge(kinds, tasks, operands, workspace, first, second);
    let carded = raw::judge_cards(kinds, tasks, operands, workspace, first, second, cards);
    assert_eq!(told, carded);
    told
}

#[test]
fn chains_of_every_length() {
    for links in 0..=MAX_LINKS {
        assert_eq!(judge(&chain(links)), Ok(Verdict::Clean { links }));
        assert_eq!(told(&chain(links)).values, [0, 0, links as u64]);
    }
}

/// Those at t, though s comes before the first join, and a longer chain behind t.
#[test]
fn a_race_has_the_links_at_its_end() {
    let mut b = Builder::default();
    b.fork();
    b.write(5);
    b.halt();
    join_equals(&mut b, 3, &mut |_, _| {});
    let t = b.trace.len();
    b.write(5);
    join_group(&mut b, 6, &mut |_, _| {});
    let trace = proved(&b.trace);
    let verdict = judge(&trace).expect("no refusal");
    assert!(matches!(verdict, Verdict::Race { s: 1, links: 3, .. }), "{verdict:?}");
    assert_eq!(verdict.links(), 3);
    assert_eq!(told(&trace).values, [1, t as u64, 3]);
}

#[test]
fn a_refusal_has_none() {
    let mut trace = chain(6);
    let n = trace.len();
    trace.push(Event::join(0, 1));
    assert_eq!(judge(&trace), Err(Refusal { row: 11, position: n }));
    assert_eq!(told(&trace).values, [11, n as u64, 0]);
}

#[test]
fn at_random_those_of_a_table_that_walks() {
    let (mut rng, mut slow) = (Rng::new(21), Ancestors::default());
    let mut met = [0; MAX_LINKS + 1];
    for _ in 0..2_000 {
        let (n, care) = (rng.below(400), rng.one_of(&[0, 100]));
        let mut trace = samples::valid(&mut rng, n, care);
        if rng.chance(1, 5) {
            trace = samples::damage(&mut rng, &trace);
        }
        let n = trace.len();
        let wanted = slow.judge(&trace, raw::WORKSPACE + n, n, n).links;
        let verdict = judge(&proved(&trace));
        assert_eq!(verdict.map_or(0, |verdict| verdict.links()), wanted, "{trace}");
        assert_eq!(told(&proved(&trace)).values[2], wanted as u64, "{trace}");
        met[wanted] += 1;
    }
    assert!(met[..4].iter().all(|&count| count > 10), "{met:?}");
}
