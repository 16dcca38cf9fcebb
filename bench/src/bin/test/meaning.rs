//! What the answers are about, by running orders of the events: of a clean trace each read sees the
//! same last write and the same sums after it in every order that keeps the arcs, and so does each
//! location at the end; of a race the two orders differ in that.

use racejudge_bench::ancestors::{arcs, Outcome};
use racejudge_bench::rng::Rng;
use racejudge_bench::sight::Run;
use racejudge_bench::trace::*;

/// So many orders of a clean trace are tried.
const ORDERS: usize = 3;

/// Why an outcome does not mean what it says, if so.
pub fn fault(rng: &mut Rng, trace: &Trace, outcome: &Outcome<Answer>) -> Option<String> {
    match (outcome.said, &outcome.orders) {
        (Answer::Clean, _) => {
            let arcs = arcs(trace);
            (0..ORDERS).find_map(|_| changed(trace, drawn(rng, &arcs)))
        }
        (Answer::Race(s, t), Some((first, second))) => {
            let [one, other] = [first, second].map(|order| through(trace, order, [s, t]));
            (one == other).then(|| format!("{s} and {t} may come in either order"))
        }
        _ => None,
    }
}

/// Says so if something is not in this order as it is in position order.
fn changed(trace: &Trace, order: Vec<usize>) -> Option<String> {
    let is_same = Run::of(trace, order.clone()) == Run::of(trace, 0..trace.len());
    (!is_same).then(|| format!("a read or a location differs in the order {order:?}"))
}

/// Any order of the events that keeps all arcs, of which the starts are given for each event.
fn drawn(rng: &mut Rng, arcs: &[[Option<usize>; 2]]) -> Vec<usize> {
    let (mut order, mut done) = (Vec::new(), vec![false; arcs.len()]);
    while order.len() < arcs.len() {
        let is_next = |&p: &usize| !done[p] && arcs[p].iter().flatten().all(|&start| done[start]);
        let next: Vec<usize> = (0..arcs.len()).filter(is_next).collect();
        let p = next[rng.below(next.len())];
        done[p] = true;
        order.push(p);
    }
    order
}

/// What the location of a pair holds right after it in an order, and what the reads of the pair see.
fn through(trace: &Trace, order: &[u16], pair: [usize; 2]) -> impl PartialEq {
    let order: Vec<usize> = order.iter().map(|&p| p.into()).collect();
    let end = order.iter().rposition(|p| pair.contains(p)).expect("the pair is in its orders");
    let run = Run::of(trace, order[..=end].iter().copied());
    (run.holds(trace.operands[pair[0]]), pair.map(|p| run.sees(p).cloned()))
}
