//! Measures the linked judge, call for pairs, plan reader and conversion beside their peers in one
//! interleaved run, prints the tables and whether the targets are met.
//!
//! Every round goes through all rows and, in each, through all its traces or plans; on each all peers
//! run one after the other in an order drawn anew. A time is the best of all rounds for its trace or
//! plan; what is printed is the mean over these. `--rounds N` and `--traces N` change the counts,
//! `--no-matrix` leaves the slowest peer untimed.

mod peers;
mod rows;
mod tables;

use peers::{Peer, Peers};
use racejudge_bench::ffi;
use racejudge_bench::program::print;
use racejudge_bench::rng::Rng;
use racejudge_bench::words;
use rows::Rows;

/// The matrix is timed on the first trace of a row only, and in the first rounds.
const MATRIX_ROUNDS: usize = 3;

fn skip(peer: Peer, input: usize, round: usize, matrix: bool) -> bool {
    peer == Peer::Ancestors && !(matrix && input == 0 && round < MATRIX_ROUNDS)
}

/// One round over all rows.
fn go_round(peers: &mut Peers, rows: &mut Rows, round: usize, matrix: bool, rng: &mut Rng) {
    for row in rows.all() {
        for input in 0..row.inputs() {
            let mut order = row.peers.to_vec();
            rng.shuffle(&mut order);
            for peer in order {
                if !skip(peer, input, round, matrix) {
                    row.measure(peers, peer, input);
                }
            }
        }
    }
}

fn main() {
    let words::Bench { rounds, traces, matrix } = words::bench(words::given());
    let mut rng = Rng::new(1);
    let mut peers = Peers::new();
    print(&format!("judge: {}\n", ffi::LINKED));
    let mut rows = Rows::new(&mut peers, traces, &mut rng);
    print(&format!(
        "all judges, calls for pairs and conversions agree on every trace, all readers on every plan; \
         {rounds} rounds\n"
    ));
    for round in 0..rounds {
        go_round(&mut peers, &mut rows, round, matrix, &mut rng);
    }
    print(&tables::all(&rows));
    print(&tables::summary(&rows));
}
