//! Reads the words of `bench` or `test` as that program will, but needs no library: `start` runs it
//! before it has one proved. It prints nothing where they are right, the usage where --help is among
//! them, and ends with status 2 where they are wrong.

use racejudge_bench::program::trouble;
use racejudge_bench::words;

fn main() {
    let mut given = words::given().into_iter();
    match given.next().as_deref() {
        Some("bench") => _ = words::bench(given.collect()),
        Some("test") => _ = words::test(given.collect()),
        _ => trouble("usage: bench/start bench|test [WORDS..]"),
    }
}
