//! The words of the command lines. Every program reads its own by the function here that has its
//! name, and so does the program `words`, which `start` runs before anything is proved or built.

use crate::program::{print, trouble};
use std::process::exit;

pub struct Bench {
    pub rounds: usize,
    pub traces: usize,
    pub matrix: bool,
}

pub fn bench(given: Vec<String>) -> Bench {
    let usage = "bench/run [--rounds N] [--traces N] [--no-matrix]";
    let mut words = Words::new(usage, given);
    let (rounds, traces) = (words.number("--rounds", 60), words.number("--traces", 6));
    let matrix = !words.has("--no-matrix");
    words.end();
    Bench { rounds, traces, matrix }
}

pub struct Test {
    pub seed: usize,
    pub times: usize,
}

pub fn test(given: Vec<String>) -> Test {
    let mut words = Words::new("bench/test [--seed N] [--times N]", given);
    let (seed, times) = (words.number("--seed", 1), words.number("--times", 1));
    words.end();
    Test { seed, times }
}

pub fn slow(given: Vec<String>) {
    Words::new("bench/slow < TEXT", given).end();
}

/// The words that the program was given.
pub fn given() -> Vec<String> {
    std::env::args_os().skip(1).map(|word| word.to_string_lossy().into_owned()).collect()
}

/// The words of a command line that no one has asked for yet.
struct Words {
    usage: &'static str,
    left: Vec<String>,
}

impl Words {
    /// Where --help is among the words, the usage is printed and the program ends.
    fn new(usage: &'static str, given: Vec<String>) -> Self {
        let mut words = Words { usage, left: given };
        if words.has("--help") {
            print(&format!("usage: {usage}\n"));
            exit(0);
        }
        words
    }

    /// Whether the word is there.
    fn has(&mut self, word: &str) -> bool {
        let at = self.left.iter().position(|other| other == word);
        at.map(|at| self.left.remove(at)).is_some()
    }

    /// The number from 1 on that follows the word; `default` where the word is not there.
    fn number(&mut self, word: &str, default: usize) -> usize {
        let Some(at) = self.left.iter().position(|other| other == word) else {
            return default;
        };
        let number = self.left.get(at + 1).and_then(|number| number.parse().ok());
        let Some(number) = number.filter(|&number| number > 0) else {
            self.refuse();
        };
        self.left.drain(at..at + 2);
        number
    }

    /// No other word may be left.
    fn end(self) {
        if !self.left.is_empty() {
            self.refuse();
        }
    }

    fn refuse(&self) -> ! {
        trouble(&format!("usage: {}", self.usage))
    }
}
