//! Ends the test where a linked judge does not come back.

use crate::tally::mismatch;
use std::fmt::Display;
use std::sync::{Arc, Mutex, MutexGuard};
use std::thread;
use std::time::Duration;

/// A call takes milliseconds.
const SECONDS: usize = 20;

/// A trace or a text.
type Input = Arc<dyn Display + Send + Sync>;

/// The call that runs now: the seconds that it was seen to run, its name and what it runs on.
type Running = Option<(usize, String, Input)>;
static RUNNING: Mutex<Running> = Mutex::new(None);

fn running() -> MutexGuard<'static, Running> {
    RUNNING.lock().expect("no thread has panicked")
}

/// Looks once a second. A second in which the whole program was stopped counts as none.
pub fn start() {
    thread::spawn(|| loop {
        thread::sleep(Duration::from_secs(1));
        if let Some((seconds, name, input)) = &mut *running() {
            *seconds += 1;
            if *seconds > SECONDS {
                mismatch(&format!("{name}: no answer after {SECONDS} seconds\non {input}"));
            }
        }
    });
}

pub fn watched<T>(name: &str, input: Input, call: impl FnOnce() -> T) -> T {
    *running() = Some((0, name.to_string(), input));
    let told = call();
    *running() = None;
    told
}
