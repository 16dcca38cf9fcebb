//! Counts what passes. Whether the test comes to its end, a check fails or the program panics, the last
//! line is `N passed, M failed`; M is 0 at the end alone.

use racejudge_bench::program::print;
use std::panic;
use std::process::exit;
use std::sync::atomic::{AtomicUsize, Ordering::SeqCst};
use std::sync::Mutex;

static PASSED: AtomicUsize = AtomicUsize::new(0);
static PART: Mutex<&str> = Mutex::new("");

/// A panic counts as a failure, and ends the program as any other does.
pub fn start() {
    let tell = panic::take_hook();
    panic::set_hook(Box::new(move |panic| {
        tell(panic);
        end_failed("PANIC: standard error has it", 101)
    }));
}

/// One part of the test: it passes if it comes back.
pub fn part(name: &'static str, run: impl FnOnce()) {
    counted(name, run);
    print(&format!("passed: {name}\n"));
}

/// One part that plants wrong things and hands back how many were noticed: each of them passes too.
pub fn noticed(name: &'static str, run: impl FnOnce() -> usize) {
    let count = counted(name, run);
    PASSED.fetch_add(count, SeqCst);
    print(&format!("passed: {name}: {count} noticed\n"));
}

fn counted<T>(name: &'static str, run: impl FnOnce() -> T) -> T {
    *PART.lock().expect("no part panics while it is named") = name;
    let result = run();
    PASSED.fetch_add(1, SeqCst);
    result
}

/// Ends the test where all of it has passed.
pub fn end() -> ! {
    let passed = PASSED.load(SeqCst);
    print(&format!("{passed} passed, 0 failed\n"));
    exit(if passed > 0 { 0 } else { 1 })
}

/// Ends the test where what it checks does not hold.
pub fn fail(text: &str) -> ! {
    end_failed(text, 1)
}

pub fn mismatch(text: &str) -> ! {
    fail(&format!("MISMATCH: {text}"))
}

fn end_failed(text: &str, status: i32) -> ! {
    let part = PART.try_lock().map_or("", |part| *part);
    let passed = PASSED.load(SeqCst);
    print(&format!("{text}\nfailed: {part}\n{passed} passed, 1 failed\n"));
    exit(status)
}
