//! What the tests share: the command's runs, files to run it on, a strict reader of JSON, cards.

// Each test file uses a part of it.
#![allow(dead_code)]

pub mod cards;
pub mod json;

use racejudge::{Event, Trace};
use racejudge_bench::rng::Rng;
use racejudge_bench::trace as slow;
use std::ffi::OsStr;
use std::fs;
use std::ops::Deref;
use std::path::{Path, PathBuf};
use std::process::{self, Command, Output, Stdio};
use std::sync::atomic::{AtomicUsize, Ordering};

/// Document 01's example.
pub const DOCUMENT: &str = "T0|fork(T1)|10\nT1|w(V5)|20\nT0|r(V5)|30\n";

/// The command, with nothing on its standard input.
pub fn judge<S: AsRef<OsStr>>(arguments: impl IntoIterator<Item = S>) -> Command {
    let mut command = Command::new(env!("CARGO_BIN_EXE_judge"));
    command.args(arguments).stdin(Stdio::null());
    command
}

/// What a run said.
#[derive(Debug, PartialEq)]
pub struct Said {
    pub status: i32,
    pub out: String,
    pub err: String,
}

impl From<Output> for Said {
    fn from(output: Output) -> Self {
        let text = |bytes| String::from_utf8(bytes).expect("the command writes UTF-8");
        Said {
            status: output.status.code().expect("the command ends by itself"),
            out: text(output.stdout),
            err: text(output.stderr),
        }
    }
}

/// Runs the command to its end.
pub fn run<S: AsRef<OsStr>>(arguments: impl IntoIterator<Item = S>) -> Said {
    finish(&mut judge(arguments))
}

/// Runs `plan` with options on one file.
pub fn plan(options: &[&str], path: impl AsRef<OsStr>) -> Said {
    let options = options.iter().map(OsStr::new);
    run([OsStr::new("plan")].into_iter().chain(options).chain([path.as_ref()]))
}

pub fn finish(command: &mut Command) -> Said {
    command.output().expect("the command can be started").into()
}

/// A file or a folder for a test alone, which goes with its last use.
pub struct Temporary {
    folder: PathBuf,
    path: PathBuf,
}

impl Deref for Temporary {
    type Target = PathBuf;

    fn deref(&self) -> &PathBuf {
        &self.path
    }
}

impl AsRef<OsStr> for Temporary {
    fn as_ref(&self) -> &OsStr {
        self.path.as_ref()
    }
}

impl Drop for Temporary {
    fn drop(&mut self) {
        fs::remove_dir_all(&self.folder).expect("a folder can be removed");
    }
}

/// An empty folder.
pub fn folder() -> Temporary {
    static NUMBER: AtomicUsize = AtomicUsize::new(0);
    let name = format!("{}-{}", process::id(), NUMBER.fetch_add(1, Ordering::Relaxed));
    let folder = Path::new(env!("CARGO_TARGET_TMPDIR")).join(name);
    fs::create_dir_all(&folder).expect("a folder can be made");
    Temporary { path: folder.clone(), folder }
}

/// A file with this content, alone in a folder.
pub fn file(content: impl AsRef<[u8]>) -> Temporary {
    let mut file = folder();
    file.path.push("trace");
    fs::write(&file.path, content).expect("a file can be written");
    file
}

/// The binary form of these events.
pub fn binary(events: impl IntoIterator<Item = Event>) -> Vec<u8> {
    let trace: Trace = events.into_iter().collect();
    trace.to_binary().expect("few events")
}

/// A plan at random, of few locations.
pub fn plan_at_random(rng: &mut Rng, depth: usize) -> String {
    let operator = match rng.below(5) {
        1 | 2 if depth > 0 => "S",
        3 | 4 if depth > 0 => "P",
        _ => return format!("{}{}", ["r", "w", "s"][rng.below(3)], rng.one_of(&[0, 7, 10, 1_023])),
    };
    let [left, right] = [0, 1].map(|_| plan_at_random(rng, depth - 1));
    format!("{operator}({left},{right})")
}

/// A plan of so many leaves, as flat as it can be.
pub fn balanced(operator: char, leaves: usize) -> String {
    if leaves == 1 {
        return "r7".to_string();
    }
    let (left, right) = (leaves / 2, leaves - leaves / 2);
    format!("{operator}({},{})", balanced(operator, left), balanced(operator, right))
}

/// The slow judge's trace for the library.
pub fn proved(trace: &slow::Trace) -> Trace {
    Trace::from_slices(&trace.kinds, &trace.tasks, &trace.operands)
}
