//! What an event that breaks a rule collides with.

use super::refusal::{Hint, Reason};
use crate::phrases::{grouped, tasks};
use crate::study::Scene;
use racejudge::{Event, Kind, LOCATIONS, TASKS};

/// Where a task is when an event is refused.
enum Whereabouts {
    /// No task has such a number.
    Nowhere,
    /// It was not forked; the event that forks it later, if there is one.
    Unborn(Option<usize>),
    Running,
    /// It waits for its child to halt.
    Paused,
    Halted(usize),
    Joined(usize),
}

impl Whereabouts {
    /// Before event p, with which the graph ends.
    fn of(scene: &Scene, task: u16, p: usize) -> Self {
        let graph = &scene.graph;
        let forks = |event: Event| event.kind() == Some(Kind::Fork) && event.operand == task;
        if usize::from(task) >= TASKS {
            Whereabouts::Nowhere
        } else if let Some(join) = graph.joined_at(task) {
            Whereabouts::Joined(join)
        } else if let Some(halt) = graph.halted_at(task) {
            Whereabouts::Halted(halt)
        } else if graph.active_before(p).last() == Some(&task) {
            Whereabouts::Running
        } else if task == 0 || graph.forked_at(task).is_some() {
            Whereabouts::Paused
        } else {
            let mut later = p..scene.trace.len();
            Whereabouts::Unborn(later.find(|&q| scene.trace.event(q).is_some_and(forks)))
        }
    }

    /// A sentence on the task.
    fn tell(&self, scene: &Scene, task: u16) -> String {
        match self {
            Whereabouts::Nowhere => {
                format!(
                    "There is no task {task}: the numbers of tasks go from 0 to {}.",
                    grouped(TASKS - 1)
                )
            }
            Whereabouts::Unborn(None) => format!("Task {task} was never forked."),
            Whereabouts::Unborn(Some(fork)) => {
                format!("Task {task} is forked only later, by {}.", scene.mention(*fork))
            }
            Whereabouts::Running => format!("Task {task} is running."),
            Whereabouts::Paused => format!("Task {task} is paused until its child has halted."),
            Whereabouts::Halted(halt) => {
                format!("Task {task} has halted: {}.", put_in(scene, *halt))
            }
            Whereabouts::Joined(join) => {
                let by = scene.task(*join);
                format!(
                    "Task {task} has halted, and task {by} has joined it: {}.",
                    scene.mention(*join)
                )
            }
        }
    }
}

/// A halt, and where it has no line of its own, what put it in.
fn put_in(scene: &Scene, halt: usize) -> String {
    let acts = |&p: &usize| scene.trace.event(p).is_some_and(|e| e.kind() != Some(Kind::Halt));
    match (scene.trace.place(halt), (halt..scene.trace.len()).find(acts)) {
        (Some(place), Some(next)) => {
            let (line, task) = (place.line + 1, scene.task(next));
            format!("event {halt}, put in because task {task} acts again in line {line}")
        }
        _ => format!("event {halt}"),
    }
}

/// What event p, refused by this row, collides with.
pub fn collision(scene: &Scene, row: usize, p: usize) -> Reason {
    let Some(event) = scene.trace.event(p) else {
        return Reason { state: Vec::new(), hint: Hint::default() };
    };
    let (state, cause) = match row {
        5 => (unknown_kind(event.kind), OTHER_PROGRAM),
        6 => (ended(scene), TWO_RUNS),
        7 => not_running(scene, event.task, p),
        8 => (above("locations", event.operand, LOCATIONS), LARGE_NUMBERS),
        9 => (above("tasks", event.operand, TASKS), LARGE_NUMBERS),
        10 => used(scene, event.operand),
        11 => not_neighbour(scene, event.operand, p),
        _ => not_resuming(scene, event.operand, p),
    };
    let advice = if cause == STORED { CONVERT } else { "" };
    Reason { state, hint: Hint { cause, advice } }
}

const OTHER_PROGRAM: &str = "the program that wrote the file does not know the binary form";
const TWO_RUNS: &str = "two runs stand in one file, or the recorder wrote on after the end";
const LARGE_NUMBERS: &str = "the recorder does not count tasks and locations from 0";
const USED_AGAIN: &str =
    "the recorder gives numbers of ended tasks to new ones, or two runs stand in one file";
const NUMBERED_FROM_0: &str = "the recorder gives the number 0 to another task than the first";
const NOT_SERIAL: &str =
    "the trace is not of a serial run, where a child runs to its end before its parent acts again";
const NO_HALT: &str = "a halt is missing, or events stand in the wrong order";
const NO_FORK: &str = "its fork was not recorded, or its number is wrong";
const WRONG_ORDER: &str = "events stand in the wrong order";
const WRONG_NUMBER: &str = "the number of the joined task is wrong";
const NO_JOIN: &str = "a join is missing, or joins stand in the wrong order";
const JOINED_TWICE: &str = "the join was recorded twice, or its number is wrong";
const STORED: &str = "the trace was stored when the operand of every halt was 0";
const NAMES_ITSELF: &str = "the recorder names the task that halts, and not the one that resumes";
const WRONG_RESUMED: &str = "the number of the task that resumes is wrong";

const CONVERT: &str = "`judge convert OLD NEW` brings such a trace over.";

fn unknown_kind(kind: u8) -> Vec<String> {
    let names = Kind::ALL.map(|kind| format!("{} {kind}", kind.number())).join(", ");
    vec![format!("Its kind is {kind}. The kinds are {names}.")]
}

fn ended(scene: &Scene) -> Vec<String> {
    let halt = scene.graph.halted_at(0).unwrap_or_default();
    vec![format!("Task 0 halted at event {halt}. Nothing may follow that.")]
}

fn above(what: &str, number: u16, end: usize) -> Vec<String> {
    vec![format!("{number} is too large: the numbers of {what} go from 0 to {}.", grouped(end - 1))]
}

/// Row 10.
fn used(scene: &Scene, child: u16) -> (Vec<String>, &'static str) {
    let Some(fork) = scene.graph.forked_at(child) else {
        return (vec![format!("Task {child} is there from the start.")], NUMBERED_FROM_0);
    };
    let (by, fork) = (scene.task(fork), scene.mention(fork));
    (vec![format!("Task {by} has forked task {child} before: {fork}.")], USED_AGAIN)
}

/// Row 7.
fn not_running(scene: &Scene, actor: u16, p: usize) -> (Vec<String>, &'static str) {
    let running = scene.graph.active_before(p).last().copied().unwrap_or_default();
    let whereabouts = Whereabouts::of(scene, actor, p);
    let cause = match whereabouts {
        Whereabouts::Nowhere => LARGE_NUMBERS,
        Whereabouts::Unborn(None) => NO_FORK,
        Whereabouts::Unborn(Some(_)) => WRONG_ORDER,
        Whereabouts::Paused => NO_HALT,
        _ => NOT_SERIAL,
    };
    let runs = format!("Only the running task may act, and that is task {running}.");
    (vec![runs, whereabouts.tell(scene, actor)], cause)
}

/// Row 11.
fn not_neighbour(scene: &Scene, named: u16, p: usize) -> (Vec<String>, &'static str) {
    let left = scene.graph.left_before(p);
    let neighbour = match left.last() {
        Some(nearest) => format!("Here that is task {nearest}."),
        None => "Here there is none.".to_string(),
    };
    let rule = "A left neighbour is the last task to halt of those that are not joined.";
    let whereabouts = Whereabouts::of(scene, named, p);
    let mut state = vec![format!("{rule} {neighbour}"), whereabouts.tell(scene, named)];
    let cause = match whereabouts {
        Whereabouts::Nowhere => LARGE_NUMBERS,
        Whereabouts::Unborn(None) => NO_FORK,
        Whereabouts::Unborn(Some(_)) => WRONG_ORDER,
        Whereabouts::Joined(_) => JOINED_TWICE,
        Whereabouts::Running | Whereabouts::Paused => WRONG_NUMBER,
        Whereabouts::Halted(_) => {
            let nearer = left.iter().rev().copied().take_while(|&task| task != named);
            state.push(first_joined(nearer.collect()));
            NO_JOIN
        }
    };
    (state, cause)
}

/// Row 12.
fn not_resuming(scene: &Scene, named: u16, p: usize) -> (Vec<String>, &'static str) {
    let Some(resumes) = scene.graph.parent_before(p) else {
        let end = "When task 0 halts no task resumes, so the operand must be 0.";
        return (vec![format!("{end} Here it is {named}.")], OTHER_PROGRAM);
    };
    let rule = "A halt names the task that resumes, the parent of the one that halts.";
    let found = format!("Here that is task {resumes}, but task {named} is named.");
    let whereabouts = Whereabouts::of(scene, named, p);
    let cause = match whereabouts {
        _ if named == 0 => STORED,
        Whereabouts::Nowhere => LARGE_NUMBERS,
        Whereabouts::Running => NAMES_ITSELF,
        _ => WRONG_RESUMED,
    };
    (vec![format!("{rule} {found}"), whereabouts.tell(scene, named)], cause)
}

fn first_joined(nearer: Vec<u16>) -> String {
    let in_order = if nearer.len() > 1 { ", in this order" } else { "" };
    format!("Before it {} must be joined{in_order}.", tasks(&nearer))
}
