//! The words against definitions of what they say, on lines and traces at random.

mod common;

use common::json::Json;
use common::{binary, file, proved, run, DOCUMENT};
use judge::explain::{judged, Refused};
use judge::recording::Recording;
use judge::study::Study;
use racejudge::{Kind, Refusal, Trace, Verdict};
use racejudge_bench::line::{names_resumed, Line};
use racejudge_bench::rng::Rng;
use racejudge_bench::samples;
use racejudge_bench::sight::Run;
use racejudge_bench::trace::{self as slow, READ, SUM};

/// Lines of the form. What follows the beginning of any line may be what follows some beginning of
/// one of these: a number may end behind each of its digits.
const LINES: [&str; 4] = ["T0|r(V0)|0", "T0|w(V0)|0", "T0|fork(T0)|0", "T0|join(T0)|0"];

/// A line that stands before the ones that are tried.
const BEFORE: &[u8] = b"T0|r(V1)|1\n";

/// Whether the proved reader takes the bytes, with a line feed behind them, for a line.
fn is_line(bytes: &[u8]) -> bool {
    !bytes.contains(&b'\n') && Trace::from_text([bytes, b"\n"].concat()).is_ok()
}

/// Whether some continuation makes a line of the bytes.
fn is_beginning(bytes: &[u8]) -> bool {
    let mut ends = LINES.iter().flat_map(|line| (0..=line.len()).map(|at| &line.as_bytes()[at..]));
    ends.any(|end| is_line(&[bytes, end].concat()))
}

/// The first byte with which the line is no longer the beginning of one of the form.
fn first_misfit(line: &[u8]) -> usize {
    (1..=line.len()).find(|&end| !is_beginning(&line[..end])).map_or(line.len(), |end| end - 1)
}

/// A line of the form, with numbers of all lengths; some are at the bound, and may be above it.
fn line(rng: &mut Rng) -> Vec<u8> {
    let mut number = || match rng.below(7) {
        6 => 65_530 + rng.below(12),
        digits => rng.below(10_usize.pow(digits as u32).min(65_536)),
    };
    let (task, operand, source) = (number(), number(), number());
    let operation = ["r(V", "w(V", "fork(T", "join(T"][rng.below(4)];
    format!("T{task}|{operation}{operand})|{source}").into_bytes()
}

/// Noise, or a line of the form with some bytes changed, put in, taken out or cut off.
fn damaged(rng: &mut Rng) -> Vec<u8> {
    const BYTES: &[u8] = b"TV|()rwforkjin0123456789000xXaFtv \t\r\x01\x7f\xef\xff";
    let byte = |rng: &mut Rng| BYTES[rng.below(BYTES.len())];
    if rng.chance(1, 8) {
        return (0..rng.below(12)).map(|_| byte(rng)).collect();
    }
    let mut line = line(rng);
    for _ in 0..rng.below(4) {
        let at = rng.below(line.len());
        match rng.below(4) {
            0 if !line.is_empty() => line[at] = byte(rng),
            1 if !line.is_empty() => _ = line.remove(at),
            2 => line.truncate(at),
            _ => line.insert(at, byte(rng)),
        }
    }
    line
}

/// The recording of a text, and its refusal.
fn refused(text: Vec<u8>) -> (Recording, Option<Refusal>) {
    let recording = Recording::of(text).expect("it is a text");
    let refusal = recording.trace.as_ref().err().copied();
    (recording, refusal)
}

#[test]
fn the_mark_stands_at_the_first_byte_that_does_not_fit() {
    let mut rng = Rng::new(1);
    let mut places = [0; 27];
    for _ in 0..8_000 {
        let (line, end) = (damaged(&mut rng), ["\n", ""][rng.below(2)]);
        let (recording, refusal) = refused([BEFORE, &line, end.as_bytes()].concat());
        let Some(refusal) = refusal else {
            assert!(is_line(&line) || line.is_empty(), "{line:?}");
            continue;
        };
        assert_eq!((refusal.row, refusal.position), (14, 1), "{line:?}");
        let Refused::Line(shown, misfit) = Refused::of(&recording, None, &refusal) else {
            panic!("{line:?}");
        };
        assert_eq!((shown, misfit.at), (&line[..], first_misfit(&line)), "{line:?}");
        places[misfit.at] += 1;
        // A file that breaks off is told as that, and nothing else is.
        let breaks_off = end.is_empty() && misfit.at == line.len();
        assert_eq!(misfit.found.starts_with("the file "), breaks_off, "{line:?}");
        let whole = is_line(&line);
        assert_eq!(misfit.hint.cause.contains("breaks off"), breaks_off && !whole, "{line:?}");
    }
    assert!(places[..16].iter().all(|&place| place > 50), "{places:?}");
}

/// The sentences for programs are the words beneath the line with a large letter, which no letter
/// of the form has taken.
#[test]
fn what_is_found_begins_with_a_word_and_fits_in_a_row() {
    let mut rng = Rng::new(2);
    for _ in 0..8_000 {
        let before = if rng.chance(1, 2) { BEFORE } else { b"" };
        let (recording, refusal) = refused([before, &damaged(&mut rng), b"\n"].concat());
        let Some(refusal) = refusal else { continue };
        let refused = Refused::of(&recording, None, &refusal);
        let state = refused.reason(&refusal).state.concat();
        assert!(state.starts_with("A ") || state.starts_with("The "), "{state}");
        let Refused::Line(_, misfit) = refused else { panic!("{state}") };
        assert_eq!(state[1..], format!("{}.", &misfit.found[1..]));
        let words = judged(&Study::new(&recording), false);
        assert!(words.contains(&format!("^ {}\n", misfit.found)), "{words}");
        assert!(words.lines().all(|line| line.len() <= 100), "{words}");
    }
}

#[test]
fn the_state_for_programs_keeps_the_letters_of_the_form() {
    let said = run(["--json".as_ref(), file("T0|x(V1)|1\n").as_os_str()]);
    let object = Json::parse(said.out.trim_end()).expect("it is JSON");
    assert_eq!(object.field("text_line").field("byte").number(), 3);
    let state = r#"["The operation should be r, w, fork or join."]"#;
    assert_eq!(object.field("state"), &Json::parse(state).unwrap());
}

/// Races of traces that may break a rule behind it, with the first rule that each breaks.
fn races(seed: u64, tries: usize, events: usize) -> Vec<(Trace, Option<Refusal>)> {
    let mut rng = Rng::new(seed);
    let mut races = Vec::new();
    for _ in 0..tries {
        let n = 1 + rng.below(events);
        let care = rng.below(101);
        let mut trace = samples::valid(&mut rng, n, care);
        if rng.chance(1, 2) {
            trace = samples::damage(&mut rng, &trace);
        }
        if matches!(racejudge::judge(&proved(&trace)), Ok(Verdict::Race { .. })) {
            races.push((proved(&trace), broken(&trace)));
        }
    }
    races
}

/// The first rule that is broken, by the line kept as a list.
fn broken(trace: &slow::Trace) -> Option<Refusal> {
    let mut line = Line::start(names_resumed);
    (0..trace.len()).find_map(|position| {
        let (task, kind, operand) = trace.event(position);
        line.step(task, kind, operand).err().map(|row| Refusal { row, position })
    })
}

/// What is said of a trace, with its study.
fn told(trace: &Trace, mut check: impl FnMut(&Study, &str)) {
    let recording = Recording::of(trace.to_binary().expect("few events")).expect("it is whole");
    let study = Study::new(&recording);
    check(&study, &judged(&study, false))
}

#[test]
fn a_race_says_that_it_is_the_first_and_which_rule_is_broken_behind_it() {
    let first = "\n\nThis is the first race of the trace. Others may follow once it is mended.\n";
    let mut later = 0;
    for (trace, broken) in races(3, 5_000, 100) {
        told(&trace, |_, words| {
            assert!(words.contains(first), "{words}");
            let rule = "Later a rule is broken too: ";
            let told = words.split_once(rule).and_then(|(_, rest)| rest.split_once(" ("));
            let wanted = broken.map(|it| format!("refused {} {}", it.row, it.position));
            assert_eq!(told.map(|(line, _)| line), wanted.as_deref(), "{words}");
            assert_eq!(words.contains("The trace is refused there, at event"), broken.is_some());
        });
        later += usize::from(broken.is_some());
    }
    assert!(later > 200, "{later} races before a broken rule");
}

#[test]
fn a_rule_that_is_broken_behind_a_race_has_its_line() {
    let words = run([&file(format!("{DOCUMENT}T7|w(V5)|40\n"))]).out;
    let told = "
This is the first race of the trace. Others may follow once it is mended.
Later a rule is broken too: refused 7 4 (the actor is not the running task).
The trace is refused there, at event 4 (line 4), once no race comes before.

Events count from 0, ";
    assert!(words.contains(told), "{words}");
}

/// What is true of a race with a sum, by running its two orders up to the end of the pair; none where
/// the pair has no sum.
fn difference(trace: &slow::Trace, s: usize, t: usize, orders: [&[u16]; 2]) -> Option<String> {
    let sum = [s, t].into_iter().find(|&p| trace.kinds[p] == SUM)?;
    let (other, location) = (s + t - sum, trace.operands[t]);
    let runs = orders.map(|order| {
        let end = order.iter().rposition(|&p| [s, t].contains(&p.into())).expect("the pair");
        Run::of(trace, order[..=end].iter().map(|&p| p.into()))
    });
    let contents = match trace.kinds[other] {
        READ => runs.map(|run| run.sees(other).expect("it has run").clone()),
        _ => runs.map(|run| run.holds(location)),
    };
    let (with, without) = match contents.each_ref().map(|content| content.sums.contains(&sum)) {
        [true, false] => ("first", "second"),
        [false, true] => ("second", "first"),
        both => panic!("{both:?} of {s} {t} in {trace}"),
    };
    Some(match trace.kinds[other] {
        READ => format!(
            "In the {with} order event {other} sees what event {sum} adds, in the {without} it \
             does not."
        ),
        _ => {
            assert!(contents.iter().all(|content| content.write == Some(other)), "{trace}");
            format!(
                "Right after the two, location {location} holds what event {other} writes: in the \
                 {with} order with what event {sum} adds, in the {without} without."
            )
        }
    })
}

#[test]
fn what_is_said_of_sums_is_true() {
    let (mut rng, mut met) = (Rng::new(8), [0; 4]);
    for _ in 0..6_000 {
        let (n, care) = (1 + rng.below(60), rng.one_of(&[0, 60, 100]));
        let slow = samples::valid(&mut rng, n, care);
        let has_sums = slow.kinds.contains(&SUM);
        told(&proved(&slow), |study, words| {
            let words = words.replace('\n', " ");
            match &study.answer {
                Ok(Verdict::Race { s, t, first, second, .. }) => {
                    let difference = difference(&slow, *s, *t, [first, second]);
                    let others =
                        words.contains("Right after the two") || words.contains(" order event ");
                    assert_eq!(others, difference.is_some(), "{words}");
                    assert!(
                        difference.iter().all(|it| words.contains(it)),
                        "{difference:?} {words}"
                    );
                    met[usize::from(difference.is_some())] += 1;
                }
                _ => {
                    let told =
                        words.contains("each read sees the same write and the same sums after it,");
                    assert_eq!(told, has_sums, "{words}");
                    met[2 + usize::from(has_sums)] += 1;
                }
            }
        });
    }
    assert!(met.iter().all(|&count| count > 200), "{met:?}");
}

/// The events of the rows between two phrases; none where some are left out.
fn rows(words: &str, from: &str, to: &str) -> Option<Vec<usize>> {
    let (_, rest) = words.split_once(from)?;
    let (part, _) = rest.split_once(to)?;
    let rows = part.lines().filter_map(|line| line.strip_prefix("  "));
    rows.map(|row| row.strip_prefix("event ")?.split(' ').next()?.parse().ok()).collect()
}

/// The rows lead from task to task, each by the move that the one before it has made, and end with
/// the event: no move that is passed by stands among them.
fn follow(trace: &Trace, rows: &[usize], mut task: u16, end: usize) {
    let event = |p: usize| trace.event(p).expect("it is there");
    let (last, moves) = rows.split_last().expect("there is a row");
    let mut halted = None;
    for &p in moves {
        let it = event(p);
        match (it.kind(), halted) {
            (Some(Kind::Fork), None) if it.task == task => task = it.operand,
            (Some(Kind::Halt), None) if it.task == task => halted = Some(task),
            (Some(Kind::Join), Some(joined)) if it.operand == joined => {
                (task, halted) = (it.task, None);
            }
            _ => panic!("{p} among {rows:?} of {trace:?}"),
        }
    }
    assert_eq!((*last, event(*last).task, halted), (end, task, None), "{rows:?} of {trace:?}");
}

#[test]
fn the_ways_show_only_where_they_go_over_to_another_task() {
    let (mut shown, mut passed) = (0, 0);
    for (trace, _) in races(4, 4_000, 100) {
        let is_move =
            |&&p: &&usize| trace.event(p).unwrap().kind().is_some_and(|it| !it.is_access());
        told(&trace, |study, words| {
            let why = study.why.as_ref().expect("a race has a reason");
            let fork = trace.event(why.parted).expect("it is there");
            let to_s = rows(words, "the child's side leads", "and the parent's");
            let to_t = rows(words, "and the parent's side", "The two sides");
            for (rows, task, path) in
                [(to_s, fork.operand, &why.to_s), (to_t, fork.task, &why.to_t)]
            {
                let Some(rows) = rows else { continue };
                assert!(rows.iter().all(|p| path.contains(p)), "{rows:?} of {path:?}");
                follow(&trace, &rows, task, *path.last().expect("a path has an end"));
                shown += rows.len() - 1;
                passed += path[1..].iter().filter(is_move).count() + 1 - rows.len();
            }
        });
    }
    assert!(shown > 500 && passed > 500, "{shown} shown, {passed} passed by");
}

#[test]
fn a_way_that_is_long_is_cut_and_says_who_has_it() {
    let forks: String = (2..40).map(|k| format!("T{k}|fork(T{})|1\n", k + 1)).collect();
    let text = format!("T0|fork(T1)|1\nT1|w(V5)|1\nT0|fork(T2)|1\n{forks}T40|r(V5)|1\n");
    let words = run([&file(text)]).out;
    assert!(words.contains("\n  (28 rows left out; --json has all)\n"), "{words}");
}

#[test]
fn a_path_within_a_task_needs_no_move() {
    let text = file("T0|fork(T1)|1\nT1|w(V5)|2\nT0|join(T1)|3\nT0|fork(T2)|4\nT0|r(V5)|5\n");
    let ask = |p: &str, q: &str| {
        let said = run(["order".as_ref(), text.as_os_str(), p.as_ref(), q.as_ref()]);
        assert_eq!(said.status, 0);
        said.out
    };
    let words = ask("0", "6");
    assert!(words.contains("Both are of task 0, and a task acts in the order of"), "{words}");
    let words = ask("1", "6");
    let way = "It goes over from task to task here:\n\n  \
               event 2            task 1 halts, task 0 resumes\n  \
               event 3   line 3   task 0 joins task 1\n  event 6   line 5   task 0 reads location 5\n";
    assert!(words.contains(way), "{words}");
}

#[test]
fn where_there_is_no_event_nothing_can_race() {
    for content in [Vec::new(), binary([])] {
        let said = run([&file(content)]);
        let wanted = "clean 0\n\nThere is no event in the file, so nothing can race.\n";
        assert_eq!((said.status, said.out.as_str()), (0, wanted));
    }
}
