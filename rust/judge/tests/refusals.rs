//! Each refusal that a file can meet, and what is said of it.

mod common;

use common::{binary, file, run, DOCUMENT};
use racejudge::{Event, MAX_EVENTS, MAX_TEXT_EVENTS};

/// The file is refused with this line, and each of these is among the words.
#[track_caller]
fn refused(content: impl AsRef<[u8]>, line: &str, words: &[&str]) {
    let said = run([&file(content)]);
    assert_eq!((said.status, said.out.lines().next(), said.err.as_str()), (2, Some(line), ""));
    // Long sentences are broken into lines.
    let told = said.out.replace('\n', " ");
    for word in words {
        assert!(told.contains(word), "no {word:?} in\n{}", said.out);
    }
}

/// The line is refused by row 14 behind a good one; a mark stands beneath the byte `at` of what is
/// shown of it.
#[track_caller]
fn bad_line(line: &[u8], shown: &str, at: usize, found: &str, hint: &str) {
    let text = [b"T0|fork(T1)|1\n", line].concat();
    let mark = format!("\n  {shown}\n  {}^ {found}\n", " ".repeat(at));
    let said = run([&file(text)]);
    assert_eq!((said.status, said.out.lines().next()), (2, Some("refused 14 1")), "{line:?}");
    assert!(said.out.contains(&mark), "no {mark:?} in\n{}", said.out);
    assert!(said.out.contains("Line 2 of the file (the answer counts from 0)"), "{}", said.out);
    assert!(said.out.replace('\n', " ").contains(hint), "no {hint:?} in\n{}", said.out);
}

#[test]
fn row_2_is_a_trace_that_is_too_long() {
    let reads = binary(std::iter::repeat_n(Event::read(0, 1), MAX_EVENTS + 1));
    refused(
        reads,
        "refused 2 0",
        &["more than 32,768 events", "The trace has 32,769 events, from 0 to 32768."],
    );
}

#[test]
fn row_5_is_an_unknown_kind() {
    for kind in [6, 9, 255] {
        let events = [Event::fork(0, 1), Event { kind, task: 1, operand: 3 }];
        let deed = format!("event 1   task 1 does something of kind {kind} with 3");
        let told =
            format!("Its kind is {kind}. The kinds are 0 read, 1 write, 2 fork, 3 join, 4 halt");
        let words = ["the kind is above 5", &deed, &told, ", 5 sum."];
        refused(binary(events), "refused 5 1", &words);
    }
}

#[test]
fn row_6_is_an_event_after_the_end() {
    for last in [Event::read(0, 1), Event::sum(0, 1)] {
        let events = [Event::read(0, 1), Event::halt(0, 0), last];
        refused(
            binary(events),
            "refused 6 2",
            &["Task 0 halted at event 1.", "two runs stand in one file"],
        );
    }
}

#[test]
fn row_7_is_a_task_that_does_not_run() {
    let runs = "Only the running task may act, and that is task";
    let text = "T0|fork(T1)|1\nT5|r(V1)|2\n";
    let row = "event 1   line 2   task 5 reads location 1   source line 2   T5|r(V1)|2";
    let words = [row, runs, "Task 5 was never forked.", "its fork was not recorded"];
    refused(text, "refused 7 1", &words);
    let text = "T0|fork(T1)|1\nT2|r(V1)|2\nT1|fork(T2)|3\n";
    refused(text, "refused 7 1", &["Task 2 is forked only later, by event 2 (line 3)."]);
    let text = "T0|fork(T1)|1\nT1|r(V1)|2\nT0|r(V1)|3\nT1|r(V1)|4\n";
    let halted = "Task 1 has halted: event 2, put in because task 0 acts again in line 3.";
    refused(text, "refused 7 4", &["that is task 0.", halted, "the trace is not of a serial run"]);
    let text = "T0|fork(T1)|1\nT0|join(T1)|2\nT1|r(V1)|4\n";
    refused(
        text,
        "refused 7 3",
        &["Task 1 has halted, and task 0 has joined it: event 2 (line 2)."],
    );
    refused("T2000|r(V1)|2\n", "refused 7 0", &["There is no task 2000: the numbers of tasks go"]);
    let events = [Event::fork(0, 1), Event::read(0, 1)];
    let words =
        ["that is task 1.", "Task 0 is paused until its child has halted.", "a halt is missing"];
    refused(binary(events), "refused 7 1", &words);
    let events = [Event::fork(0, 1), Event::halt(1, 0), Event::read(1, 1)];
    refused(binary(events), "refused 7 2", &["Task 1 has halted: event 1."]);
    let words = ["event 0   task 1 adds to location 0", "Task 1 was never forked."];
    refused(binary([Event::sum(1, 0)]), "refused 7 0", &words);
}

#[test]
fn rows_8_and_9_are_large_numbers() {
    let words = ["2000 is too large: the numbers of locations go from 0 to 1,023."];
    refused("T0|r(V2000)|2\n", "refused 8 0", &words);
    let words =
        ["event 0   task 0 adds to location 1024", "1024 is too large: the numbers of locations"];
    refused(binary([Event::sum(0, 1_024)]), "refused 8 0", &words);
    let words = ["1024 is too large: the numbers of tasks go from 0 to 1,023."];
    refused("T0|fork(T1024)|2\n", "refused 9 0", &words);
}

#[test]
fn row_10_is_a_number_that_was_used() {
    let text = "T0|fork(T1)|1\nT0|fork(T1)|2\n";
    refused(text, "refused 10 2", &["Task 0 has forked task 1 before: event 0 (line 1)."]);
    refused("T0|fork(T0)|1\n", "refused 10 0", &["Task 0 is there from the start."]);
}

#[test]
fn row_11_is_a_join_of_another_than_the_left_neighbour() {
    let text = "T0|fork(T1)|1\nT0|fork(T2)|2\nT0|fork(T3)|2\nT0|join(T1)|3\n";
    let first = "Before it tasks 3 and 2 must be joined, in this order.";
    refused(text, "refused 11 6", &["Here that is task 3.", "Task 1 has halted: event 1", first]);
    let text = "T0|fork(T1)|1\nT0|fork(T2)|2\nT0|join(T1)|3\n";
    refused(text, "refused 11 4", &["Before it task 2 must be joined."]);
    let none = "Here there is none.";
    refused("T0|join(T1)|3\n", "refused 11 0", &[none, "Task 1 was never forked."]);
    refused("T0|join(T0)|3\n", "refused 11 0", &[none, "Task 0 is running."]);
    refused("T0|join(T9999)|3\n", "refused 11 0", &["There is no task 9999"]);
    let text = "T0|fork(T1)|1\nT1|join(T0)|3\n";
    refused(text, "refused 11 1", &[none, "Task 0 is paused until its child has halted."]);
    let text = "T0|fork(T1)|1\nT0|join(T1)|2\nT0|join(T1)|3\n";
    let joined = "Task 1 has halted, and task 0 has joined it: event 2 (line 2).";
    refused(text, "refused 11 3", &[none, joined, "the join was recorded twice"]);
}

/// A nest of three, in which the halt of task 2 names this one.
fn naming(named: u16) -> Vec<u8> {
    binary([Event::fork(0, 1), Event::fork(1, 2), Event::halt(2, named)])
}

#[test]
fn row_12_is_a_halt_that_does_not_name_who_resumes() {
    let resumes = "Here that is task 1, but task 7 is named.";
    let number = "the number of the task that resumes is wrong.";
    let words =
        ["event 2   task 2 halts, task 7 resumes", resumes, "Task 7 was never forked.", number];
    refused(naming(7), "refused 12 2", &words);
    let itself = "the recorder names the task that halts, and not the one that resumes.";
    refused(naming(2), "refused 12 2", &["but task 2 is named.", "Task 2 is running.", itself]);
    let large = ["There is no task 2000", "the recorder does not count tasks and locations from 0"];
    refused(naming(2_000), "refused 12 2", &large);
    let events = [Event::fork(0, 1), Event::halt(1, 0), Event::fork(0, 2), Event::halt(2, 1)];
    let words =
        ["Here that is task 0, but task 1 is named.", "Task 1 has halted: event 1.", number];
    refused(binary(events), "refused 12 3", &words);
    let words = ["When task 0 halts no task resumes, so the operand must be 0. Here it is 3."];
    refused(binary([Event::halt(0, 3)]), "refused 12 0", &words);
    let right = run([&file(naming(1))]);
    assert_eq!((right.status, right.out.lines().next()), (0, Some("clean 3")));
}

/// The other halts with a wrong operand are not of a trace that was stored so.
#[test]
fn row_12_is_a_trace_that_was_stored_with_0() {
    let stored = "Likely cause: the trace was stored when the operand of every halt was 0.";
    let (named, advice) =
        ("but task 0 is named.", "`judge convert OLD NEW` brings such a trace over.");
    refused(naming(0), "refused 12 2", &["Here that is task 1,", named, stored, advice]);
    let json = run(["--json".as_ref(), file(naming(0)).as_os_str()]);
    assert!(json.out.contains(&format!("\"advice\":\"{advice}\"")), "{}", json.out);
    for other in [naming(2), naming(7), binary([Event::halt(0, 3)])] {
        let words = run([&file(other)]).out;
        assert!(!words.contains("convert") && !words.contains("stored"), "{words}");
    }
}

#[test]
fn what_stood_before_a_refused_event_is_clean() {
    let before = "No two accesses before event 3 race. Nothing is said of what follows.";
    refused("T0|fork(T1)|1\nT1|w(V5)|2\nT0|r(V9999)|3\n", "refused 8 3", &[before]);
}

#[test]
fn row_14_is_a_line_with_carriage_return_or_no_end() {
    let found = "a carriage return stands at the end of the line";
    bad_line(b"T1|w(V5)|20\r\n", "T1|w(V5)|20\\r", 11, found, "the line ends of Windows");
    let found = "a carriage return stands here";
    bad_line(b"T1|w(V5)|20\rT0|r(V5)|3\r", "T1|w(V5)|20\\rT0|r(V5)|3\\r", 11, found, "mac2unix");
    let found = "the line ends here, with no source line";
    bad_line(b"T1|w(V5)|\n", "T1|w(V5)|", 9, found, "left out the source line");
    bad_line(b"T1|w(V5)\n", "T1|w(V5)", 8, found, "left out the source line");
    bad_line(b"T1|w(V\n", "T1|w(V", 6, "the line ends here, too early", "left out the rest");
    bad_line(b"\n", "", 0, "the line is empty", "There may be no empty line");
    bad_line(b"\nT1|w(V5)|20\n", "", 0, "the line is empty", "There may be no empty line");
}

/// Whatever it stops in: the cause is the same.
#[test]
fn row_14_is_a_file_that_breaks_off() {
    let found = "the file breaks off here, in the middle of a line";
    for line in ["T", "T1", "T1|", "T1|fo", "T1|r", "T1|w(", "T1|w(V", "T1|w(V5)", "T1|w(V5)|"] {
        let cause = "Likely cause: the file breaks off: the recording was stopped";
        bad_line(line.as_bytes(), line, line.len(), found, cause);
        let before = "Without this line, what stands before it can be judged.";
        bad_line(line.as_bytes(), line, line.len(), found, before);
        // It may be all that there is.
        refused(line, "refused 14 0", &[found, cause]);
        assert!(!run([&file(line)]).out.contains(before));
    }
    let found = "the file ends here, with no line feed";
    bad_line(b"T1|w(V5)|20", "T1|w(V5)|20", 11, found, "add a line feed");
    // What does not fit does not break off.
    bad_line(b"T1|fx", "T1|fx", 4, "the operation should be r, w, fork or join", "another form");
}

#[test]
fn row_14_is_a_byte_order_mark() {
    let said = run([&file(format!("\u{feff}{DOCUMENT}"))]);
    let shown = "\n  \\xef\\xbb\\xbfT0|fork(T1)|10\n  ^ the file begins with a byte-order mark\n";
    assert!(said.out.starts_with("refused 14 0\n") && said.out.contains(shown), "{}", said.out);
    assert!(said.out.contains("Save the file as plain text without it."));
    let later = "\u{feff}T1|w(V5)|20\n".as_bytes();
    let shown = "\\xef\\xbb\\xbfT1|w(V5)|20";
    bad_line(later, shown, 0, "a byte-order mark stands here", "were put together");
}

#[test]
fn row_14_is_a_file_that_is_no_text() {
    let (found, cause) = ("the file is no text", "it is a binary trace whose first four bytes are");
    let mut trace = binary([Event::fork(0, 1), Event::write(1, 5)]);
    trace[..4].copy_from_slice(b"\x02\xff\xff\xff");
    for content in [&trace[..], b"\x7fELF\x02\x01\x01\0", b"\x89PNG\r\n\x1a\n", b"T0|r(V\xff\n"] {
        refused(content, "refused 14 0", &[found, cause, "or a file of another kind"]);
    }
    for text in ["# Pr\u{fc}fstand 7\n", "run\t7\r\n"] {
        let words = run([&file(text)]).out;
        assert!(words.contains("is a heading, a comment") && !words.contains(found), "{words}");
    }
    // On a later line only that is damaged.
    let shown = "T1|w(V\\xff";
    bad_line(b"T1|w(V\xff\n", shown, 6, "the byte 0xff stands here", "the line is damaged");
}

#[test]
fn row_14_is_a_blank_or_a_wrong_letter() {
    let blanks = "There may be no blanks and no tabs";
    bad_line(b"T1|w(V5)|20 \n", "T1|w(V5)|20", 11, "a blank stands here", blanks);
    bad_line(b" T1|w(V5)|20\n", " T1|w(V5)|20", 0, "a blank stands here", blanks);
    bad_line(b"T1|\tw(V5)|20\n", "T1|\\tw(V5)|20", 3, "a tab stands here", blanks);
    bad_line(b"T1\t|w(V5)|20\n", "T1\\t|w(V5)|20", 2, "a tab stands here", blanks);
    let letters = "Tasks are written with a large T, locations with a large V.";
    bad_line(b"t1|w(V5)|20\n", "t1|w(V5)|20", 0, "a small t stands here", letters);
    bad_line(b"1|w(V5)|2\n", "1|w(V5)|2", 0, "the T before the task's number is missing", letters);
    bad_line(b"T1|w(5)|20\n", "T1|w(5)|20", 5, "the V before the number is missing", letters);
    bad_line(b"T1|fork(2)|0\n", "T1|fork(2)|0", 8, "the T before the number is missing", letters);
    bad_line(b"T1|w(v5)|20\n", "T1|w(v5)|20", 5, "a large V should stand here", letters);
    bad_line(b"T1|fork(V2)|0\n", "T1|fork(V2)|0", 8, "a large T should stand here", letters);
    let forms = "`Ta|r(Vb)|c`, `Ta|w(Vb)|c`, `Ta|fork(Tb)|c` or `Ta|join(Tb)|c`";
    bad_line(b"# run 7\n", "# run 7", 0, "a line begins with T and a number", forms);
    bad_line(b"Trace 7\n", "Trace 7", 1, "a number should stand here", "is a heading");
    let found = "a | should stand here, before the source line";
    bad_line(b"T1|w(V5)1\n", "T1|w(V5)1", 8, found, "the recorder writes another form");
}

#[test]
fn row_14_is_a_wrong_number() {
    let numbers = "Numbers are decimal, from 0 to 65,535, without leading zeros.";
    let found = "a digit stands here, behind a leading zero";
    bad_line(b"T01|w(V5)|20\n", "T01|w(V5)|20", 2, found, numbers);
    let found = "a digit stands here that makes the number too large";
    bad_line(b"T1|w(V65536)|0\n", "T1|w(V65536)|0", 10, found, numbers);
    let found = "a letter stands here, in a number";
    bad_line(b"T1|w(V0x1F)|1\n", "T1|w(V0x1F)|1", 7, found, numbers);
    bad_line(b"T1|w(V5)|1F\n", "T1|w(V5)|1F", 10, found, numbers);
    bad_line(b"T1|w(Vx)|1\n", "T1|w(Vx)|1", 6, "a number should stand here", numbers);
}

#[test]
fn row_14_is_a_wrong_operation() {
    let found = "the operation should be r, w, fork or join";
    bad_line(b"T1|x(V5)|1\n", "T1|x(V5)|1", 3, found, "the recorder writes another form");
    bad_line(b"T1|rr(V5)|1\n", "T1|rr(V5)|1", 4, found, "the recorder writes another form");
    let [acq, rel, begin, end] = ["acq", "rel", "begin", "end"]
        .map(|it| format!("the operation {it} is not part of the form"));
    let locks = "Locks are not part of the form.";
    bad_line(b"T1|acq(L5)|20\n", "T1|acq(L5)|20", 3, &acq, locks);
    bad_line(b"T1|rel(L5)|20\n", "T1|rel(L5)|20", 4, &rel, locks);
    let full = "the trace is of the full STD format";
    bad_line(b"T1|begin()|20\n", "T1|begin()|20", 3, &begin, full);
    bad_line(b"T1|end()|20\n", "T1|end()|20", 3, &end, full);
    let sums = "No line of a text makes a sum. The binary form has them, as kind 5.";
    let s = "the operation s is not part of the form";
    bad_line(b"T1|s(V5)|20\n", "T1|s(V5)|20", 3, s, sums);
    let small = "Operations are written in small letters";
    bad_line(b"T1|W(V5)|20\n", "T1|W(V5)|20", 3, "the operation W has a large letter", small);
}

/// No line is named as left out that is there.
#[test]
fn a_source_line_that_is_there_is_not_missed() {
    for line in ["T0|r(V0x1F)|1\n", "T0|r(V1)1\n", "T0|r(V1|1\n", "T0|r(V1)|x\n"] {
        let words = run([&file(line)]).out;
        assert!(words.starts_with("refused 14 0\n") && !words.contains("left out"), "{words}");
    }
}

#[test]
fn a_line_is_shown_safely_and_not_whole() {
    let esc = b"T1|\x1b[31mw(V5)|20\x07\n";
    bad_line(esc, "T1|\\x1b[31mw(V5)|20\\x07", 3, "the byte 0x1b stands here", "");
    let begins = "a line begins with T and a number";
    for (bytes, read) in [(57, "57"), (5_000, "5,000"), (1 << 20, "53,260")] {
        let long = [b"x".repeat(bytes), b"\n".to_vec()].concat();
        let shown = format!("{} .. ({read} bytes of the line were read)", "x".repeat(56));
        bad_line(&long, &shown, 0, begins, "");
    }
    bad_line(&b"x".repeat(56), &"x".repeat(56), 0, begins, "");
    // What is escaped takes more letters.
    let shown = format!("{} .. (50 bytes of the line were read)", "\\xff".repeat(14));
    bad_line(&b"\xff".repeat(50), &shown, 0, "the byte 0xff stands here", "");
}

#[test]
fn row_15_is_a_text_that_is_too_long() {
    let text = "T0|r(V1)|1\n".repeat(MAX_TEXT_EVENTS + 1);
    let binary = "The binary form takes 32,768 events.";
    let words =
        ["Line 2049 of the file (the answer counts from 0)", binary, "A trace may end anywhere"];
    refused(&text, "refused 15 2048", &words);
    // The halts that are put in count: here every third event is one.
    let text: String = (1..=1_000).map(|k| format!("T0|fork(T{k})|1\nT{k}|r(V1)|1\n")).collect();
    refused(&text, "refused 15 1366", &["Line 1367 of the file"]);
    let most = "T0|r(V1)|1\n".repeat(MAX_TEXT_EVENTS);
    assert_eq!(run([&file(most)]).out.lines().next(), Some("clean 2048"));
}
