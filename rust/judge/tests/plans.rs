//! `judge plan`: what is said of a plan, of the two leaves that race, and of what is no plan.

mod common;

use common::json::Json;
use common::{balanced, file, finish, folder, judge, plan, plan_at_random, run};
use racejudge::{Operator, Plan, Verdict};
use racejudge_bench::rng::Rng;
use std::ffi::OsStr;
use std::fs::{self, File};

const CLEAN: &str = "S(w3,P(r3,r3))";
const RACE: &str = "S(w3,P(r3,w3))";

/// The words for a plan that is answered so.
#[track_caller]
fn words(content: impl AsRef<[u8]>, status: i32) -> String {
    let said = plan(&[], file(content));
    assert_eq!((said.status, said.err.as_str()), (status, ""), "{}", said.out);
    said.out
}

#[track_caller]
fn object(content: impl AsRef<[u8]>, status: i32) -> Json {
    let said = plan(&["--json"], file(content));
    assert_eq!((said.status, said.err.as_str()), (status, ""), "{}", said.out);
    Json::parse(said.out.trim_end()).expect("it is JSON")
}

#[test]
fn a_clean_plan_says_how_much_was_judged() {
    let told = "clean 6

No race: whatever order the cores take that the plan allows, each read sees the same write, and each
location ends with the same last write.

Judged: 3 leaves, 6 events by 2 tasks.
";
    assert_eq!(words(CLEAN, 0), told);
    let leaf = words("s0", 0);
    assert!(leaf.starts_with("clean 1\n") && leaf.contains("and the same sums after it"), "{leaf}");
    assert!(leaf.ends_with("\nJudged: 1 leaf, 1 event by 1 task.\n"), "{leaf}");
}

#[test]
fn a_race_names_its_leaves_and_where_they_meet() {
    let told = "race 2 4

The r3 at byte 7 reads location 3, the w3 at byte 10 writes it, and nothing orders them:

  S(w3,P(r3,w3))
       ^ ^^ ^^

  r3   byte 7    event 2   task 1 reads location 3
  w3   byte 10   event 4   task 0 writes location 3

They meet at the P at byte 5, which has the one in its left and the other in its right operand.
Operands of P run side by side, so neither leaf reaches the other.
With an S in its place the first would always come before the second.

Both orders can happen. They differ only in the two events in brackets:

  0 1 [2 4] 3
  0 1 [4 2] 3

In the second order the r3 at byte 7 sees what the w3 at byte 10 writes, in the first it does not.

This is the first race of the plan. Others may follow once it is mended.

Bytes and events count from 0. P makes three events: a fork, a halt and a join.
";
    assert_eq!(words(RACE, 1), told);
}

#[test]
fn each_pair_says_what_its_orders_come_to() {
    let (one, other) = ("at byte 2", "at byte 5");
    let holds = "Right after the two, location 5 holds what the";
    for (plan, outcome) in [
        ("P(w5,r5)", format!("In the first order the r5 {other} sees what the w5 {one} writes,")),
        ("P(r5,w5)", format!("In the second order the r5 {one} sees what the w5 {other} writes,")),
        ("P(s5,r5)", format!("In the first order the r5 {other} sees what the s5 {one} adds,")),
        ("P(r5,s5)", format!("In the second order the r5 {one} sees what the s5 {other} adds,")),
        (
            "P(s5,w5)",
            format!("{holds} w5 {other} writes: in the second order with what the s5 {one} adds,"),
        ),
        (
            "P(w5,s5)",
            format!("{holds} w5 {one} writes: in the first order with what the s5 {other} adds,"),
        ),
        (
            "P(w5,w5)",
            format!(
                "{holds} w5 {other} writes in the first order, and what the w5 {one} writes in the \
                 second."
            ),
        ),
    ] {
        let words = words(plan, 1).replace('\n', " ");
        assert!(words.contains(&outcome), "no {outcome:?} in {words}");
    }
    for plan in ["P(r5,r5)", "P(s5,s5)", "S(w5,w5)", "P(w5,w6)"] {
        words(plan, 0);
    }
}

/// The two rows that begin with what is shown of the plan.
#[track_caller]
fn excerpt(words: &str) -> [String; 2] {
    let mut lines = words.lines().skip(3).skip_while(|line| !line.starts_with("  "));
    [lines.next(), lines.next()].map(|line| line.expect("two rows").to_string())
}

/// What stands above the marks.
fn marked([shown, marks]: &[String; 2]) -> Vec<String> {
    let letters = shown.chars().zip(marks.chars().chain(" ".chars().cycle()));
    let parts: String =
        letters.map(|(letter, mark)| if mark == '^' { letter } else { ' ' }).collect();
    parts.split_whitespace().map(str::to_string).collect()
}

#[test]
fn marks_stand_beneath_the_leaves_and_their_operator_in_plans_of_any_length() {
    let mut rng = Rng::new(1);
    let (mut races, mut cut) = (0, 0);
    for _ in 0..400 {
        let text = plan_at_random(&mut rng, 6);
        let plan = Plan::parse(&text).expect("a plan");
        let Ok(Verdict::Race { s, t, .. }) = racejudge::judge(plan.trace()) else { continue };
        let [s, t] = [s, t].map(|event| plan.leaf_of(event).expect("a leaf"));
        let meet = plan.meet(s, t).expect("an operator");
        assert_eq!(meet.operator, Operator::Parallel);
        let words = words(format!("{text}\n"), 1);
        let rows = excerpt(&words);
        let (one, other) = (s.to_string(), t.to_string());
        assert_eq!(marked(&rows), ["P", &one, &other], "{words}");
        let sentences = words.replace('\n', " ");
        for named in [
            format!("The {s} at byte {} ", s.position),
            format!("the {t} at byte {} ", t.position),
            format!("They meet at the P at byte {}, ", meet.position),
        ] {
            assert!(sentences.contains(&named), "no {named:?} in\n{words}");
        }
        for leaf in [s, t] {
            let places = [format!("byte {}", leaf.position), format!("event {}", leaf.event)];
            let has_row = words.lines().any(|line| {
                let mut cells = line.trim().split("   ").map(str::trim).filter(|it| !it.is_empty());
                cells.next() == Some(&leaf.to_string()) && cells.take(2).eq(places.iter())
            });
            assert!(has_row, "no {places:?} in\n{words}");
        }
        assert!(words.lines().all(|line| line.len() <= 100), "{words}");
        let is_cut = rows[0].contains("..");
        assert_eq!(is_cut, text.len() > 98, "{words}");
        assert!(is_cut || rows[0].trim() == text, "{words}");
        races += 1;
        cut += usize::from(is_cut);
    }
    assert!(races > 100 && cut > 30, "{races} {cut}");
}

/// The plan is refused with this line; these rows show where, and these are among the words.
#[track_caller]
fn refused(
    content: impl AsRef<[u8]>,
    line: &str,
    shown: &str,
    at: usize,
    found: &str,
    told: &[&str],
) {
    let words = words(content, 2);
    assert_eq!(words.lines().next(), Some(line), "{words}");
    let rows = [format!("  {shown}").trim_end().to_string(), format!("{:at$}  ^", "")];
    let [first, second] = excerpt(&words);
    assert_eq!(first, rows[0], "{words}");
    assert!(second.starts_with(&rows[1]) && second.ends_with(&format!("^ {found}")), "{words}");
    let sentences = words.replace('\n', " ");
    for sentence in told {
        assert!(sentences.contains(sentence), "no {sentence:?} in\n{words}");
    }
}

#[test]
fn row_17_says_what_stands_there_and_what_should() {
    let begins = "with r, w or s and a location, or with S( or P(.";
    let right = &format!("The right operand of the S at byte 0 should begin here, {begins}")[..];
    let left = &format!("The left operand of the P at byte 2 should begin here, {begins}")[..];
    let plan = &format!("A plan begins {begins}")[..];
    let [comma, closing] =
        ["A comma should stand here, behind the left", "A ) should stand here, behind the right"]
            .map(|start| format!("{start} operand of the S at byte 0."));
    let whole = "The plan is whole, and should end here.";
    let bad = |text: &str, at: usize, found: &str, told: &[&str]| {
        let cannot = format!("Byte {at} cannot continue the plan:");
        let told = [&[&cannot[..]], told].concat();
        refused(text, &format!("refused 17 {at}"), text, at, found, &told);
    };
    let locations = "Locations go from 0 to 1,023, without leading zeros.";
    bad("r1024", 4, "a digit stands here that makes the location too large", &[whole, locations]);
    bad("S(w00,r1)", 4, "a digit stands here, behind a leading zero", &[&comma, locations]);
    bad("rx", 1, "the letter x stands here", &["A location should stand here, behind the r."]);
    let letters = "Leaves are written with small letters, r, w and s, operators with large ones";
    bad("R1", 0, "the letter R stands here", &[plan, letters]);
    bad("s(r1,r2)", 1, "the sign ( stands here", &["behind the s.", letters]);
    bad("Sr1", 1, "the letter r stands here", &["A ( should stand here, behind the S."]);
    let operands = "S and P have two operands: three plans are S(a,S(b,c)).";
    bad("S(r1)", 4, "the sign ) stands here", &[&comma, operands]);
    bad("S(r1,r2,r3)", 7, "the sign , stands here", &[&closing, operands]);
    bad("S(P(,r1),r2)", 4, "the sign , stands here", &[left]);
    bad("S(r1, r2)", 5, "a blank stands here", &[right, "There may be no blanks and no tabs"]);
    let one = "A file has one plan: two are one as S(a,b) or P(a,b).";
    bad("S(r1,r2)P(r1,r2)", 8, "the letter P stands here", &[whole, one]);
    bad("S(r1,r2))", 8, "the sign ) stands here", &[whole]);
}

#[test]
fn row_17_says_where_a_plan_breaks_off() {
    let cause = "Likely cause: the file was cut off, or a parenthesis is missing.";
    for (text, wanted) in [
        ("S(r1,r2", "A ) should stand here, behind the right operand of the S at byte 0."),
        ("S(P(r1,r2)", "A comma should stand here, behind the left operand of the S at byte 0."),
        ("S(r1,", "The right operand of the S at byte 0 should begin here, with r, w or s"),
        ("S(r", "A location should stand here, behind the r."),
        ("P", "A ( should stand here, behind the P."),
    ] {
        let (at, line) = (text.len(), format!("refused 17 {}", text.len()));
        let head = format!("The plan breaks off at byte {at}:");
        refused(text, &line, text, at, "the file ends here", &[&head, wanted, cause]);
        refused(format!("{text}\n"), &line, text, at, "the file ends here", &[&head, wanted]);
    }
    for empty in ["", "\n"] {
        let told = "refused 17 0

There is no plan: the file is empty.

A plan begins with r, w or s and a location, or with S( or P(.
";
        assert_eq!(words(empty, 2), told);
    }
}

#[test]
fn one_line_feed_at_the_end_is_the_files() {
    for (text, line) in [(CLEAN, "clean 6"), (RACE, "race 2 4"), ("S(r1", "refused 17 4")] {
        let (with, without) = (plan(&[], file(format!("{text}\n"))), plan(&[], file(text)));
        assert_eq!(with, without);
        assert_eq!(with.out.lines().next(), Some(line));
    }
    let feeds = "A plan stands on one line, and at most one line feed stands behind it.";
    let found = "a line feed stands here";
    let shown = "S(w3,P(r3,r3))\\x0a";
    refused(format!("{CLEAN}\n\n"), "refused 17 14", shown, 14, found, &[feeds]);
    let shown = "S(w3,\\x0aP(r3,r3))";
    refused("S(w3,\nP(r3,r3))\n", "refused 17 5", shown, 5, found, &[feeds]);
    let windows = "Likely cause: the file has the line ends of Windows.";
    let (shown, found) = ("S(w3,P(r3,r3))\\r", "a carriage return stands here");
    refused(format!("{CLEAN}\r\n"), "refused 17 14", shown, 14, found, &[windows, "dos2unix"]);
}

#[test]
fn row_17_says_what_is_no_text() {
    let (mark, shown) = ("a byte-order mark stands here", "\\xef\\xbb\\xbfr1");
    refused("\u{feff}r1\n", "refused 17 0", shown, 0, mark, &["Save the file as plain text"]);
    let damaged = "Likely cause: the file is damaged, or of another kind.";
    for byte in [0, 0x1b, 0x7f, 0x80, 0xff] {
        let found = format!("the byte {byte:#04x} stands here");
        let shown = format!("S(r1\\x{byte:02x}");
        refused([b"S(r1", &[byte][..]].concat(), "refused 17 4", &shown, 4, &found, &[damaged]);
    }
}

#[test]
fn a_trace_and_a_plan_are_told_apart() {
    let trace = "T0|fork(T1)|1\nT1|w(V5)|2\n";
    let told = ["Likely cause: the file is a trace.", "Traces are judged by judge FILE."];
    let shown = "T0|fork(T1)|1\\x0aT1..";
    refused(trace, "refused 17 0", shown, 0, "the letter T stands here", &told);
    let said = run([&file(format!("{CLEAN}\n"))]);
    assert_eq!((said.status, said.out.lines().next()), (2, Some("refused 14 0")));
    assert!(said.out.contains("\n  ^ a plan stands here\n"), "{}", said.out);
    assert!(said.out.contains("Plans are judged by judge plan FILE."), "{}", said.out);
}

#[test]
fn row_18_is_a_level_too_many() {
    let deep = "S(".repeat(65) + "r1" + &",r2)".repeat(65);
    let shown = format!("..{}r1,r2),r2),r2),r2..", "S(".repeat(20));
    let found = "an operator stands here, within 64 others";
    let told = ["Byte 128 opens level 65:", "A plan may nest 64 deep: a leaf should stand here."];
    refused(&deep, "refused 18 128", &shown, 40, found, &told);
    let split = ["S(S(a,b),S(c,d)) is ordered as S(a,S(b,S(c,d))) is."];
    refused(deep.replace('S', "P"), "refused 18 128", &shown.replace('S', "P"), 40, found, &split);
}

#[test]
fn row_19_is_a_plan_that_is_too_large() {
    let told = "refused 19 0

The plan is too large: it takes 1,025 tasks, task 0 among them, and 4,097 events.

There are 1,024 tasks, and a trace has at most 32,768 events.

A leaf makes an event, a P a task and three events: a fork, a halt and a join.
";
    assert_eq!(words(balanced('P', 1_025), 2), told);
    let told = words(balanced('S', 32_769), 2);
    assert!(told.contains("it takes 1 task, task 0 among them, and 32,769 events."), "{told}");
    let object = object(balanced('S', 32_769), 2);
    assert_eq!((object.field("row").number(), object.field("position").number()), (19, 0));
    assert!(
        words(balanced('P', 1_024), 0).ends_with("1,024 leaves, 4,093 events by 1,024 tasks.\n")
    );
    assert!(words(balanced('S', 32_768), 0).starts_with("clean 32768\n"));
}

/// What should stand there can: with it the plan goes on.
#[test]
fn what_should_stand_there_continues_the_plan() {
    let mut rng = Rng::new(2);
    let mut met = [0; 6];
    for _ in 0..300 {
        let text = plan_at_random(&mut rng, 4);
        let beginning = &text[..rng.below(text.len() + 1)];
        // A byte that no plan has.
        let object = object(format!("{beginning}x"), 2);
        assert_eq!(object.field("position").number(), beginning.len());
        let [found, wanted] = object.field("state").items() else { panic!("{object:?}") };
        assert_eq!(found.text(), "The letter x stands here.");
        let (next, at) = match wanted.text() {
            it if it.contains("should begin here") || it.starts_with("A plan begins") => ("r0", 0),
            it if it.starts_with("A location should") => ("0", 1),
            it if it.starts_with("A ( should") => ("(", 2),
            it if it.starts_with("A comma should") => (",", 3),
            it if it.starts_with("A ) should") => (")", 4),
            it if it.starts_with("The plan is whole") => ("", 5),
            it => panic!("{it}"),
        };
        met[at] += 1;
        let longer = format!("{beginning}{next}");
        match Plan::parse(&longer) {
            Ok(_) => assert!(at != 3 && at != 2, "{longer}"),
            Err(error) => assert_eq!((error.refusal.position, at == 5), (longer.len(), false)),
        }
        // The operator that is named is one, and what it has there is missing.
        if let Some((_, place)) = wanted.text().split_once(" operand of the ") {
            let (letter, rest) = place.split_at(1);
            let digits = rest.trim_start_matches(" at byte ").trim_end_matches('.');
            let byte: usize = digits.split(' ').next().unwrap().parse().expect("a byte");
            assert_eq!(&beginning[byte..byte + 1], letter, "{beginning}: {wanted:?}");
        }
    }
    assert!(met.iter().all(|&met| met > 5), "{met:?}");
}

#[test]
fn the_objects_have_all_their_fields() {
    let clean = object(CLEAN, 0);
    let names = ["answer", "events", "file", "leaves", "links", "said", "tasks"];
    assert_eq!(clean.names(), names);
    let numbers = ["events", "tasks", "leaves", "links"].map(|name| clean.field(name).number());
    assert_eq!((clean.field("said").text(), numbers), ("clean 6", [6, 2, 3, 1]));
    let race = object(RACE, 1);
    let names = [
        "answer", "broken", "events", "file", "first", "leaves", "links", "location", "meet", "s",
        "s_leaf", "said", "second", "t", "t_leaf", "tasks", "why",
    ];
    assert_eq!(race.names(), names);
    for (name, value) in [
        ("s_leaf", r#"{"leaf":"r3","byte":7}"#),
        ("t_leaf", r#"{"leaf":"w3","byte":10}"#),
        ("meet", r#"{"operator":"P","byte":5}"#),
        ("first", "[0,1,2,4,3]"),
        ("second", "[0,1,4,2,3]"),
    ] {
        assert_eq!(race.field(name), &Json::parse(value).unwrap());
    }
    assert_eq!(race.field("s").field("event").number(), 2);
    assert_eq!(race.field("t").field("kind").text(), "write");
}

#[test]
fn the_object_of_a_refusal_has_all_its_fields() {
    let refused = object("S(r1 ,r2)", 2);
    let names = [
        "advice", "answer", "cause", "events", "file", "leaves", "links", "meaning", "position",
        "row", "said", "state", "tasks",
    ];
    assert_eq!(refused.names(), names);
    let numbers = ["row", "position", "links"].map(|name| refused.field(name).number());
    assert_eq!((refused.field("said").text(), numbers), ("refused 17 4", [17, 4, 0]));
    for name in ["events", "tasks", "leaves", "cause"] {
        assert_eq!(refused.field(name), &Json::Null);
    }
    let state = [
        "A blank stands here.",
        "A comma should stand here, behind the left operand of the S at byte 0.",
    ];
    let told: Vec<&str> = refused.field("state").items().iter().map(Json::text).collect();
    assert_eq!(told, state);
}

#[test]
fn several_files_have_their_names_above_and_the_highest_status_counts() {
    let (clean, race, missing) = (file(CLEAN), file(RACE), folder().join("missing"));
    let all = ["plan".as_ref(), clean.as_os_str(), missing.as_os_str(), race.as_os_str()];
    let said = run(all);
    let block = |path: &OsStr, words: String| format!("{}:\n{words}", path.to_str().unwrap());
    let (one, other) = (plan(&[], &clean).out, plan(&[], &race).out);
    let wanted = [block(clean.as_ref(), one), block(race.as_ref(), other)].join("\n");
    assert_eq!((said.status, said.out), (3, wanted));
    let told = format!("judge: {} cannot be read: No such file or directory\n", missing.display());
    assert_eq!(said.err, told);
    let said = run(all.into_iter().chain(["--json".as_ref()]));
    let answers = said.out.lines().map(|line| Json::parse(line).unwrap());
    let answers: Vec<String> = answers.map(|it| it.field("answer").text().to_string()).collect();
    assert_eq!((said.status, answers), (3, vec!["clean".into(), "error".into(), "race".into()]));
    let refused = file("x");
    for (others, status) in
        [(vec![&clean], 0), (vec![&race, &clean], 1), (vec![&race, &refused], 2)]
    {
        let files = others.iter().map(|file| file.as_os_str());
        let said = run(["plan".as_ref(), clean.as_os_str()].into_iter().chain(files));
        assert_eq!(said.status, status);
    }
}

#[test]
fn standard_input_is_read_by_its_name() {
    for content in [CLEAN, RACE, "S(w3,P(r3,w3))\n", "S(r1", ""] {
        let path = file(content);
        let from = |options: &[&str]| {
            let input = File::open(&*path).unwrap();
            finish(judge(["plan", "-"].iter().chain(options)).stdin(input))
        };
        assert_eq!(from(&[]), plan(&[], &path));
        let name = format!("\"file\":\"{}\"", path.display());
        let told = plan(&["--json"], &path).out.replace(&name, "\"file\":\"-\"");
        assert_eq!(from(&["--json"]).out, told);
    }
}

#[test]
fn a_file_of_the_words_name_is_given_with_its_folder() {
    let folder = folder();
    fs::write(folder.join("plan"), CLEAN).unwrap();
    let here = |arguments: &[&str]| finish(judge(arguments).current_dir(&*folder));
    assert_eq!(here(&["plan"]).status, 3);
    assert!(here(&["plan", "plan"]).out.starts_with("clean 6\n"));
    assert_eq!(here(&["./plan"]).status, 2);
}

#[test]
fn long_orders_are_cut_around_the_pair_or_printed_whole() {
    let path = file(format!("P(S({},w1),w1)", balanced('S', 200)));
    let cut = plan(&[], &path).out;
    assert!(cut.contains(" in brackets (judge plan --orders has\nall):\n"), "{cut}");
    assert!(cut.contains(" left out) ") && cut.contains(" [201 203] 202\n"), "{cut}");
    let whole = plan(&["--orders"], &path).out;
    let order: Vec<String> = (0..201).map(|p| p.to_string()).collect();
    assert!(whole.contains(&format!("\n  {} [201 203] 202\n", order.join(" "))), "{whole}");
    assert!(!whole.contains("left out"), "{whole}");
}

#[test]
fn a_picture_is_drawn_of_the_one_file() {
    let (path, folder) = (file(RACE), folder());
    let picture = folder.join("plan.svg");
    let name = picture.to_str().unwrap();
    let said = plan(&["--svg", name], &path);
    let words = plan(&[], &path).out;
    assert_eq!((said.status, said.out), (1, format!("{words}\nThe picture is in {name}.\n")));
    let drawn = fs::read_to_string(&picture).unwrap();
    assert!(drawn.contains("The r3 at byte 7 and the w3 at byte 10 meet at the P at byte 5."));
    let object = plan(&["--json", "--svg", name], &path).out;
    assert_eq!(Json::parse(object.trim_end()).unwrap().field("picture").text(), name);
    assert_eq!(fs::read_to_string(&picture).unwrap(), drawn);
    fs::remove_file(&picture).unwrap();
    // What is no plan has none.
    let said = plan(&["--svg", name], file("x"));
    assert_eq!((said.status, fs::exists(&picture).unwrap()), (2, false));
    assert!(said.out.ends_with("\nThere is no picture: the file makes no trace.\n"));
    // One that cannot be written is told.
    let said = plan(&["--svg", "/dev/full"], &path);
    let told = "judge: /dev/full cannot be written: No space left on device\n";
    assert_eq!((said.status, said.err.as_str()), (3, told));
}
