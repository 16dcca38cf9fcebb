//! The command's JSON, held to a strict reader, and that reader.

mod common;

use common::json::Json;
use common::{binary, file, folder, run, DOCUMENT};
use racejudge::Event;
use std::ffi::OsStr;
use std::fs;
use std::os::unix::ffi::OsStrExt;

/// The objects that a run printed, one a line.
#[track_caller]
fn objects(out: &str) -> Vec<Json> {
    assert!(out.is_empty() || out.ends_with('\n'));
    let parse = |line| Json::parse(line).unwrap_or_else(|wrong| panic!("{wrong} in {line}"));
    out.lines().map(parse).collect()
}

#[test]
fn the_reader_takes_json_and_nothing_else() {
    let value = Json::parse(r#"{"a":[1,20,{}],"b":"x\"\\\u00e9","c":null,"d":true}"#).unwrap();
    assert_eq!(value.field("a"), &Json::parse("[1,20,{}]").unwrap());
    assert_eq!(value.field("b").text(), "x\"\\\u{e9}");
    for wrong in [
        "",
        "{",
        "[1,]",
        "[,1]",
        "{\"a\":1,}",
        "{\"a\" 1}",
        "{a:1}",
        "01",
        "1 2",
        "\"\n\"",
        "\"\\x\"",
        "\"\\ud800\"",
        "{\"a\":1,\"a\":2}",
        "nul",
        "[1 2]",
        "\"a",
        " 1",
        "1\n",
    ] {
        assert!(Json::parse(wrong).is_err(), "{wrong:?}");
    }
}

#[test]
fn a_race_has_all_its_fields() {
    let path = file(DOCUMENT);
    let said = run(["--json".as_ref(), path.as_os_str()]);
    let [race] = &objects(&said.out)[..] else { panic!("{said:?}") };
    assert_eq!((said.status, said.err.as_str()), (1, ""));
    let names = [
        "answer", "broken", "events", "file", "first", "links", "location", "s", "said", "second",
        "t", "tasks", "why",
    ];
    assert_eq!(race.names(), names);
    assert_eq!(race.field("file").text(), path.to_str().unwrap());
    assert_eq!(race.field("said").text(), "race 1 3");
    assert_eq!(race.field("events").number(), 4);
    assert_eq!(race.field("tasks").number(), 2);
    assert_eq!(race.field("location").number(), 5);
    let s = r#"{"event":1,"task":1,"kind":"write","operand":5,"line":2,"source":20,"text":"T1|w(V5)|20"}"#;
    assert_eq!(race.field("s"), &Json::parse(s).unwrap());
    let t = r#"{"event":3,"task":0,"kind":"read","operand":5,"line":3,"source":30,"text":"T0|r(V5)|30"}"#;
    assert_eq!(race.field("t"), &Json::parse(t).unwrap());
    let why = r#"{"parted":0,"to_s":[0,1],"to_t":[0,3],"unjoined":[1],"joined_later":null}"#;
    assert_eq!(race.field("why"), &Json::parse(why).unwrap());
    assert_eq!(race.field("first").numbers(), [0, 1, 3, 2]);
    assert_eq!(race.field("second").numbers(), [0, 3, 1, 2]);
    assert_eq!(race.field("broken"), &Json::Null);
}

#[test]
fn a_rule_that_is_broken_behind_a_race_is_told() {
    let path = file(format!("{DOCUMENT}T7|w(V1)|40\n"));
    let said = run(["--json".as_ref(), path.as_os_str()]);
    let race = &objects(&said.out)[0];
    assert_eq!(race.field("said").text(), "race 1 3");
    let broken = r#"{"row":7,"position":4,"meaning":"the actor is not the running task"}"#;
    assert_eq!(race.field("broken"), &Json::parse(broken).unwrap());
}

#[test]
fn a_binary_trace_has_no_lines() {
    let events = [Event::fork(0, 1), Event::write(1, 5), Event::halt(1, 0), Event::read(0, 5)];
    let path = file(binary(events));
    let said = run(["--json".as_ref(), path.as_os_str()]);
    let s = objects(&said.out)[0].field("s").clone();
    assert_eq!(s.field("event"), &Json::Number(1));
    for name in ["line", "source", "text"] {
        assert_eq!(s.field(name), &Json::Null);
    }
}

#[test]
fn a_sum_has_its_kind() {
    let events = [Event::fork(0, 1), Event::sum(1, 5), Event::halt(1, 0), Event::read(0, 5)];
    let path = file(binary(events));
    let said = run(["--json".as_ref(), path.as_os_str()]);
    let race = &objects(&said.out)[0];
    assert_eq!((said.status, race.field("said").text()), (1, "race 1 3"));
    let s =
        r#"{"event":1,"task":1,"kind":"sum","operand":5,"line":null,"source":null,"text":null}"#;
    assert_eq!(race.field("s"), &Json::parse(s).unwrap());
    let path = file(binary([Event::sum(0, 5), Event::sum(0, 1_024)]));
    let refused = &objects(&run(["--json".as_ref(), path.as_os_str()]).out)[0];
    assert_eq!(refused.field("event").field("kind").text(), "sum");
}

#[test]
fn a_refusal_has_the_event_or_the_line() {
    let event = file("T0|fork(T1)|1\nT1|r(V2000)|2\n");
    let line = file(b"T0|fork(T1)|1\nT1|r(V\xff\x01\"\\2)|2\r\n");
    let said = run(["--json".as_ref(), event.as_os_str(), line.as_os_str()]);
    let [event, line] = &objects(&said.out)[..] else { panic!("{said:?}") };
    assert_eq!((said.status, said.err.as_str()), (2, ""));
    for refusal in [event, line] {
        let names = [
            "advice",
            "answer",
            "cause",
            "event",
            "events",
            "file",
            "links",
            "meaning",
            "position",
            "row",
            "said",
            "state",
            "tasks",
            "text_line",
        ];
        assert_eq!(refusal.names(), names);
        assert_eq!(refusal.field("answer").text(), "refused");
        assert_eq!(refusal.field("position").number(), 1);
        assert_eq!(refusal.field("links").number(), 0);
    }
    assert_eq!(event.field("row").number(), 8);
    assert_eq!(event.field("meaning").text(), "the location is above 1,023");
    assert_eq!(event.field("event").field("operand").number(), 2000);
    assert_eq!(event.field("event").field("line").number(), 2);
    assert_eq!(event.field("text_line"), &Json::Null);
    assert_eq!(event.field("events").number(), 2);
    assert_eq!(line.field("row").number(), 14);
    assert_eq!(line.field("event"), &Json::Null);
    assert_eq!(line.field("events"), &Json::Null);
    let text_line = line.field("text_line");
    assert_eq!(text_line.field("line").number(), 2);
    assert_eq!(text_line.field("text").text(), "T1|r(V\u{fffd}\u{1}\"\\2)|2\r");
    assert_eq!(text_line.field("byte").number(), 6);
}

#[test]
fn what_cannot_be_judged_is_an_object_too() {
    let folder = folder();
    let missing = folder.join("missing");
    let damaged = file(&binary([Event::read(0, 5)])[..12]);
    let said =
        run(["--json".as_ref(), missing.as_os_str(), folder.as_os_str(), damaged.as_os_str()]);
    assert_eq!((said.status, said.err.as_str()), (3, ""));
    let errors: Vec<String> = objects(&said.out)
        .iter()
        .map(|object| {
            assert_eq!(object.names(), ["answer", "error", "file"]);
            assert_eq!(object.field("answer").text(), "error");
            object.field("error").text().to_string()
        })
        .collect();
    assert_eq!(errors[0], "cannot be read: No such file or directory");
    assert_eq!(errors[1], "cannot be read: Is a directory");
    assert!(errors[2].starts_with("is a damaged binary trace: too short"), "{}", errors[2]);
}

#[test]
fn any_file_name_is_told() {
    let folder = folder();
    for name in [&b"a\"b\\c\n\x01\x7fd"[..], b"\xff\xfe \xc3\xa9", "\u{1f600}\u{2028}".as_bytes()] {
        let path = folder.join(OsStr::from_bytes(name));
        fs::write(&path, DOCUMENT).unwrap();
        let said = run(["--json".as_ref(), path.as_os_str()]);
        let told = objects(&said.out)[0].field("file").text().to_string();
        assert_eq!(told, path.to_string_lossy());
        // In words it is shown where there are several files, with no control but the line feeds.
        let said = run([&path, &path]);
        assert!(said.out.chars().all(|c| c == '\n' || !c.is_control()), "{}", said.out);
    }
}

#[test]
fn a_question_has_a_path_or_a_reason() {
    let path = file(DOCUMENT);
    let ask = |p, q| {
        let said = run(["order".as_ref(), "--json".as_ref(), path.as_os_str(), p, q]);
        (said.status, objects(&said.out).remove(0))
    };
    let (status, yes) = ask("0".as_ref(), "2".as_ref());
    let names = ["answer", "events", "file", "p", "path", "q", "reverse", "said", "tasks", "why"];
    assert_eq!((status, yes.names()), (0, names.to_vec()));
    assert_eq!(yes.field("said").text(), "yes");
    assert_eq!(yes.field("path").numbers(), [0, 1, 2]);
    assert_eq!(yes.field("why"), &Json::Null);
    let (status, no) = ask("1".as_ref(), "3".as_ref());
    assert_eq!((status, no.names()), (1, names.to_vec()));
    assert_eq!(no.field("reverse"), &Json::Truth(false));
    assert_eq!(no.field("path"), &Json::Null);
    assert_eq!(no.field("why").field("unjoined").numbers(), [1]);
    let (status, refused) = ask("1".as_ref(), "4".as_ref());
    assert_eq!((status, refused.field("said").text()), (2, "refused 13 0"));
}
