//! Input and output that fail, end, do not end or are not what they should be.

mod common;

use common::{binary, file, finish, folder, judge, plan_at_random, run, Said, DOCUMENT};
use racejudge::{Event, Plan, PlanError, Refusal, Verdict, MAX_EVENTS, TEXT_BYTES};
use racejudge_bench::rng::Rng;
use std::fs::{self, File};
use std::io::{Read, Seek, Write};
use std::iter::repeat_n;
use std::os::fd::OwnedFd;
use std::os::unix::fs::{symlink, PermissionsExt};
use std::os::unix::net::UnixStream;
use std::path::Path;
use std::process::{Command, Stdio};

/// The command behind a redirection by the shell.
fn redirected(redirection: &str, arguments: &[&str]) -> Said {
    let mut shell = Command::new("sh");
    shell.args(["-c", &format!("exec \"$0\" \"$@\" {redirection}"), env!("CARGO_BIN_EXE_judge")]);
    finish(shell.args(arguments))
}

#[test]
fn a_closed_standard_input_is_no_empty_one() {
    let closed = redirected("<&-", &["-"]);
    let told = "judge: standard input cannot be read: it is closed\n";
    assert_eq!((closed.status, closed.out.as_str(), closed.err.as_str()), (3, "", told));
    // Nor is it under another name.
    let closed = redirected("<&-", &["/dev/stdin"]);
    let told = "judge: /dev/stdin cannot be read: standard input is closed\n";
    assert_eq!((closed.status, closed.out.as_str(), closed.err.as_str()), (3, "", told));
    assert_eq!(redirected("<&-", &["cards", "/dev/stdin"]), closed);
    assert_eq!(redirected("<&-", &["pairs", "/dev/stdin"]), closed);
    assert_eq!(redirected("<&-", &["plan", "/dev/stdin"]), closed);
    // A file is judged all the same.
    let text = file(DOCUMENT);
    assert_eq!(redirected("<&-", &[text.to_str().unwrap()]), run([&text]));
    // One that is empty is none that is closed, however it was opened.
    for empty in ["</dev/null", "<>/dev/null"] {
        let said = redirected(empty, &["-"]);
        assert_eq!((said.status, said.out.lines().next()), (0, Some("clean 0")), "{empty}");
    }
}

#[test]
fn a_standard_input_that_cannot_be_read_is_told() {
    let said = redirected("</", &["-"]);
    let told = "judge: standard input cannot be read: Is a directory\n";
    assert_eq!((said.status, said.out.as_str(), said.err.as_str()), (3, "", told));
    let said = redirected("0>/dev/null", &["-"]);
    let told = "judge: standard input cannot be read: Bad file descriptor\n";
    assert_eq!((said.status, said.out.as_str(), said.err.as_str()), (3, "", told));
}

#[test]
fn lost_output_is_told() {
    let (text, clean) = (file(DOCUMENT), file("T0|w(V5)|1\n"));
    let (text, clean) = (text.to_str().unwrap(), clean.to_str().unwrap());
    let plan = file("P(w5,w5)");
    let plan = plan.to_str().unwrap();
    let runs: [&[&str]; 15] = [
        &[text],
        &["--json", text],
        &["order", text, "0", "1"],
        &["order", "--json", text, "0", "1"],
        &["cards", text],
        &["cards", clean],
        &["cards", "--json", clean],
        &["pairs", text],
        &["pairs", "--all", text],
        &["pairs", "--json", text],
        &["pairs", clean],
        &["plan", plan],
        &["plan", "--json", plan],
        &["--help"],
        &["--version"],
    ];
    for arguments in runs {
        for (to, why) in [(">/dev/full", "No space left on device"), (">&-", "it is closed")] {
            let said = redirected(to, arguments);
            let told = format!("judge: cannot write to standard output: {why}\n");
            assert_eq!((said.status, said.err), (3, told), "{arguments:?} {to}");
        }
    }
    // What is thrown away is not lost.
    assert_eq!(redirected(">/dev/null", &[text]).status, 1);
    assert_eq!(redirected("1<>/dev/null", &[text]).status, 1);
    assert_eq!(redirected("2>&-", &[text]).status, 1);
    assert_eq!(redirected(">/dev/full 2>&-", &[text]).status, 3);
}

#[test]
fn no_picture_is_written_over_the_answer() {
    let (text, folder) = (file(DOCUMENT), folder());
    let out = folder.join("out");
    let (text, path) = (text.to_str().unwrap(), out.to_str().unwrap());
    for picture in [path, "/dev/stdout"] {
        let said = redirected(&format!(">{path}"), &["--svg", picture, text]);
        assert_eq!((said.status, fs::read(&out).unwrap().len()), (3, 0), "{picture}");
        assert!(said.err.starts_with("judge: --svg would write over what is printed\n"));
    }
}

#[test]
fn a_reader_that_is_gone_is_told() {
    let mut command = judge(["-"]);
    command.stdin(Stdio::piped()).stdout(Stdio::piped()).stderr(Stdio::piped());
    let mut child = command.spawn().unwrap();
    // It writes when it has read all, and by then nobody reads.
    drop(child.stdout.take());
    child.stdin.take().unwrap().write_all(DOCUMENT.as_bytes()).unwrap();
    let said = Said::from(child.wait_with_output().unwrap());
    let told = "judge: cannot write to standard output: Broken pipe\n";
    assert_eq!((said.status, said.err.as_str()), (3, told));
}

/// Long lists are printed piece by piece, and what ends their reader ends them.
#[test]
fn a_long_list_that_is_cut_off_is_told() {
    let child = |task| {
        let writes = repeat_n(Event::write(task, 5), 30);
        [Event::fork(0, task)].into_iter().chain(writes).chain([Event::halt(task, 0)])
    };
    let long = file(binary((1..100).flat_map(child)));
    for option in ["--all", "--json"] {
        let mut command = judge(["pairs".as_ref(), option.as_ref(), long.as_os_str()]);
        command.stdout(Stdio::piped()).stderr(Stdio::piped());
        let mut child = command.spawn().unwrap();
        let mut start = [0; 9];
        child.stdout.take().unwrap().read_exact(&mut start).unwrap();
        let said = Said::from(child.wait_with_output().unwrap());
        let told = "judge: cannot write to standard output: Broken pipe\n";
        assert_eq!((said.status, said.err.as_str()), (3, told), "{option}");
    }
}

/// The first part is read before the second is there.
#[test]
fn input_in_parts_is_put_together() {
    let packed =
        binary([Event::fork(0, 1), Event::write(1, 5), Event::halt(1, 0), Event::read(0, 5)]);
    for bytes in [DOCUMENT.as_bytes(), &packed] {
        for cut in [1, 4, 15, bytes.len() - 1] {
            let path = file(bytes);
            let parts = format!("head -c {cut} \"$0\"; sleep 0.2; tail -c +{} \"$0\"", cut + 1);
            let command = format!("({parts}) | \"$1\" -");
            let mut shell = Command::new("sh");
            shell.args(["-c", &command]).arg(&path).arg(env!("CARGO_BIN_EXE_judge"));
            let said = finish(&mut shell);
            assert_eq!((said.status, said.out.lines().next()), (1, Some("race 1 3")), "{cut}");
        }
    }
}

/// What was read before is not judged as if it were all.
#[test]
fn input_that_fails_behind_its_beginning_is_told() {
    for bytes in [&DOCUMENT.as_bytes()[..27], DOCUMENT.as_bytes()] {
        // Without waiting: where no more is there, and the other end is open, a read fails.
        let (mut here, there) = UnixStream::pair().unwrap();
        there.set_nonblocking(true).unwrap();
        here.write_all(bytes).unwrap();
        let said = finish(judge(["-"]).stdin(Stdio::from(OwnedFd::from(there))));
        let told = "judge: standard input cannot be read: Resource temporarily unavailable\n";
        assert_eq!((said.status, said.out.as_str(), said.err.as_str()), (3, "", told));
    }
}

#[test]
fn files_that_cannot_be_read_are_told() {
    let folder = folder();
    let link = folder.join("link");
    symlink(&link, &link).unwrap();
    let below = Path::new("/dev/null/below").to_path_buf();
    let long = folder.join("x".repeat(300));
    for (path, why) in [
        (&*folder, "Is a directory"),
        (&link, "Too many levels of symbolic links"),
        (&below, "Not a directory"),
        (&long, "File name too long"),
    ] {
        let said = run([path]);
        let told = format!("judge: {} cannot be read: {why}\n", path.display());
        assert_eq!((said.status, said.out.as_str(), said.err), (3, "", told));
    }
    let secret = folder.join("secret");
    fs::write(&secret, DOCUMENT).unwrap();
    fs::set_permissions(&secret, fs::Permissions::from_mode(0o0)).unwrap();
    // Who may read everything judges it.
    let wanted = if File::open(&secret).is_ok() { 1 } else { 3 };
    assert_eq!(run([&secret]).status, wanted);
}

#[test]
fn an_endless_input_is_answered() {
    for (input, status, line) in [
        ("/dev/zero", 3, ""),
        ("/dev/full", 3, ""),
        ("/dev/stdin", 2, "refused 14 0"),
        ("-", 2, "refused 14 0"),
    ] {
        let mut command = judge([input]);
        let mut child = Command::new("yes").stdout(Stdio::piped()).spawn().unwrap();
        command.stdin(child.stdout.take().unwrap());
        let said = finish(&mut command);
        assert_eq!((said.status, said.out.lines().next().unwrap_or_default()), (status, line));
        if status == 3 {
            let told = "is too long for a binary trace: more than 1,048,576 bytes";
            assert_eq!(said.err, format!("judge: {input} {told}\n"));
        }
        drop(command);
        child.kill().unwrap();
        child.wait().unwrap();
    }
}

#[test]
fn no_more_is_read_than_decides() {
    for (byte, bytes_read) in [(b'x', TEXT_BYTES), (0, (1 << 20) + 1)] {
        let long = file([byte].repeat(3 << 20));
        // The command's standard input and this file have one position.
        let mut input = File::open(&*long).unwrap();
        finish(judge(["-"]).stdin(input.try_clone().unwrap()));
        assert_eq!(input.stream_position().unwrap(), bytes_read as u64);
    }
}

#[test]
fn what_follows_the_bytes_that_decide_changes_nothing() {
    let line = "T65535|fork(T65535)|65535\n";
    let long = line.repeat(TEXT_BYTES / line.len());
    assert_eq!(long.len(), TEXT_BYTES);
    for more in ["", "x", "T0|r(V1)|1\n", "\0\0\0\0"] {
        let said = run([&file(format!("{long}{more}"))]);
        assert_eq!(
            (said.status, said.out.lines().next()),
            (2, Some("refused 15 2048")),
            "{more:?}"
        );
    }
}

#[test]
fn the_binary_form_takes_32768_events() {
    let reads = |number| binary(repeat_n(Event::read(0, 5), number));
    let said = run([&file(reads(MAX_EVENTS))]);
    assert_eq!((said.status, said.out.lines().next()), (0, Some("clean 32768")));
    let said = run([&file(reads(MAX_EVENTS + 1))]);
    assert_eq!((said.status, said.out.lines().next()), (2, Some("refused 2 0")));
    assert!(said.out.contains("The trace has 32,769 events, from 0 to 32768."));
    let said = run([&file(reads(0))]);
    assert_eq!((said.status, said.out.lines().next()), (0, Some("clean 0")));
}

/// The bytes of a damaged binary trace are no trace, and there is no answer.
#[track_caller]
fn damaged(bytes: &[u8], why: &str) {
    let path = file(bytes);
    let said = run([&path]);
    assert_eq!((said.status, said.out.as_str()), (3, ""));
    let told = format!("judge: {} is a damaged binary trace: ", path.display());
    let told = said.err.strip_prefix(&told).unwrap_or_else(|| panic!("{}", said.err));
    assert!(told.contains(why), "{told}");
}

#[test]
fn damaged_binary_traces_are_told() {
    let whole = binary([Event::fork(0, 1), Event::write(1, 5)]);
    // With its first byte alone it looks like a text.
    for end in 2..8 {
        damaged(&whole[..end], &format!("{end} bytes are no trace"));
    }
    for end in 8..whole.len() {
        damaged(&whole[..end], "too short: 2 events take 18 bytes");
    }
    damaged(&[&whole[..], &[0]].concat(), "too long: 2 events take 18 bytes");
    let one = binary([Event::write(0, 5)]);
    damaged(&one[..12], "too short: 1 event takes 13 bytes, but there are 12");
    damaged(&[0], "1 byte is no trace");
    for byte in 4..whole.len() {
        let mut changed = whole.clone();
        changed[byte] ^= 1;
        damaged(&changed, "the checksum is");
    }
    let mut more = whole.clone();
    more[0] += 1;
    damaged(&more, "too short: 3 events take 23 bytes");
    damaged(&[0; 8], "the checksum is");
}

#[test]
fn a_text_of_two_bytes_a_letter_is_known() {
    for wide in [u16::to_le_bytes, u16::to_be_bytes] {
        let marked = format!("\u{feff}{DOCUMENT}");
        let bytes: Vec<u8> = marked.encode_utf16().flat_map(wide).collect();
        let path = file(bytes);
        let said = run([&path]);
        let told = "is a text of two bytes a letter (UTF-16): save it as plain text";
        assert_eq!((said.status, said.out.as_str()), (3, ""));
        assert_eq!(said.err, format!("judge: {} {told}\n", path.display()));
    }
    // A trace that begins as such a text does is one.
    for events in [0xfeff, 0xfffe] {
        let said = run([&file(binary(repeat_n(Event::read(0, 5), events)))]);
        assert_eq!((said.status, said.out.lines().next()), (2, Some("refused 2 0")));
    }
}

/// What is said of a plan's file: the status, the first line and what is told on standard error.
#[track_caller]
fn planned(path: &Path, status: i32, line: &str, told: &str) {
    let said = run(["plan".as_ref(), path.as_os_str()]);
    let err =
        if told.is_empty() { String::new() } else { format!("judge: {} {told}\n", path.display()) };
    assert_eq!((said.status, said.out.lines().next().unwrap_or_default()), (status, line));
    assert_eq!(said.err, err);
    assert!(said.out.lines().all(|line| line.len() <= 100), "{}", said.out);
    assert!(said.out.bytes().all(|byte| matches!(byte, b'\n' | b' '..=b'~')), "{}", said.out);
}

#[test]
fn plan_files_of_all_sorts_are_answered_or_told() {
    let folder = folder();
    planned(&folder, 3, "", "cannot be read: Is a directory");
    planned(&folder.join("missing"), 3, "", "cannot be read: No such file or directory");
    for (content, line) in [
        (Vec::new(), "refused 17 0"),
        (b"\n".to_vec(), "refused 17 0"),
        (b"S(w3,P(r3,r3))\r\n".to_vec(), "refused 17 14"),
        (binary([Event::fork(0, 1), Event::write(1, 5)]), "refused 17 0"),
        ((0..=255).collect(), "refused 17 0"),
        (b"S(".repeat(100_000), "refused 18 128"),
        (b"P(r1,".repeat(100_000), "refused 18 320"),
        (b"S(".repeat(64), "refused 17 128"),
        (b"(".repeat(3 << 20), "refused 17 0"),
        (b"r1".repeat(3 << 20), "refused 17 2"),
        (vec![0; 3 << 20], "refused 17 0"),
    ] {
        planned(&file(content), 2, line, "");
    }
}

/// A plan of twice as many leaves each time.
fn doubled(times: usize) -> String {
    (0..times).fold("r1023".to_string(), |plan, _| format!("S({plan},{plan})"))
}

#[test]
fn a_plan_of_16_megabytes_is_read_whole_and_no_longer_one() {
    // 1,048,576 leaves, and twice as many.
    let (whole, long) = (doubled(20), doubled(21));
    assert!(whole.len() < 1 << 24 && long.len() > 1 << 24);
    planned(&file(&whole), 2, "refused 19 0", "");
    let at = format!("refused 17 {}", whole.len());
    planned(&file(format!("{whole},")), 2, &at, "");
    planned(&file(format!("{whole}\n\n")), 2, &at, "");
    planned(&file(&whole[..whole.len() - 1]), 2, &format!("refused 17 {}", whole.len() - 1), "");
    let told = "is too long for a plan: more than 16,777,216 bytes";
    planned(&file(&long), 3, "", told);
    // A byte that is refused decides, however long the file is.
    planned(&file(long.replacen("r1023", "r1024", 1)), 2, "refused 17 46", "");
    let mut input = File::open(&*file(&long)).unwrap();
    finish(judge(["plan", "-"]).stdin(input.try_clone().unwrap()));
    assert_eq!(input.stream_position().unwrap(), (1 << 24) + 1);
}

#[test]
fn an_endless_plan_is_answered() {
    for (words, status, line) in
        [("S(", 2, "refused 17 2"), ("r1", 2, "refused 17 2"), ("", 2, "refused 17 0")]
    {
        let mut command = judge(["plan", "-"]);
        let mut child = Command::new("yes").arg(words).stdout(Stdio::piped()).spawn().unwrap();
        command.stdin(child.stdout.take().unwrap());
        let said = finish(&mut command);
        assert_eq!((said.status, said.out.lines().next()), (status, Some(line)), "{words}");
        drop(command);
        child.kill().unwrap();
        child.wait().unwrap();
    }
    let said = run(["plan", "/dev/zero"]);
    assert_eq!((said.status, said.out.lines().next()), (2, Some("refused 17 0")));
}

/// Plans with some bytes changed, and noise: what is said is what the library says.
#[test]
fn noise_for_a_plan_is_answered_and_nothing_panics() {
    let mut rng = Rng::new(8);
    let mut met = [0; 3];
    for _ in 0..300 {
        let mut bytes = match rng.below(4) {
            0 => noise(&mut rng),
            _ => plan_at_random(&mut rng, 5).into_bytes(),
        };
        if rng.chance(1, 3) {
            let at = rng.below(bytes.len() + 1);
            bytes.insert(at, rng.cell(256) as u8);
        }
        let (status, line) = match Plan::parse(bytes.strip_suffix(b"\n").unwrap_or(&bytes)) {
            Err(PlanError { refusal: Refusal { row, position }, .. }) => {
                (2, format!("refused {row} {position}"))
            }
            Ok(plan) => match racejudge::judge(plan.trace()).expect("it keeps the rules") {
                Verdict::Race { s, t, .. } => (1, format!("race {s} {t}")),
                Verdict::Clean { .. } => (0, format!("clean {}", plan.trace().len())),
            },
        };
        let path = file(&bytes);
        planned(&path, status, &line, "");
        let json = run(["plan".as_ref(), "--json".as_ref(), path.as_os_str()]);
        let object = common::json::Json::parse(json.out.trim_end()).expect("it is JSON");
        assert_eq!((json.status, object.field("said").text()), (status, &line[..]));
        met[status as usize] += 1;
    }
    assert!(met.iter().all(|&met| met > 30), "{met:?}");
}

/// A file of noise: of any bytes, of bytes that traces have, or a trace with some bytes changed.
fn noise(rng: &mut Rng) -> Vec<u8> {
    let length = rng.below(300);
    let letters = b"T0123456789|rwforkjoin(V)\n\r\t \0\x1b\xff";
    let whole =
        binary([Event::fork(0, 1), Event::write(1, 5), Event::halt(1, 0), Event::read(0, 5)]);
    match rng.below(4) {
        0 => (0..length).map(|_| rng.cell(256) as u8).collect(),
        1 => (0..length).map(|_| letters[rng.below(letters.len())]).collect(),
        kind => {
            let mut bytes = if kind == 2 { whole } else { DOCUMENT.as_bytes().to_vec() };
            for _ in 0..rng.below(4) {
                let at = rng.below(bytes.len());
                bytes[at] = rng.cell(256) as u8;
            }
            bytes
        }
    }
}

#[test]
fn noise_is_answered_or_told_and_nothing_panics() {
    let mut rng = Rng::new(7);
    let mut met = [0; 4];
    for _ in 0..400 {
        let bytes = noise(&mut rng);
        let path = file(&bytes);
        let words = run([&path]);
        let json = run(["--json".as_ref(), path.as_os_str()]);
        let order = run(["order".as_ref(), path.as_os_str(), "0".as_ref(), "1".as_ref()]);
        let cards = run(["cards".as_ref(), path.as_os_str()]);
        assert_eq!(words.status, json.status, "{bytes:?}");
        assert_eq!(words.status, cards.status, "{bytes:?}");
        assert_eq!(words == cards, words.status > 0, "{bytes:?}");
        assert_eq!(words.out.is_empty(), words.status == 3, "{bytes:?}");
        assert_eq!(words.err.is_empty(), words.status < 3, "{bytes:?}");
        assert_eq!(order.status == 3, words.status == 3, "{bytes:?}");
        common::json::Json::parse(json.out.trim_end()).expect("it is JSON");
        let mut told = [words.out, cards.out].concat().into_bytes().into_iter();
        assert!(told.all(|byte| matches!(byte, b'\n' | b' '..=b'~')), "{bytes:?}");
        met[words.status as usize] += 1;
    }
    assert!(met[1] > 20 && met[2] > 100 && met[3] > 50, "{met:?}");
}
