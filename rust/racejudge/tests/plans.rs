//! Plans: their traces, their leaves, where these meet, and the texts that are refused.

use racejudge::{
    judge, raw, reaches, Event, Kind, Operator, Plan, PlanError, Refusal, Tree, Verdict, MAX_DEPTH,
    MAX_EVENTS, TASKS,
};
use racejudge_bench::rng::Rng;
use std::error::Error;

fn accepted(text: &str) -> Plan {
    Plan::parse(text).unwrap_or_else(|error| panic!("{text:.60}: {error}"))
}

fn refused(text: impl AsRef<[u8]>) -> PlanError {
    Plan::parse(text).expect_err("no plan")
}

/// The row and the position of a refusal.
fn row(text: impl AsRef<[u8]>) -> (usize, usize) {
    let Refusal { row, position } = refused(text).refusal;
    (row, position)
}

/// A plan of so many leaves, as flat as it can be.
fn balanced(operator: char, leaves: usize) -> String {
    if leaves == 1 {
        return "r7".to_string();
    }
    let (left, right) = (leaves / 2, leaves - leaves / 2);
    format!("{operator}({},{})", balanced(operator, left), balanced(operator, right))
}

/// One leaf within so many operators, in their left operands or in their right ones.
fn nested(operator: char, depth: usize, is_left: bool) -> String {
    let (open, close) = match is_left {
        true => (format!("{operator}("), ",w1)"),
        false => (format!("{operator}(w1,"), ")"),
    };
    open.repeat(depth) + "r2" + &close.repeat(depth)
}

/// A leaf's letter, and its event by a task and a location.
type Access = (char, fn(u16, u16) -> Event);

const ACCESSES: [Access; 3] = [('r', Event::read), ('w', Event::write), ('s', Event::sum)];

/// From the top to a leaf: S or P, and whether it goes left.
type Way = Vec<(char, bool)>;

/// A plan at random and what K4 says of it, written down anew: its text, its events, and of each leaf
/// its byte, its event and the way to it.
#[derive(Default)]
struct Sample {
    text: String,
    events: Vec<Event>,
    leaves: Vec<(usize, usize, Way)>,
    forks: u16,
}

impl Sample {
    fn new(rng: &mut Rng, depth: usize) -> Self {
        let mut sample = Sample::default();
        sample.put(rng, 0, depth, &mut Vec::new());
        sample
    }

    fn put(&mut self, rng: &mut Rng, actor: u16, depth: usize, way: &mut Way) {
        match rng.below(5) {
            2 | 3 if depth > 0 => self.both('S', rng, actor, depth, way),
            4 if depth > 0 => self.both('P', rng, actor, depth, way),
            _ => self.leaf(rng, actor, way),
        }
    }

    fn leaf(&mut self, rng: &mut Rng, actor: u16, way: &[(char, bool)]) {
        let location = rng.one_of(&[0, 1, 9, 10, 99, 100, 999, 1_000, 1_023]) as u16;
        let (letter, event) = ACCESSES[rng.below(ACCESSES.len())];
        self.leaves.push((self.text.len(), self.events.len(), way.to_vec()));
        self.text += &format!("{letter}{location}");
        self.events.push(event(actor, location));
    }

    fn both(&mut self, letter: char, rng: &mut Rng, actor: u16, depth: usize, way: &mut Way) {
        let is_parallel = letter == 'P';
        self.forks += u16::from(is_parallel);
        let child = if is_parallel { self.forks } else { actor };
        self.events.extend(is_parallel.then(|| Event::fork(actor, child)));
        for (is_left, before, task) in
            [(true, format!("{letter}("), child), (false, ",".into(), actor)]
        {
            self.text += &before;
            way.push((letter, is_left));
            self.put(rng, task, depth - 1, way);
            way.pop();
            self.events.extend((is_parallel && is_left).then(|| Event::halt(child, actor)));
        }
        self.text.push(')');
        self.events.extend(is_parallel.then(|| Event::join(actor, child)));
    }

    /// Where two leaves meet, and whether the first is on the left there.
    fn meet(&self, one: usize, other: usize) -> (char, bool) {
        let (one, other) = (&self.leaves[one].2, &self.leaves[other].2);
        let shared = one.iter().zip(other).take_while(|(a, b)| a == b).count();
        one[shared]
    }
}

#[test]
fn document_02() {
    let plan = accepted("S(w3,P(r3,r3))");
    let events = [
        Event::write(0, 3),
        Event::fork(0, 1),
        Event::read(1, 3),
        Event::halt(1, 0),
        Event::read(0, 3),
        Event::join(0, 1),
    ];
    assert!(plan.trace().events().eq(events));
    assert_eq!(judge(plan.trace()), Ok(Verdict::Clean { links: 1 }));
    let places: Vec<_> = plan.leaves().map(|leaf| (leaf.to_string(), leaf.range())).collect();
    assert_eq!(places, [("w3".into(), 2..4), ("r3".into(), 7..9), ("r3".into(), 10..12)]);
    let Tree::Node(root) = plan.tree() else { panic!("{plan}") };
    assert_eq!((root.operator, root.position, root.right.position()), (Operator::Series, 0, 5));
    assert_eq!([&root.left, &root.right].map(Tree::to_string), ["w3", "P(r3,r3)"]);
}

#[test]
fn a_lone_leaf() {
    for (text, event) in
        [("r0", Event::read(0, 0)), ("w1023", Event::write(0, 1_023)), ("s10", Event::sum(0, 10))]
    {
        let plan = accepted(text);
        assert!(plan.trace().events().eq([event]));
        let leaves: Vec<_> = plan.leaves().collect();
        let [leaf] = leaves[..] else { panic!("{text}") };
        assert_eq!((leaf.range(), leaf.event, leaf.location), (0..text.len(), 0, event.operand));
        assert_eq!((Some(leaf.kind), plan.meet(leaf, leaf)), (event.kind(), None));
    }
}

/// Also K4's sentence on two leaves, by the proved ordering call.
#[test]
fn plans_at_random_are_what_was_written_down() {
    let mut rng = Rng::new(1);
    let (mut leaves, mut ordered, mut unordered) = (0, 0, 0);
    for _ in 0..600 {
        let depth = rng.below(8);
        let sample = Sample::new(&mut rng, depth);
        let plan: Plan = sample.text.parse().expect("a plan");
        assert_eq!(plan.to_string(), sample.text);
        assert!(plan.trace().events().eq(sample.events.iter().copied()), "{plan}");
        let places = plan.leaves().map(|leaf| (leaf.position, leaf.event));
        assert!(places.eq(sample.leaves.iter().map(|&(at, event, _)| (at, event))), "{plan}");
        for (p, event) in sample.events.iter().enumerate() {
            let leaf = plan.leaf_of(p).map(|leaf| (leaf.kind, leaf.location));
            let access = event.kind().filter(|kind| kind.is_access());
            assert_eq!(leaf, access.map(|kind| (kind, event.operand)), "{plan}");
        }
        let all: Vec<_> = plan.leaves().collect();
        leaves += all.len();
        for _ in 0..20 {
            let (a, b) = (rng.below(all.len()), rng.below(all.len()));
            if a == b {
                continue;
            }
            let (letter, is_left) = sample.meet(a, b);
            let node = plan.meet(all[a], all[b]).expect("two leaves meet");
            assert_eq!(node.operator.to_string(), letter.to_string(), "{plan}");
            assert_eq!(sample.text.as_bytes()[node.position], letter as u8, "{plan}");
            assert_eq!(Some(node), plan.meet(all[b], all[a]));
            assert_eq!(is_left, a < b);
            let path = reaches(plan.trace(), all[a].event, all[b].event);
            assert_eq!(path, Ok(letter == 'S' && is_left), "{plan}: {a} to {b}");
            *(if letter == 'S' { &mut ordered } else { &mut unordered }) += 1;
        }
    }
    assert!(leaves > 2_000 && ordered > 1_000 && unordered > 500, "{leaves} {ordered} {unordered}");
}

#[test]
fn bytes_that_cannot_continue_a_plan() {
    for (text, position) in [
        ("", 0),
        ("r", 1),
        ("r1024", 4),
        ("r10230", 5),
        ("r01", 2),
        ("r00", 2),
        ("r+1", 1),
        ("r3\n", 2),
        ("r3\r\n", 2),
        ("r3 ", 2),
        (" r3", 0),
        ("r3r3", 2),
        ("r3,r3", 2),
        ("r3)", 2),
        ("x3", 0),
        ("R3", 0),
        ("s(r3,r3)", 1),
        ("p(r3,r3)", 0),
        ("S", 1),
        ("S(", 2),
        ("Sr3,r3)", 1),
        ("S(r3", 4),
        ("S(r3)", 4),
        ("S(r3,", 5),
        ("S(r3,)", 5),
        ("S(,r3)", 2),
        ("S(r3,r3", 7),
        ("S(r3,r3,r3)", 7),
        ("S(r3, r3)", 5),
        ("S(r3,r3))", 8),
        ("S(r3,r3)S(r3,r3)", 8),
        ("\u{feff}r3", 0),
        ("r3\0", 2),
    ] {
        assert_eq!(row(text), (17, position), "{text:?}");
        assert_eq!(refused(text).byte, text.as_bytes().get(position).copied(), "{text:?}");
    }
}

#[test]
fn bytes_that_are_no_text() {
    for (text, position) in
        [(&b"\xff"[..], 0), (b"r3\xff", 2), (b"S(\xc3\xa9,r3)", 2), (b"r\x80", 1)]
    {
        let error = refused(text);
        assert_eq!((error.refusal.row, error.refusal.position), (17, position));
        assert_eq!(error.byte, Some(text[position]));
        let sentence = format!("no plan goes on with `\\x{:02x}` there", text[position]);
        assert!(error.to_string().ends_with(&sentence), "{error}");
    }
}

/// Whether something can follow that makes a plan of the text: the rest of what it breaks off in,
/// and what closes up to three operators.
fn is_beginning(text: &str) -> bool {
    let mut tails: Vec<String> = ["", "0", "r0", "(r0,r0)"].map(str::to_string).to_vec();
    for _ in 0..3 {
        let closed = tails.iter().flat_map(|tail| [")", ",r0)"].map(|end| format!("{tail}{end}")));
        let closed: Vec<String> = closed.collect();
        tails.extend(closed);
    }
    tails.iter().any(|tail| Plan::parse(format!("{text}{tail}")).is_ok())
}

/// All texts of up to six bytes that differ in their last byte alone from a plan's beginning.
#[test]
fn row_17_is_at_the_first_byte_that_cannot_continue_a_plan() {
    let (mut beginnings, mut tried) = (vec![String::new()], 0);
    for length in 1..=6 {
        let mut longer = Vec::new();
        for text in &beginnings {
            if let Err(error) = Plan::parse(text) {
                assert_eq!((error.refusal.position, error.byte), (text.len(), None), "{text}");
            }
            for next in "SPrws(),0123".chars() {
                let text = format!("{text}{next}");
                tried += 1;
                if is_beginning(&text) {
                    longer.push(text);
                } else {
                    assert_eq!(row(&text), (17, length - 1), "{text}");
                    assert_eq!(row(format!("{text}r0")), (17, length - 1), "{text}");
                }
            }
        }
        beginnings = longer;
    }
    assert!(tried > 4_000, "{tried}");
}

#[test]
fn as_deep_as_a_plan_may_be() {
    for operator in ['S', 'P'] {
        for is_left in [true, false] {
            let plan = accepted(&nested(operator, MAX_DEPTH, is_left));
            assert_eq!(plan.leaves().count(), MAX_DEPTH + 1);
            let level = if is_left { 2 } else { 5 };
            let deep = nested(operator, MAX_DEPTH + 1, is_left);
            assert_eq!(row(&deep), (18, level * MAX_DEPTH), "{deep}");
            assert_eq!(refused(&deep).byte, Some(operator as u8));
        }
    }
    // The letter is enough, and what follows it does not matter.
    let open = "S(".repeat(MAX_DEPTH);
    for end in ["S", "P", "Sx", "P\n", "S("] {
        assert_eq!(row(format!("{open}{end}")), (18, 128));
    }
    // Of the two rows the first that is met.
    assert_eq!(row(format!("{open}x")), (17, 128));
    assert_eq!(row(open.replacen('(', "x", 1) + "S("), (17, 1));
    assert_eq!(row("S(".repeat(1_000_000)), (18, 128));
    // Levels are open together, not in all.
    _ = accepted(&format!("S({},{})", nested('P', 63, true), nested('S', 63, false)));
}

#[test]
fn as_many_tasks_as_there_are() {
    let plan = accepted(&balanced('P', TASKS));
    assert_eq!(plan.trace().len(), TASKS + 3 * (TASKS - 1));
    let last = plan.trace().events().rfind(|event| event.kind() == Some(Kind::Fork));
    assert_eq!(last.map(|event| usize::from(event.operand)), Some(TASKS - 1));
    let error = refused(balanced('P', TASKS + 1));
    assert_eq!((error.refusal, error.byte), (Refusal { row: 19, position: 0 }, None));
    let sentence = "the call is refused by row 19: the plan needs 1025 tasks, more than 1024";
    assert_eq!(error.to_string(), sentence);
}

#[test]
fn as_many_events_as_a_trace_has() {
    let plan = accepted(&balanced('S', MAX_EVENTS));
    assert_eq!(plan.trace().len(), MAX_EVENTS);
    assert_eq!(plan.to_string(), balanced('S', MAX_EVENTS));
    let error = refused(balanced('S', MAX_EVENTS + 1));
    assert_eq!(error.refusal, Refusal { row: 19, position: 0 });
    assert!(
        error.to_string().ends_with(": the plan needs 32769 events, more than 32768"),
        "{error}"
    );
    // What a P makes counts too.
    let with = |leaves: usize| format!("P({},r1)", balanced('S', leaves));
    assert_eq!(accepted(&with(MAX_EVENTS - 4)).trace().len(), MAX_EVENTS);
    assert_eq!(row(with(MAX_EVENTS - 3)), (19, 0));
    let both = refused(balanced('P', 10_000));
    let sentence = "the plan needs 10000 tasks, more than 1024, and 39997 events, more than 32768";
    assert!(both.to_string().ends_with(sentence), "{both}");
    // It is said of whole plans alone.
    let long = balanced('S', 2 * MAX_EVENTS);
    assert_eq!(row(format!("{long}\n")), (17, long.len()));
    assert_eq!(row(&long[..long.len() - 1]), (17, long.len() - 1));
}

#[test]
fn plans_are_put_together() {
    let [write, read]: [Plan; 2] = ["w3", "r3"].map(|text| text.parse().expect("a leaf"));
    let both = Plan::parallel(&write, &read).expect("small");
    assert_eq!(both, accepted("P(w3,r3)"));
    let deep = accepted(&nested('S', MAX_DEPTH, true));
    assert_eq!(Plan::series(&read, &deep).unwrap_err().refusal, Refusal { row: 18, position: 131 });
    let wide = accepted(&balanced('P', 600));
    assert_eq!(Plan::parallel(&wide, &wide).unwrap_err().refusal.row, 19);
}

#[test]
fn a_plan_error_is_an_error() {
    fn read() -> Result<(), Box<dyn Error>> {
        _ = judge(Plan::parse("S(w3,r3")?.trace())?;
        Ok(())
    }
    let sentence = "byte 7, counted from 0, is refused by row 17: the plan breaks off there";
    assert_eq!(read().unwrap_err().to_string(), sentence);
    let deep = refused("P(".repeat(65)).to_string();
    assert!(deep.ends_with("row 18: the byte is an S or P that opens level 65"), "{deep}");
}

/// Each slice holds the events and no more is written; where one is too short nothing is.
#[test]
fn lent_slices_may_differ_in_length() {
    let text = b"S(w3,P(r3,s4))";
    let trace = accepted("S(w3,P(r3,s4))").trace().clone();
    let n = trace.len();
    for lengths in [[n, n, n], [n + 2, n, n + 1], [n - 1, n, n], [n, n - 1, n + 9], [n, n, 0]] {
        let [k, t, o] = lengths;
        let (mut kinds, mut tasks, mut operands) = (vec![99; k], vec![999; t], vec![999; o]);
        let told = raw::plan(text, &mut kinds, &mut tasks, &mut operands);
        let written = if lengths.iter().all(|&length| length >= n) { n } else { 0 };
        match written {
            0 => assert_eq!((told.code, told.values), (raw::REFUSED, [19, 0])),
            _ => assert_eq!((told.code, told.values), (raw::TRANSLATED, [n as u64, 0])),
        }
        assert_eq!(kinds[..written], trace.kinds()[..written]);
        assert_eq!(tasks[..written], trace.tasks()[..written]);
        assert_eq!(operands[..written], trace.operands()[..written]);
        assert!(kinds[written..].iter().all(|&cell| cell == 99));
        assert!(tasks[written..].iter().chain(&operands[written..]).all(|&cell| cell == 999));
    }
}

/// Whatever comes in, something is said of it, and nothing panics.
#[test]
fn noise() {
    const BYTES: &[u8] = b"SPrws(),0123456789";
    let mut rng = Rng::new(2);
    let mut met = [0; 2];
    for _ in 0..20_000 {
        let mut text = match rng.below(3) {
            0 => (0..rng.below(40)).map(|_| BYTES[rng.below(BYTES.len())]).collect(),
            _ => Sample::new(&mut rng, 4).text.into_bytes(),
        };
        for _ in 0..rng.below(2) {
            let (at, byte) = (rng.below(text.len() + 1), rng.cell(256) as u8);
            text.splice(at..(at + rng.below(2)).min(text.len()), [byte]);
        }
        match Plan::parse(&text) {
            Ok(plan) => assert_eq!(plan.to_string().as_bytes(), text),
            Err(error) => {
                assert_eq!(error.refusal.row, 17);
                assert!(error.refusal.position <= text.len());
                assert!(error.to_string().is_ascii());
            }
        }
        met[usize::from(Plan::parse(&text).is_ok())] += 1;
    }
    assert!(met.iter().all(|&met| met > 5_000), "{met:?}");
}
