//! Whatever comes in, something is said of it, and nothing panics.

use racejudge::{
    cards, judge, max_pairs, pairs, raw, reaches, Card, Event, Kind, Pair, Trace, Verdict, CLOSE,
    MAX_LINKS, MAX_TEXT_EVENTS,
};
use racejudge_bench::rng::Rng;

struct Noise(Rng);

impl Noise {
    fn new(seed: u64) -> Self {
        Noise(Rng::new(seed))
    }

    fn below(&mut self, bound: usize) -> usize {
        self.0.below(bound)
    }

    fn byte(&mut self) -> u8 {
        self.below(256) as u8
    }

    fn bytes(&mut self, most: usize) -> Vec<u8> {
        let n = self.below(most + 1);
        (0..n).map(|_| self.byte()).collect()
    }

    /// An event of small numbers, so that rules are kept now and then.
    fn event(&mut self) -> Event {
        let [kind, task, operand] = [7, 3, 3].map(|bound| self.below(bound));
        Event { kind: kind as u8, task: task as u16, operand: operand as u16 }
    }

    /// A line of the form, or nearly.
    fn line(&mut self) -> String {
        let [a, b, c] = [3, 3, 70_000].map(|bound| self.below(bound));
        let form = ["r(V", "w(V", "fork(T", "join(T", "halt(T", "s(V"][self.below(6)];
        format!("T{a}|{form}{b})|{c}\n")
    }
}

/// What is said of the close pairs, beside what the judge and the ordering call say.
fn listed(trace: &Trace) {
    let (verdict, told) = (judge(trace), pairs(trace));
    assert_eq!(told.as_ref().err(), reaches(trace, 0, 0).err().filter(|it| it.row != 13).as_ref());
    let Ok(told) = told else { return };
    assert!(told.len() <= max_pairs(trace.len()));
    assert!(told.clone().is_sorted_by_key(|Pair { s, t }| (t, s)));
    for Pair { s, t } in told.clone() {
        assert!(s < t && t - s <= CLOSE && reaches(trace, s, t) == Ok(false));
    }
    match verdict {
        Ok(Verdict::Race { s, t, .. }) => {
            let first = told.clone().next();
            assert_eq!(first.filter(|_| t - s <= CLOSE), Some(Pair { s, t }));
        }
        verdict => assert_eq!((told.len(), verdict.is_ok()), (0, true)),
    }
}

/// Every question that there is about a trace; what is said holds together.
fn asked(trace: &Trace, noise: &mut Noise) {
    listed(trace);
    let verdict = judge(trace);
    if let Ok(Verdict::Race { s, t, first, second, .. }) = &verdict {
        assert!(s < t && *t < trace.len());
        for order in [first, second] {
            let mut sorted = order.clone();
            sorted.sort_unstable();
            assert!(sorted.into_iter().map(usize::from).eq(0..=*t));
        }
    }
    let far = [0, noise.below(trace.len() + 2), usize::MAX][noise.below(3)];
    let path = reaches(trace, noise.below(trace.len() + 1), far);
    if let Ok(verdict) = &verdict {
        let joins = trace.events().filter(|event| event.kind() == Some(Kind::Join)).count();
        assert!(verdict.links() <= joins.min(MAX_LINKS));
    }
    if matches!(verdict, Ok(Verdict::Clean { .. })) {
        assert!(path.map_or_else(|refusal| refusal.row == 13, |_| true));
    }
    match (cards(trace), verdict) {
        (Ok(Some(cards)), Ok(Verdict::Clean { .. })) => {
            let accesses = trace.events().filter(|event| event.kind().is_some_and(Kind::is_access));
            assert_eq!(cards.iter().map(Card::accesses).sum::<usize>(), accesses.count());
        }
        (cards, verdict) => assert_eq!(cards, verdict.map(|_| None)),
    }
    trace.events().for_each(|event| drop(event.to_string()));
    let mut converted = trace.clone();
    match converted.convert() {
        Ok(told) => {
            let end = told.stopped.unwrap_or(trace.len());
            assert!(trace.events().skip(end).eq(converted.events().skip(end)));
            assert!(told.broken.is_none_or(|refusal| refusal.position >= end));
        }
        Err(refusal) => assert!(refusal.row == 1 && &converted == trace),
    }
}

#[test]
fn traces() {
    let noise = &mut Noise::new(1);
    for _ in 0..3_000 {
        let n = noise.below(40);
        let trace: Trace = (0..n).map(|_| noise.event()).collect();
        asked(&trace, noise);
        let bytes = trace.to_binary().expect("slices of one length");
        assert_eq!(Trace::from_binary(&bytes).as_ref(), Ok(&trace));
        let mut cut = |most: usize| noise.below(most + 1);
        let uneven = Trace::from_slices(
            &trace.kinds()[..cut(n)],
            &trace.tasks()[..cut(n)],
            &trace.operands()[..cut(n)],
        );
        asked(&uneven, noise);
    }
}

#[test]
fn texts() {
    let noise = &mut Noise::new(2);
    let mut accepted = 0;
    for _ in 0..3_000 {
        let lines = noise.below(8);
        let mut text: Vec<u8> = (0..lines).flat_map(|_| noise.line().into_bytes()).collect();
        if noise.below(2) == 0 && !text.is_empty() {
            let at = noise.below(text.len());
            text[at] = noise.byte();
        }
        if let Ok(trace) = Trace::from_text(&text) {
            accepted += 1;
            assert!((0..trace.len()).all(|p| trace.place(p).is_some()));
            asked(&trace, noise);
        }
        let bytes = noise.bytes(200);
        assert_eq!(Trace::from_text(&bytes).is_ok(), bytes.is_empty());
    }
    assert!(accepted > 100, "{accepted}");
}

#[test]
fn binaries() {
    let noise = &mut Noise::new(3);
    for _ in 0..3_000 {
        let mut bytes = noise.bytes(100);
        // Half of them with a length that fits.
        if bytes.len() >= 8 && noise.below(2) == 0 {
            let n = (bytes.len() - 8) / 5;
            bytes.truncate(8 + 5 * n);
            bytes[..4].copy_from_slice(&(n as u32).to_le_bytes());
        }
        let damage = Trace::from_binary(&bytes).expect_err("no checksum fits by chance");
        assert!(!damage.to_string().is_empty());
    }
}

#[test]
fn lent_slices() {
    let noise = &mut Noise::new(4);
    for _ in 0..300 {
        let text = noise.line();
        let mut length = || MAX_TEXT_EVENTS - 2 + noise.below(4);
        let (mut kinds, mut tasks, mut operands) =
            (vec![9; length()], vec![9; length()], vec![9; length()]);
        let short = [kinds.len(), tasks.len(), operands.len()].iter().any(|&n| n < MAX_TEXT_EVENTS);
        let told = raw::translate(text.as_bytes(), &mut kinds, &mut tasks, &mut operands);
        assert_eq!(told.code == raw::SHORT, short);
        let n = if told.code == raw::TRANSLATED { told.values[0] as usize } else { 0 };
        assert!(kinds[n..].iter().all(|&cell| cell == 9));
        assert!(tasks[n..].iter().chain(&operands[n..]).all(|&cell| cell == 9));
    }
}
