//! A race in words: the pair, why nothing orders it, and the two orders.

use super::page::Page;
use super::ways::ways;
use crate::answer;
use crate::phrases::{capital, leaf, tasks, verb};
use crate::study::{Clash, Scene, Study};
use crate::why::Why;
use racejudge::{Kind, Refusal, Verdict};
use std::ops::Range;

/// A race of s and t, with its two orders, shown whole or only around the pair.
pub struct Race<'a> {
    s: usize,
    t: usize,
    names: Names,
    orders: [&'a [u16]; 2],
    why: Option<&'a Why>,
    /// The rule that the trace breaks behind the race.
    broken: Option<Refusal>,
    whole: bool,
}

/// What the two accesses are called.
struct Names {
    s: String,
    t: String,
    both: String,
}

impl Names {
    fn of_events(s: usize, t: usize) -> Names {
        let [one, other] = [s, t].map(|p| format!("event {p}"));
        Names { s: one, t: other, both: format!("events {s} and {t}") }
    }

    fn of_leaves(clash: &Clash) -> Names {
        let [s, t] = [clash.s, clash.t].map(leaf);
        let both = format!("{s} and {t}");
        Names { s, t, both }
    }
}

impl<'a> Race<'a> {
    /// None where there is no race. That of a plan is of two leaves.
    pub fn of(study: &'a Study, clash: Option<&Clash>, whole: bool) -> Option<Self> {
        let Ok(Verdict::Race { s, t, first, second, .. }) = &study.answer else {
            return None;
        };
        let names = clash.map_or_else(|| Names::of_events(*s, *t), Names::of_leaves);
        let (orders, why, broken) = ([&first[..], &second[..]], study.why.as_ref(), study.broken);
        Some(Race { s: *s, t: *t, names, orders, why, broken, whole })
    }
}

impl Race<'_> {
    pub fn tell(&self, page: &mut Page, scene: &Scene) {
        page.say(&self.head(scene));
        page.rows(scene.full_rows(&[self.s, self.t], self.t));
        if let Some(why) = self.why {
            ways(page, scene, why, self.t);
            self.remedy(page, scene, why);
        }
        self.orders(page, "judge --orders");
        // Of a sum it is not plain in which order it counts.
        let has_sum = [self.s, self.t].iter().any(|&p| scene.kind(p) == Some(Kind::Sum));
        if let Some(outcome) = self.outcome(scene).filter(|_| has_sum) {
            page.say(&outcome);
        }
        self.outlook(page, scene, "trace");
    }

    pub fn head(&self, scene: &Scene) -> String {
        let Names { s, t, both } = &self.names;
        let location = self.location(scene);
        let verb_of = |p| scene.kind(p).and_then(verb).unwrap_or("touches");
        let what = match (scene.kind(self.s), scene.kind(self.t)) {
            (Some(Kind::Write), Some(Kind::Write)) => {
                format!("{both} both write location {location}")
            }
            _ => {
                let (one, other) = (verb_of(self.s), verb_of(self.t));
                format!("{s} {one} location {location}, {t} {other} it")
            }
        };
        format!("{}, and nothing orders them:", capital(&what))
    }

    /// The two orders; where they are cut, `whole` has all.
    pub fn orders(&self, page: &mut Page, whole: &str) {
        let orders = self.orders.map(|order| self.order(order));
        let is_cut = orders.iter().any(Order::is_cut);
        let more = if is_cut { format!(" ({whole} has all)") } else { String::new() };
        page.say(&format!(
            "Both orders can happen. They differ only in the two events in brackets{more}:"
        ));
        page.rows(orders.iter().map(Order::row));
    }

    fn location(&self, scene: &Scene) -> u16 {
        scene.trace.event(self.t).map_or(0, |event| event.operand)
    }

    /// What the two orders come to.
    pub fn outcome(&self, scene: &Scene) -> Option<String> {
        let (location, Names { s, t, .. }) = (self.location(scene), &self.names);
        let of_s_and_t = (scene.kind(self.s)?, scene.kind(self.t)?);
        // A read or a sum is changed by what it comes behind. In the first order t comes behind s.
        let (ahead, behind, [with, without]) = match of_s_and_t {
            (Kind::Read, _) | (Kind::Sum, Kind::Write) => (t, s, ["second", "first"]),
            _ => (s, t, ["first", "second"]),
        };
        let right_after = format!("Right after the two, location {location} holds what");
        Some(match of_s_and_t {
            (Kind::Write, Kind::Write) => format!(
                "{right_after} {behind} writes in the {with} order, and what {ahead} writes in the \
                 {without}."
            ),
            (Kind::Write, Kind::Sum) | (Kind::Sum, Kind::Write) => format!(
                "{right_after} {ahead} writes: in the {with} order with what {behind} adds, in the \
                 {without} without."
            ),
            (kind, Kind::Read) | (Kind::Read, kind) => {
                let does = if kind == Kind::Sum { "adds" } else { "writes" };
                format!(
                    "In the {with} order {behind} sees what {ahead} {does}, in the {without} it does \
                     not."
                )
            }
            _ => return None,
        })
    }

    /// What would have ordered the two.
    fn remedy(&self, page: &mut Page, scene: &Scene, why: &Why) {
        let (actor, before) = (scene.task(self.t), scene.mention(self.t));
        let in_order = if why.unjoined.len() > 1 { ", in this order," } else { "" };
        let joined = tasks(&why.unjoined);
        page.add(&format!(
            "If task {actor} joined {joined}{in_order} before {before}, the two would be ordered."
        ));
        if let (Some(later), Some(last)) = (why.joined_later, why.unjoined.last()) {
            let (joiner, mention) = (scene.task(later), scene.mention(later));
            page.add(&format!("Task {joiner} joins task {last} too late: {mention}."));
        }
    }

    /// What may come once the race is mended: nothing behind it was judged.
    pub fn outlook(&self, page: &mut Page, scene: &Scene, of: &str) {
        page.say(&format!(
            "This is the first race of the {of}. Others may follow once it is mended."
        ));
        if let Some(refusal) = &self.broken {
            let (line, meaning) = (answer::refused(refusal), refusal.meaning());
            page.add(&format!("Later a rule is broken too: {line} ({meaning})."));
            let event = scene.mention(refusal.position);
            page.add(&format!(
                "The trace is refused there, at {event}, once no race comes before."
            ));
        }
    }

    /// An order with the pair in brackets: whole where that is wanted or fits in a row, else as much
    /// of it around the pair as fits.
    fn order(&self, order: &[u16]) -> Order {
        let is_of_pair = |&event: &u16| [self.s, self.t].contains(&event.into());
        let at = order.iter().position(is_of_pair).unwrap_or_default();
        let mut words: Vec<String> = order.iter().map(u16::to_string).collect();
        if let Some([one, other]) = words.get_mut(at..).and_then(|rest| rest.first_chunk_mut()) {
            one.insert(0, '[');
            other.push(']');
        }
        let whole = self.whole || words.join(" ").len() <= Page::row_width();
        let shown = if whole { 0..words.len() } else { around(&words, at) };
        Order { words, shown }
    }
}

/// An order, and the part of it that is shown.
struct Order {
    words: Vec<String>,
    shown: Range<usize>,
}

impl Order {
    fn is_cut(&self) -> bool {
        self.shown.len() < self.words.len()
    }

    fn row(&self) -> String {
        let left_out = |number: usize| (number > 0).then(|| format!("({number} left out)"));
        let before = left_out(self.shown.start);
        let after = left_out(self.words.len() - self.shown.end);
        let shown = self.words[self.shown.clone()].iter().cloned();
        before.into_iter().chain(shown).chain(after).collect::<Vec<_>>().join(" ")
    }
}

/// The part around the pair at a place that fits in a row, beside the counts of what is left out.
fn around(words: &[String], at: usize) -> Range<usize> {
    let counts = 2 * format!("({} left out) ", words.len()).len();
    let room = Page::row_width().saturating_sub(counts);
    let mut shown = at..words.len().min(at + 2);
    loop {
        let (left, right) = (at - shown.start, shown.end - at);
        // The shorter side grows, so that the pair stands in the middle.
        let grown = match (shown.start, words.len() - shown.end) {
            (0, 0) => return shown,
            (1.., 0) => shown.start - 1..shown.end,
            (1.., _) if left <= right => shown.start - 1..shown.end,
            _ => shown.start..shown.end + 1,
        };
        if words[grown.clone()].join(" ").len() > room {
            return shown;
        }
        shown = grown;
    }
}
