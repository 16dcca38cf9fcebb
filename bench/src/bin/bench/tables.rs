//! The tables, in Markdown with columns that line up, and the summary.

use crate::peers::{Peer, AGAIN, CARDS, CHAINS, CONVERTING, JUDGING, LISTING, ORDERING, READING};
use crate::rows::{Row, Rows, SIZES};
use racejudge_bench::trace::MAX_EVENTS;
use std::iter::once;

/// The time of one peer over that of others, one after the other.
#[derive(Clone, Copy)]
struct Ratio {
    of: Peer,
    over: &'static [Peer],
}

const TWO_ORDERS: Ratio = Ratio { of: Peer::Judge, over: &[Peer::TwoOrders] };
const UNION_FIND: Ratio = Ratio { of: Peer::Judge, over: &[Peer::UnionFind] };
const FASTTRACK: Ratio = Ratio { of: Peer::Judge, over: &[Peer::FastTrack] };
const PASS: Ratio = Ratio { of: Peer::Cards, over: &[Peer::Judge, Peer::Pass] };
const BEFORE: Ratio = Ratio { of: Peer::Judge, over: &[Peer::Before] };
const LISTED: Ratio = Ratio { of: Peer::Pairs, over: &[Peer::Judge] };
const LISTED_C: Ratio = Ratio { of: Peer::Pairs, over: &[Peer::PairsC] };
const READER: Ratio = Ratio { of: Peer::Plan, over: &[Peer::PlanC] };
const CONVERSION: Ratio = Ratio { of: Peer::Conversion, over: &[Peer::Judge] };
const CONVERSION_C: Ratio = Ratio { of: Peer::Conversion, over: &[Peer::ConversionC] };

/// What the judge without cards is measured by.
const MEASURES: [Ratio; 3] = [TWO_ORDERS, UNION_FIND, FASTTRACK];

impl Ratio {
    fn in_row(self, row: &Row) -> f64 {
        row.micros(self.of) / self.over.iter().map(|&peer| row.micros(peer)).sum::<f64>()
    }

    /// The ratio's name where what is measured has this name.
    fn name(self, of: &str) -> String {
        let over: Vec<&str> = self.over.iter().map(|peer| peer.name()).collect();
        match over[..] {
            [one] => format!("{of} / {one}"),
            _ => format!("{of} / ({})", over.join(" + ")),
        }
    }
}

/// Targets, each at most this: the time over that of the two orders in C, for both calls; over
/// FastTrack's; that with cards over the judge's and the pass's; the judge's with long chains over
/// its own with short ones; over the older judge's, which told no links; that of the call for pairs
/// over the judge's, where nothing races; the plan reader's over that of the one in C; an event's in
/// the longest trace over one's in the shortest, or a byte's in the longest plan, which would be 32 if
/// growth were quadratic.
const OVER_TWO_ORDERS: f64 = 1.3;
const OVER_FASTTRACK: f64 = 1.0;
const OVER_PASS: f64 = 1.3;
const OVER_SHORT_CHAINS: f64 = 1.25;
const OVER_BEFORE: f64 = 1.25;
const PAIRS_OVER_JUDGE: f64 = 1.6;
const OVER_READER: f64 = 1.5;
const GROWTH: f64 = 2.0;

/// The same over union-find's, on a workload of full length. None where the other algorithms stop
/// at the first event that races: the two orders look at the whole trace first.
fn over_union_find(workload: &str) -> Option<f64> {
    match workload {
        "pipeline of 32 stages" => Some(0.55),
        "fork tree" => Some(0.65),
        "one task alone" => Some(1.0),
        "binomial joins, chains of 10" => Some(1.0),
        "chains of 8 climbed often" => Some(1.0),
        "chains of 7 grown 15 times" => Some(1.0),
        "random, 1,024 locations" => Some(0.55),
        "counters that all tasks add to" => Some(1.0),
        "race at the end, early partner" => Some(0.55),
        "race at the end, late partner" => Some(1.0),
        "race at event 3" => None,
        other => panic!("no target for the workload {other}"),
    }
}

/// A row of the table for each row, a column for each peer, then one for each ratio.
fn table(
    title: &str,
    rows: &[Row],
    time: fn(&Row, Peer) -> f64,
    peers: &[Peer],
    ratios: &[Ratio],
) -> String {
    let mut lines = vec![head(peers, ratios)];
    for row in rows {
        let times = peers.iter().map(|&peer| time(row, peer));
        lines.push(line(row.label(), times.chain(ratios.iter().map(|ratio| ratio.in_row(row)))));
    }
    format!("\n{title}\n\n{}", markdown(&lines))
}

fn head(peers: &[Peer], ratios: &[Ratio]) -> Vec<String> {
    let names = peers.iter().map(|peer| peer.name().to_string());
    let ratios = ratios.iter().map(|ratio| ratio.name(ratio.of.name()));
    once("workload".to_string()).chain(names).chain(ratios).collect()
}

fn line(label: String, numbers: impl Iterator<Item = f64>) -> Vec<String> {
    once(label).chain(numbers.map(two_places)).collect()
}

/// The first line is the head. The first column starts at the left, the others end at the right.
fn markdown(lines: &[Vec<String>]) -> String {
    let columns = 0..lines[0].len();
    let width = |at: usize| lines.iter().map(|line| line[at].len()).max().unwrap_or(0);
    let widths: Vec<usize> = columns.map(width).collect();
    let shown = |line: &Vec<String>| {
        let (first, rest) = (format!("| {:1$} |", line[0], widths[0]), &line[1..]);
        let pad = |(cell, width): (&String, &usize)| format!(" {cell:>width$} |");
        first + &rest.iter().zip(&widths[1..]).map(pad).collect::<String>() + "\n"
    };
    let rule: String = widths[1..].iter().map(|&width| "-".repeat(width + 1) + ":|").collect();
    let rule = format!("|{}|{rule}\n", "-".repeat(widths[0] + 2));
    shown(&lines[0]) + &rule + &lines[1..].iter().map(shown).collect::<String>()
}

/// A number with two places, or a dash where nothing was measured.
fn two_places(number: f64) -> String {
    if !number.is_finite() {
        return "-".to_string();
    }
    format!("{number:.2}")
}

pub fn all(rows: &Rows) -> String {
    let Rows { workloads, growth, ordering, cards, again, plans, plan_growth, .. } = rows;
    let full = |call: &str| format!("{call} on 32,768 events, microseconds a call:");
    let grown = "Growth of the judge, nanoseconds an event:";
    let plan_grown = "Growth of the plan reader, nanoseconds a byte:";
    let rate = "The conversion on 32,768 events, millions of events a second, and ratios of times:";
    let over = [CONVERSION, CONVERSION_C];
    let mut tables = vec![
        table(&full("The judge"), workloads, Row::micros, &JUDGING, &MEASURES),
        table(grown, growth, Row::nanos_an_event, &JUDGING, &MEASURES),
        table(&full("The ordering call"), ordering, Row::micros, &ORDERING, &MEASURES[..2]),
        table(&full("The judge with cards"), cards, Row::micros, &CARDS, &[PASS]),
        chains(&full("Long chains and short"), &rows.chains),
        pairs(&full("The call for pairs"), rows),
        table(&full("The plan reader"), plans, Row::micros, &READING, &[READER]),
        table(plan_grown, plan_growth, Row::nanos_a_byte, &READING, &[READER]),
        table(rate, &rows.conversion, Row::millions, &CONVERTING, &over),
    ];
    if !again.is_empty() {
        let title = full("The judge and the one before");
        tables.push(table(&title, again, Row::micros, &AGAIN, &[BEFORE]));
    }
    tables.concat()
}

/// The rows without races, then those with some.
fn pairs(title: &str, rows: &Rows) -> String {
    let ratios = [LISTED, LISTED_C];
    let beside = ["pairs, ns an event", "close pairs", "pairs, millions a second"];
    let mut lines = vec![head(&LISTING, &ratios)];
    lines[0].extend(beside.map(String::from));
    for row in rows.pairs.iter().chain(&rows.races) {
        let times = LISTING.iter().map(|&peer| row.micros(peer));
        let mut cells = line(row.label(), times.chain(ratios.map(|ratio| ratio.in_row(row))));
        cells.push(two_places(row.nanos_an_event(Peer::Pairs)));
        cells.push(format!("{:.0}", row.pairs()));
        cells.push(two_places(row.million_pairs(Peer::Pairs)));
        lines.push(cells);
    }
    format!("\n{title}\n\n{}", markdown(&lines))
}

const LONG_OVER_SHORT: &str = "chains of 10 / chains of 1";

/// The rows come in pairs: beneath each the time of the first over that of the second.
fn chains(title: &str, rows: &[Row]) -> String {
    let mut lines = vec![head(&CHAINS, &[])];
    for pair in rows.chunks(2) {
        for row in pair {
            lines.push(line(row.label(), CHAINS.iter().map(|&peer| row.micros(peer))));
        }
        let ratios = CHAINS.iter().map(|&peer| long_over_short(pair, peer));
        lines.push(line(LONG_OVER_SHORT.to_string(), ratios));
    }
    format!("\n{title}\n\n{}", markdown(&lines))
}

fn long_over_short(pair: &[Row], peer: Peer) -> f64 {
    pair[0].micros(peer) / pair[1].micros(peer)
}

/// A line for each target that tells whether it is met.
pub fn summary(rows: &Rows) -> String {
    let Rows { workloads, growth, ordering, cards, chains, again, plans, plan_growth, .. } = rows;
    let judged = workloads.iter().chain(growth).map(|row| (row, OVER_TWO_ORDERS));
    let ordered = ordering.iter().map(|row| (row, OVER_TWO_ORDERS));
    let full = workloads.iter().filter(|row| row.events == MAX_EVENTS);
    let unlike = full.filter_map(|row| Some((row, over_union_find(row.name)?)));
    let fasttrack = unlike.clone().map(|(row, _)| (row, OVER_FASTTRACK));
    let carded = cards.iter().map(|row| (row, OVER_PASS));
    let listed = rows.pairs.iter().map(|row| (row, PAIRS_OVER_JUDGE));
    let planned = plans.iter().chain(plan_growth).map(|row| (row, OVER_READER));
    let chained = chains.chunks(2).map(|pair| Held {
        ratio: long_over_short(pair, Peer::Judge),
        target: OVER_SHORT_CHAINS,
        label: pair[0].name.to_string(),
    });
    let mut lines = vec![
        ratios("judge", TWO_ORDERS, judged),
        ratios("ordering call", TWO_ORDERS, ordered),
        ratios("judge", UNION_FIND, unlike),
        ratios("judge", FASTTRACK, fasttrack),
        ratios("judge with cards", PASS, carded),
        nearest(format!("judge, {LONG_OVER_SHORT}"), chained),
        steepest("growth", "an event", growth, |row| row.nanos_an_event(Peer::Judge)),
        ratios("pairs", LISTED, listed),
        ratios("plan reader", READER, planned),
        steepest("growth of the plan reader", "a byte", plan_growth, |row| {
            row.nanos_a_byte(Peer::Plan)
        }),
    ];
    if !again.is_empty() {
        let several = again.iter().filter(|row| row.tasks() > 1);
        lines.push(ratios("judge", BEFORE, several.map(|row| (row, OVER_BEFORE))));
    }
    let lines: String = lines.iter().map(|line| format!("- {line}\n")).collect();
    format!("\nTargets:\n\n{lines}")
}

fn ratios<'a>(call: &str, ratio: Ratio, rows: impl Iterator<Item = (&'a Row, f64)>) -> String {
    let held =
        |(row, target): (&Row, f64)| Held { ratio: ratio.in_row(row), target, label: row.label() };
    nearest(ratio.name(call), rows.map(held))
}

/// A ratio that is held to a target, and of what.
struct Held {
    ratio: f64,
    target: f64,
    label: String,
}

/// Whether each ratio is at most its target: the one that comes nearest, or those that miss it.
fn nearest(name: String, held: impl Iterator<Item = Held>) -> String {
    let mut held: Vec<Held> = held.collect();
    let part = |held: &Held| held.ratio / held.target;
    held.sort_by(|a, b| part(b).total_cmp(&part(a)));
    let missed = held.len() - held.iter().filter(|it| part(it) <= 1.0).count();
    let shown = held[..missed.max(1)]
        .iter()
        .map(|Held { ratio, target, label }| format!("{ratio:.3} of {target} ({label})"));
    let shown: Vec<String> = shown.collect();
    format!("{name}: {}, {}", verdict(missed == 0), shown.join(", "))
}

/// What an event or a byte takes at the smallest size and at the largest.
fn steepest(name: &str, unit: &str, growth: &[Row], nanos: fn(&Row) -> f64) -> String {
    let mut steepest: f64 = 0.0;
    let mut ends = Vec::new();
    for rows in growth.chunks(SIZES.len()) {
        let [first, last] = [&rows[0], &rows[SIZES.len() - 1]].map(nanos);
        steepest = steepest.max(last / first);
        ends.push(format!("{} {first:.1} to {last:.1}", rows[0].name));
    }
    let (met, ends) = (verdict(steepest <= GROWTH), ends.join(", "));
    format!("{name}: {met}, ns {unit} from {} to {MAX_EVENTS} events {ends}", SIZES[0])
}

fn verdict(met: bool) -> &'static str {
    if met {
        "met"
    } else {
        "MISSED"
    }
}
