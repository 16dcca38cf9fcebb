//! The close pairs in words, in the groups that they come down to. What is printed is handed on piece by
//! piece: a list may have millions of pairs.

use super::page::Page;
use super::{behind, clean, counting};
use crate::groups::{Ends, Group, Groups};
use crate::phrases::{count, first_is_far, tasks};
use crate::study::{Listed, Scene};
use racejudge::{Kind, Pair, Pairs, CLOSE};
use std::collections::BTreeMap;
use std::io::{self, Write};

/// Where not all are wanted: so many pairs of a group are shown, so many in all, and so many groups.
const SHOWN_OF_GROUP: usize = 3;
const SHOWN: usize = 30;
const SHOWN_GROUPS: usize = 60;

/// What has all that is left out.
const WHOLE: &str = "judge pairs --all has all";

/// The pairs, of which there is one at least.
pub fn tell(
    out: &mut dyn Write,
    listed: &Listed,
    scene: &Scene,
    pairs: &Pairs,
    all: bool,
) -> io::Result<()> {
    let mut groups =
        Groups::of(scene, pairs.clone(), if all { usize::MAX } else { SHOWN_OF_GROUP });
    put(out, |page| page.add(&groups.summary()))?;
    if !all {
        cut(&mut groups);
    }
    let rows = rows(scene, &groups);
    let shown = if all { groups.list.len() } else { SHOWN_GROUPS.min(groups.list.len()) };
    for group in &groups.list[..shown] {
        tell_group(out, group, &rows)?;
    }
    if let Some(rest) = groups.list.get(shown..).filter(|rest| !rest.is_empty()) {
        let pairs = rest.iter().map(|group| group.count).sum();
        let (more, pairs) = (count(rest.len(), "group"), count(pairs, "pair"));
        put(out, |page| page.add(&format!("({more} with {pairs} left out; {WHOLE})")))?;
    }
    put(out, |page| outlook(page, listed, scene, pairs.len()))
}

/// Prints a paragraph or more behind what stands there.
fn put(out: &mut dyn Write, tell: impl FnOnce(&mut Page)) -> io::Result<()> {
    let mut page = Page::default();
    tell(&mut page);
    out.write_all(behind(page).as_bytes())
}

/// Keeps the pairs that are shown where not all are wanted.
fn cut(groups: &mut Groups) {
    let mut room = SHOWN;
    for group in &mut groups.list {
        group.pairs.truncate(room);
        room -= group.pairs.len();
    }
}

/// The rows of all events that are shown, set under each other.
fn rows(scene: &Scene, groups: &Groups) -> BTreeMap<usize, String> {
    let pairs = groups.list.iter().flat_map(|group| &group.pairs);
    let mut events: Vec<usize> = pairs.flat_map(|pair| [pair.s, pair.t]).collect();
    events.sort_unstable();
    events.dedup();
    let rows = scene.full_rows(&events, events.last().copied().unwrap_or_default());
    events.into_iter().zip(rows).collect()
}

fn tell_group(
    out: &mut dyn Write,
    group: &Group,
    rows: &BTreeMap<usize, String>,
) -> io::Result<()> {
    put(out, |page| page.add(&heading(group)))?;
    for pair in &group.pairs {
        let both = [pair.s, pair.t].into_iter().filter_map(|p| rows.get(&p).cloned());
        put(out, |page| page.rows(both))?;
    }
    let left_out = group.count - group.pairs.len();
    if left_out > 0 {
        let note = format!("({} left out; {WHOLE})", count(left_out, "pair"));
        put(out, |page| page.rows([note]))?;
    }
    Ok(())
}

/// `Location 3: 12 pairs, between source lines 33 and 41:`
fn heading(group: &Group) -> String {
    let (location, pairs) = (group.location, count(group.count, "pair"));
    let places = match (group.ends, group.ends.kinds()) {
        (Ends::Sources([one, other]), _) if one == other => format!(", at source line {one}"),
        (Ends::Sources([one, other]), _) => format!(", between source lines {one} and {other}"),
        (_, Some(kinds)) => format!(" of {}, by {}", deeds(kinds), tasks(&group.tasks)),
        (_, None) => String::new(),
    };
    format!("Location {location}: {pairs}{places}:")
}

/// What the two accesses of a pair are.
fn deeds([one, other]: [Kind; 2]) -> String {
    if one == other {
        return format!("two {one}s");
    }
    format!("a {one} and a {other}")
}

/// What the list of so many pairs means, and what it leaves open.
fn outlook(page: &mut Page, listed: &Listed, scene: &Scene, pairs: usize) {
    if pairs > 1 {
        page.add(
            "All of them are races of this run as it is, also those behind the first. A join that \
             orders one pair may order others as well: judge the run again once one is mended.",
        );
    }
    page.add("`judge order FILE S T` says why nothing orders the two events of a pair.");
    page.say(&if scene.trace.len() <= CLOSE + 1 {
        format!("There is no other race: no two events are more than {CLOSE} apart.")
    } else {
        format!(
            "Listed are the pairs at most {CLOSE} events apart. Accesses that are farther apart may race \
             as well."
        )
    });
    if let Some(race) = listed.far_race() {
        page.add(&format!("{} `judge FILE` explains it.", first_is_far(race)));
    }
    counting(page, scene.recording);
}

/// There is no close pair. Then the trace is clean, or its races are of events that are farther apart.
pub fn none(page: &mut Page, listed: &Listed, scene: &Scene) {
    let Some(Pair { s, t }) = listed.far_race() else {
        clean(page, scene);
        return;
    };
    page.say(&format!(
        "No two accesses race that are at most {CLOSE} events apart. But the trace has a race of two \
         that are farther apart:"
    ));
    page.rows(scene.full_rows(&[s, t], t));
    page.say(&format!(
        "They are {} apart. It is the first race of the trace: `judge FILE` explains it.",
        count(t - s, "event")
    ));
    counting(page, scene.recording);
}
