//! The cards of a clean trace, as a table.

use super::counting;
use super::page::Page;
use crate::cards::{Cards, Touched, COUNTS};
use crate::phrases::{count, grouped};
use racejudge::LOCATIONS;
use std::iter::once;

/// The bar of the busiest location has so many marks.
const BAR: usize = 20;
const MARK: &str = "#";

/// What stands between two columns.
const GAP: &str = "   ";

pub fn tell(page: &mut Page, cards: &Cards) {
    let accesses = || cards.touched.iter().map(|it| it.card.accesses());
    let Some(most) = accesses().max() else {
        page.say("No event of the trace touches a location.");
        return;
    };
    page.say("How busy the locations were:");
    page.rows(table(cards, most));
    let (touched, all) = (grouped(cards.touched.len()), grouped(LOCATIONS));
    let by = count(accesses().sum(), "access");
    page.say(&format!("Touched: {touched} of {all} locations, by {by}."));
    page.add(&format!("The longest bar stands for {}.", count(most, "access")));
    counting(page, cards.scene.recording);
}

/// The headings and a row for each location, with a bar behind.
fn table(cards: &Cards, most: usize) -> Vec<String> {
    let mut rows = vec![String::new(); cards.touched.len() + 1];
    for column in columns(cards) {
        let width = column.iter().map(String::len).max().unwrap_or(0);
        for (row, cell) in rows.iter_mut().zip(column) {
            *row += &format!("{cell:>width$}{GAP}");
        }
    }
    let bars = cards.touched.iter().map(|it| bar(it.card.accesses(), most));
    let bars = once("accesses".to_string()).chain(bars);
    rows.into_iter().zip(bars).map(|(row, bar)| row + &bar).collect()
}

/// The columns of numbers, each with its heading.
fn columns(cards: &Cards) -> Vec<Vec<String>> {
    let column = |heading: &str, cell: &dyn Fn(&Touched) -> String| -> Vec<String> {
        once(heading.to_string()).chain(cards.touched.iter().map(cell)).collect()
    };
    let mut columns = vec![column("location", &|it| it.location.to_string())];
    for (name, count) in COUNTS {
        columns.push(column(name, &|it| grouped(count(&it.card).into())));
    }
    let line = |p: usize| cards.scene.place(p).map_or(0, |place| place.line);
    let mut end = |heading: &str, event: fn(&Touched) -> usize| {
        columns.push(column(heading, &|it| event(it).to_string()));
        if cards.scene.recording.text.is_some() {
            columns.push(column("line", &|it| line(event(it)).to_string()));
        }
    };
    end("first event", |it| it.first);
    end("last event", |it| it.last);
    columns
}

/// A mark that is begun counts, so that whatever was touched has one.
fn bar(accesses: usize, most: usize) -> String {
    MARK.repeat((accesses * BAR).div_ceil(most))
}

#[cfg(test)]
mod tests {
    use super::*;

    #[test]
    fn a_bar_has_a_mark_and_fits_its_column() {
        for most in [1, 2, 19, 20, 21, 1_000, 32_768] {
            let lengths: Vec<_> = (1..=most).map(|accesses| bar(accesses, most).len()).collect();
            assert!(lengths.is_sorted() && lengths[0] > 0, "{lengths:?}");
            assert_eq!(lengths.last(), Some(&BAR));
        }
        assert_eq!([1, 1_638, 1_639, 16_384].map(|it| bar(it, 32_768).len()), [1, 1, 2, 10]);
    }
}
