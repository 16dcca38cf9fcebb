//! Text for a picture: escaped for XML, measured and shortened.

use crate::phrases::{misleads, wrapped};

/// What may stand in the text or in an attribute of XML 1.0.
pub fn escape(text: &str) -> String {
    let mut out = String::with_capacity(text.len());
    for c in text.chars() {
        match c {
            '&' => out.push_str("&amp;"),
            '<' => out.push_str("&lt;"),
            '>' => out.push_str("&gt;"),
            '"' => out.push_str("&quot;"),
            '\'' => out.push_str("&#39;"),
            '\t' | '\n' | '\r' => out.push(' '),
            _ if misleads(c) => out.push(char::REPLACEMENT_CHARACTER),
            _ => out.push(c),
        }
    }
    out
}

/// The width of a text in pixels, at most: fonts differ, and this goes by a wide one.
pub fn width(text: &str, size: i32) -> i32 {
    let thousandths: i64 = text.chars().take(LONGEST).map(|c| i64::from(advance(c))).sum();
    (thousandths * i64::from(size) / 1000) as i32 + 1
}

/// What is longer than so many characters is wider than any picture.
const LONGEST: usize = 10_000;

/// The width of a text in bold.
pub fn bold_width(text: &str, size: i32) -> i32 {
    width(text, size) * 8 / 7
}

/// In thousandths of the font's size.
fn advance(c: char) -> i32 {
    match c {
        'i' | 'j' | 'l' | 'I' | '\'' => 300,
        'f' | 't' | 'r' | ' ' | '.' | ',' | ':' | ';' | '(' | ')' | '-' | '|' => 400,
        'c' | 's' | 'z' => 550,
        'w' => 820,
        'm' | 'M' | 'W' | '@' | '%' => 1000,
        'A'..='Z' => 780,
        '!'..='~' => 640,
        _ => 1000,
    }
}

/// Lines no wider than `limit`.
pub fn wrap(text: &str, size: i32, limit: i32) -> Vec<String> {
    wrapped(text, |line| width(line, size) <= limit)
}

/// The text, or as much of its beginning and end as fits in bold, with a mark between.
pub fn shorten(text: &str, size: i32, limit: i32) -> String {
    if bold_width(text, size) <= limit {
        return text.to_string();
    }
    let chars: Vec<char> = text.chars().collect();
    let room = (limit - bold_width("…", size)) / 2;
    let fits = |part: &[char]| bold_width(&part.iter().collect::<String>(), size) <= room;
    let (mut start, mut end) = (0, chars.len());
    while start < end && fits(&chars[..start + 1]) {
        start += 1;
    }
    while start < end && fits(&chars[end - 1..]) {
        end -= 1;
    }
    let part = |part: &[char]| part.iter().collect::<String>();
    format!("{}…{}", part(&chars[..start]), part(&chars[end..]))
}
