//! Bodies and texts at their limits and next to them.

use crate::compared::Compared;
use crate::expected::{MOST_BODY, MOST_TEXT};

const STARTS: [&str; 2] =
    ["Content-type: message/cpim\r\n\r\nTo: a\r\n\r\nx: y\r\n\r\n", "message/cpim\n\nTo: a\n\nx: yy\nx: y\n\n"];

fn filled(start: &str, middle: &str, len: usize, end: &str) -> Vec<u8> {
    let mut text = [start, middle].concat().into_bytes();
    text.resize(len - end.len(), b'x');
    text.extend_from_slice(end.as_bytes());
    text
}

type Maker = Box<dyn Fn() -> Vec<u8>>;

fn makers() -> Vec<Maker> {
    let mut all: Vec<Maker> = Vec::new();
    for start in STARTS {
        for n in [MOST_BODY - 1, MOST_BODY, MOST_BODY + 1] {
            all.push(Box::new(move || filled(start, "", start.len() + n, "é")));
        }
        for n in [MOST_TEXT, MOST_TEXT + 1] {
            all.push(Box::new(move || filled(start, "", n, "")));
        }
        // Joined, an LFLF body is two bytes longer for each blank line.
        for n in [MOST_BODY - 4, MOST_BODY - 3] {
            all.push(Box::new(move || filled(start, "a\n\nb", start.len() + n, "\n\nc")));
        }
    }
    // Blank lines only: as many as join to the longest body, and one more.
    for n in [MOST_BODY / 2 + 6, MOST_BODY / 2 + 8] {
        all.push(Box::new(move || ["message/cpim", &"\n".repeat(n)].concat().into_bytes()));
    }
    for [start, end] in [
        ["message/cpim\n\nTo: ", "\n\n\n\n"],
        ["message/cpim\n\n", ": a\n\n\n\n"],
        ["message/cpim\n\n\n\nx: ", "\n\n"],
        ["", "message/cpim\n\n\n\n\n\n"],
        ["", "\u{3000}"],
    ] {
        // Short of the limit by what is put around a line that is read by itself.
        all.push(Box::new(move || filled(start, "", MOST_TEXT - 64, end)));
    }
    // 1 comes before 24; a character cut off at the end of the longest text.
    all.push(Box::new(|| [&filled("", "", MOST_TEXT, "")[..], b"\xFF"].concat()));
    all.push(Box::new(|| filled("", "", MOST_TEXT + 1, "\u{3000}")[..MOST_TEXT].to_vec()));
    all.push(Box::new(|| ["message/cpim\r\n\r\n", &"\n".repeat(1_000_000), "\r\n\r\n\r\n\r\n"].concat().into_bytes()));
    all
}

/// The text of a part, in stores of their own.
pub fn texts(c: &mut Compared, part: usize, _: bool) {
    if let Some(maker) = makers().get(part) {
        let mut large = Compared::new(MOST_BODY + 100, MOST_BODY + 1_000);
        large.text(&maker(), part as u64);
        c.tallies.add(&large.tallies);
    }
}
