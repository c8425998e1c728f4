//! Header values as they are written, beside document 02's T-03.

use crate::compared::{put, Compared, Leaf};
use crate::escaping::reads_as;
use crate::inputs;
use crate::plain::{escaped, trimmed, unescaped, value};
use common::{has_white_end, WHITE_SPACE};
use leaves::*;
use std::str::from_utf8;

/// What is written for some values, in so many words.
const EXAMPLES: [(&str, &str); 24] = [
    ("", ""),
    ("a", "a"),
    (" ", "\\u0020"),
    ("  ", "\\u0020\\u0020"),
    ("   ", "\\u0020 \\u0020"),
    (" x", "\\u0020x"),
    ("x\u{a0}", "x\\u00a0"),
    ("\u{a0}x y\u{a0}", "\\u00a0x y\\u00a0"),
    ("\u{1680}", "\\u1680"),
    ("\u{2000}x\u{200a}", "\\u2000x\\u200a"),
    ("\u{2028}\u{2029}", "\\u2028\\u2029"),
    ("\u{202f}x\u{205f}", "\\u202fx\\u205f"),
    ("\u{3000}", "\\u3000"),
    ("a\u{a0}b", "a\u{a0}b"),
    ("\t", "\\t"),
    ("\u{85}", "\\u0085"),
    ("\u{b}\u{c}", "\\u000b\\u000c"),
    ("\u{85} ", "\\u0085\\u0020"),
    (" \t", "\\u0020\\t"),
    ("\t x \t", "\\t x \\t"),
    ("\u{200b}x\u{feff}", "\u{200b}x\u{feff}"),
    ("\u{180e}", "\u{180e}"),
    ("\\ ", "\\\\\\u0020"),
    (" \"", "\\u0020\\\""),
];

/// A text is written as the source writes it just where no end of it is white space that is no control character, and the source reads it back.
pub fn writes(c: &mut Compared, s: &[u8]) -> Vec<u8> {
    let want = value(s);
    let by_rule = want != escaped(s);
    if let Ok(text) = from_utf8(s) {
        assert_eq!(by_rule, has_white_end(text), "{text:?}");
        assert_eq!(unescaped(trimmed(&want)).as_deref(), Some(s), "{text:?}");
    }
    c.values[usize::from(by_rule)] += 1;
    c.expect(Leaf::value_text_len, &s, value_text_len(s), want.len());
    let len = want.len() + c.spare();
    c.expect_written(Leaf::put_value_text, &s, len, |out| put_value_text(out, s), |out| put(out, &want));
    want
}

/// White space, and characters at the edges of their classes.
fn letters() -> Vec<char> {
    let edges = inputs::EDGES.iter().map(|n| char::from_u32(*n).unwrap());
    let mut all: Vec<char> = edges.chain(WHITE_SPACE).chain("au0éß€\u{1f600}".chars()).collect();
    all.sort();
    all.dedup();
    all
}

/// The examples, and every value of up to three such characters.
pub fn words(c: &mut Compared, part: usize) {
    for (value, text) in EXAMPLES {
        assert_eq!(writes(c, value.as_bytes()), text.as_bytes(), "{value:?}");
    }
    common::words(&letters(), 3, (part, 256), |word| {
        let written = writes(c, word.iter().collect::<String>().as_bytes());
        reads_as(c, &written);
    });
}

/// Each scalar value alone, doubled, at one end, and next to white space at both.
pub fn scalars(c: &mut Compared, part: usize) {
    for ch in inputs::scalars(part) {
        let s = ch.to_string();
        for text in [&s, &format!("{ch}{ch}"), &format!("{ch}a"), &format!("a{ch}"), &format!(" {ch}\u{3000}")] {
            writes(c, text.as_bytes());
        }
    }
}

/// Each string of up to three bytes.
pub fn short(c: &mut Compared, part: usize) {
    inputs::short_strings(part as u8, |s| drop(writes(c, s)));
}

/// Every text of up to four of the bytes that white space, its neighbours and ill-formed subparts are made of.
pub fn bytes(c: &mut Compared, part: usize) {
    const BYTES: [u8; 26] = [
        0x09, 0x20, 0x22, 0x5C, 0x61, 0x7F, 0x80, 0x81, 0x85, 0x8A, 0x8B, 0x9A, 0x9F, 0xA0, 0xA8, 0xA9, 0xAF, 0xBB,
        0xBF, 0xC2, 0xE1, 0xE2, 0xE3, 0xEF, 0xF0, 0xFF,
    ];
    common::words(&BYTES, 4, (part, 256), |s| drop(writes(c, s)));
}

/// Longer ones, with white space at their ends, whole and damaged.
pub fn texts(c: &mut Compared, part: usize) {
    let mut random = Random::new(6_000 + part as u64);
    let letters = letters();
    let (mut s, mut all) = (Vec::new(), Vec::new());
    for round in 0..3_000 {
        match round % 3 {
            0 => inputs::pieces(&mut random, &mut s),
            _ => inputs::text(&mut random, &mut s),
        }
        all.clear();
        (0..random.below(3)).for_each(|_| inputs::push(&mut all, random.pick(&letters)));
        all.extend_from_slice(&s);
        (0..random.below(3)).for_each(|_| inputs::push(&mut all, random.pick(&letters)));
        writes(c, &all);
        let from = random.below(all.len() + 1);
        writes(c, &all[from..]);
        inputs::damage(&mut random, &mut all);
        writes(c, &all);
    }
}
