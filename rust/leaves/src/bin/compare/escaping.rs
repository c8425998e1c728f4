//! Escaping and unescaping beside the source's `escape_header_value` and `unescape_header_value`.

use crate::compared::{put, Compared, Leaf};
use crate::inputs;
use crate::plain::{escaped, unescaped};
use leaves::*;

fn writes(c: &mut Compared, s: &[u8]) -> Vec<u8> {
    let want = escaped(s);
    c.expect(Leaf::escaped_len, &s, escaped_len(s), want.len());
    let len = want.len() + c.spare();
    c.expect_written(Leaf::escape, &s, len, |out| escape(out, s), |out| put(out, &want));
    want
}

pub fn reads_as(c: &mut Compared, s: &[u8]) {
    let want = unescaped(s);
    c.expect(Leaf::reads, &s, reads(s), want.is_some());
    c.expect(Leaf::unescaped_len, &s, unescaped_len(s), want.as_ref().map_or(0, Vec::len));
    if let Some(want) = want {
        let len = want.len() + c.spare();
        c.expect_written(Leaf::unescape, &s, len, |out| unescape(out, s), |out| Some(put(out, &want)));
    }
}

/// Both ways, and back from what was written.
pub fn both(c: &mut Compared, s: &[u8]) {
    reads_as(c, s);
    let written = writes(c, s);
    if written != s {
        reads_as(c, &written);
    }
}

/// Each scalar value, alone, among others and behind a backslash.
pub fn scalars(c: &mut Compared, part: usize) {
    for ch in inputs::scalars(part) {
        let s = ch.to_string();
        both(c, s.as_bytes());
        both(c, format!("{ch}a{ch}").as_bytes());
        for text in [format!("\\{ch}"), format!("a\\u00{ch}1b"), format!("\\u{ch}041")] {
            reads_as(c, text.as_bytes());
        }
    }
}

/// Each string of up to three bytes.
pub fn short(c: &mut Compared, part: usize) {
    both(c, &[]);
    inputs::short_strings(part as u8, |s| both(c, s));
}

/// `\u` with up to four of the 22 digits and the plus (each code in every letter case): alone, among others, and with the last one
/// behind the end of the text. Then with up to four of 19 characters, digits or not.
pub fn codes(c: &mut Compared, part: usize) {
    common::words(b"0123456789abcdefABCDEF+", 4, (part, 256), |digits| {
        let text = [b"\\u", digits].concat();
        reads_as(c, &text);
        reads_as(c, &text[..text.len() - 1]);
        reads_as(c, &[b"x", &text[..], digits, &text].concat());
    });
    let letters: Vec<char> = "+-09afgAFGxé \\u€\"\0_".chars().collect();
    common::words(&letters, 4, (part, 256), |word| {
        let four: String = word.iter().collect();
        reads_as(c, format!("\\u{four}").as_bytes());
        reads_as(c, format!("\\{four}").as_bytes());
    });
}

/// Each byte, and each escape, at each place of texts that end around blocks of 16 and 64 bytes.
pub fn places(c: &mut Compared, part: usize) {
    let byte = part as u8;
    for len in (0..36).chain(60..70) {
        for at in 0..len {
            let mut s = vec![b'x'; len];
            s[at] = byte;
            both(c, &s);
            if at + 1 < len {
                s[at..at + 2].copy_from_slice(&[0xC2, byte]);
                both(c, &s);
                s[at..at + 2].copy_from_slice(&[b'\\', byte]);
                reads_as(c, &s);
                s.splice(at..at + 2, format!("\\u00{byte:02x}").into_bytes());
                reads_as(c, &s);
            }
        }
    }
}

/// Every text of up to seven of seven bytes that escapes are made of.
pub fn words(c: &mut Compared, part: usize) {
    common::words(b"\\u0+Dnx", 7, (part, 256), |s| both(c, s));
}

/// Short strings and texts of what escapes are made of, and texts of any characters, whole and damaged.
pub fn texts(c: &mut Compared, part: usize) {
    let mut random = Random::new(4_000 + part as u64);
    let mut s = Vec::new();
    for round in 0..3_000 {
        for _ in 0..4 {
            inputs::few_bytes(&mut random, &mut s);
            both(c, &s);
        }
        inputs::pieces(&mut random, &mut s);
        both(c, &s);
        if round % 2 == 0 {
            inputs::text(&mut random, &mut s);
            if round % 4 == 0 {
                inputs::damage(&mut random, &mut s);
            }
            both(c, &s);
        }
    }
}
