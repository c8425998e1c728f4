//! The search beside `str::find`, and the joining of an LFLF body beside `split` and `join`.

use crate::compared::{put, Compared, Leaf};
use crate::inputs;
use crate::plain::{found, joined};
use leaves::*;

pub fn finds(c: &mut Compared, text: &[u8], pattern: &[u8]) {
    let want = found(text, pattern);
    c.expect(Leaf::find, &(text, pattern), find(text, pattern), want);
    c.expect(Leaf::find_plain, &(text, pattern), find_plain(text, pattern), want);
}

pub fn joined_lens(c: &mut Compared, s: &[u8]) -> (Vec<u8>, Vec<usize>) {
    let (want, ends) = joined(s);
    c.expect(Leaf::joined_len, &s, joined_len(s), want.len());
    (want, ends)
}

/// In room for all pieces, and in too little: then those are written that fit one behind another, and the length is that of all.
pub fn joins(c: &mut Compared, s: &[u8]) {
    let (want, ends) = joined_lens(c, s);
    for len in [want.len() + c.spare(), want.len().saturating_sub(1 + c.spare())] {
        let fits = ends.iter().copied().take_while(|end| *end <= len).last().unwrap_or(0);
        let rust = |out: &mut [u8]| {
            put(out, &want[..fits]);
            want.len()
        };
        c.expect_written(Leaf::join_body, &s, len, |out| join_body(out, s), rust);
    }
}

/// Each scalar value as text and as pattern, beside its neighbour, and in texts of more than a block.
pub fn scalars(c: &mut Compared, part: usize) {
    for ch in inputs::scalars(part) {
        let (s, near) = (ch.to_string(), char::from_u32(u32::from(ch) ^ 1).unwrap_or('x'));
        let long = format!("{near:x<70}{ch}{near:x<90}{ch}");
        for text in [&s, &near.to_string(), &format!("a{near}{ch}b{ch}"), &long] {
            finds(c, text.as_bytes(), s.as_bytes());
            finds(c, text.as_bytes(), format!("{near}{ch}").as_bytes());
        }
        finds(c, s.as_bytes(), b"\r\n");
        joins(c, format!("{ch}\n\n{ch}").as_bytes());
    }
}

/// Each string of up to three bytes: patterns of one and two bytes over a small alphabet, patterns of its own bytes, and itself.
pub fn short(c: &mut Compared, part: usize) {
    let alphabet = inputs::patterns(b"\r\n\x80", 2);
    for pattern in &alphabet {
        finds(c, &[], pattern);
    }
    joins(c, &[]);
    inputs::short_strings(part as u8, |s| {
        for pattern in &alphabet {
            finds(c, s, pattern);
        }
        let (a, d) = (s[0], s[s.len() - 1]);
        for pattern in [&[a][..], &[d], &[a, d], &[d, a], &s[1..], &[d, d], s] {
            if !pattern.is_empty() {
                finds(c, s, pattern);
            }
        }
        joins(c, s);
    });
}

/// Every text of up to nine of CR, LF and a letter, with every pattern of up to four.
pub fn words(c: &mut Compared, part: usize) {
    let patterns = inputs::patterns(b"\r\nx", 4);
    common::words(b"\r\nx", 9, (part, 256), |s| {
        for pattern in &patterns {
            finds(c, s, pattern);
        }
        joins(c, s);
    });
}

/// Texts of few letters, in which patterns almost stand everywhere, and of any characters, whole and damaged; patterns of up to 130
/// bytes, most of them parts of the text (also of one that ends a byte too soon) and a third of these with one byte changed.
pub fn texts(c: &mut Compared, part: usize) {
    let mut random = Random::new(5_000 + part as u64);
    let mut s = Vec::new();
    for round in 0..2_000 {
        if round % 3 == 0 {
            inputs::text(&mut random, &mut s);
            if round % 2 == 0 {
                inputs::damage(&mut random, &mut s);
            }
        } else {
            let (few, rare) = (1 + random.below(4), 1 + random.below(4));
            let len = random.below(400);
            s.clear();
            s.extend((0..len).map(|_| if random.once_in(rare) { b"\n\rab"[random.below(few)] } else { b'x' }));
        }
        for pattern in [&b"\r\n\r\n"[..], b"\n\n", b"\r\n", b"\n", b"\xC2\x80", b"aab"] {
            finds(c, &s, pattern);
        }
        for _ in 0..4 {
            let from = random.below(s.len() + 1);
            let len = if random.once_in(2) { 1 + random.below(130) } else { 1 + random.below(6) };
            let mut pattern = s[from..(from + len).min(s.len())].to_vec();
            if pattern.is_empty() {
                pattern = (0..len).map(|_| random.pick(b"\n\rab\xE9")).collect();
            } else if random.once_in(3) {
                let at = random.below(pattern.len());
                pattern[at] ^= 1 << random.below(8);
            }
            finds(c, &s, &pattern);
            finds(c, &s[..(from + len - 1).min(s.len())], &pattern);
        }
        joins(c, &s);
    }
}
