//! White space, control characters and trimming, beside `char::is_whitespace`, `char::is_control` and `str::trim`.

use crate::compared::{put, Compared, Leaf};
use crate::inputs;
use crate::plain::{one_char, trimmed};
use leaves::*;

fn character(c: &mut Compared, s: &[u8]) {
    let one = one_char(s);
    c.expect(Leaf::is_white, &s, is_white(s), one.is_some_and(char::is_whitespace));
    c.expect(Leaf::is_control, &s, is_control(s), one.is_some_and(char::is_control));
}

pub fn trims(c: &mut Compared, s: &[u8]) {
    let len = s.len() + c.spare();
    c.expect_written(Leaf::trim, &s, len, |out| trim(out, s), |out| put(out, trimmed(s)));
}

/// Each scalar value, alone and at one or both ends.
pub fn scalars(c: &mut Compared, part: usize) {
    for ch in inputs::scalars(part) {
        let s = ch.to_string();
        character(c, s.as_bytes());
        for text in [format!("{ch}a{ch}"), format!("{ch}{ch} a"), format!("a{ch}b"), format!("a\u{3000}{ch} "), s] {
            trims(c, text.as_bytes());
        }
    }
}

/// Each string of up to three bytes, and random ones of four and five.
pub fn short(c: &mut Compared, part: usize) {
    let mut random = Random::new(2_000 + part as u64);
    character(c, &[]);
    trims(c, &[]);
    inputs::short_strings(part as u8, |s| {
        character(c, s);
        trims(c, s);
    });
    for _ in 0..20_000 {
        let five = [part as u8, random.byte(), random.byte(), random.byte(), random.byte()];
        let four = [0xF0 | five[1] & 0x0F, 0x80 | five[2] & 0x3F, 0x80 | five[3] & 0x3F, 0x80 | five[4] & 0x3F];
        for s in [&five[..4], &five[..], &four[..], &[five[0], four[1], four[2], four[3]]] {
            character(c, s);
            trims(c, s);
        }
    }
}

/// Up to three characters at the edges of their classes, with a letter before, behind or nowhere; longer white space at the ends of
/// texts, whole and damaged.
pub fn ends(c: &mut Compared, part: usize) {
    let mut random = Random::new(3_000 + part as u64);
    let letters: Vec<char> = inputs::EDGES.iter().map(|n| char::from_u32(*n).unwrap()).collect();
    common::words(&letters, 3, (part, 256), |word| {
        let w: String = word.iter().collect();
        for text in [format!("{w}a"), format!("a{w}"), w] {
            trims(c, text.as_bytes());
        }
    });
    let white: Vec<char> = letters.into_iter().filter(|c| c.is_whitespace()).collect();
    let (mut s, mut all) = (Vec::new(), Vec::new());
    for round in 0..3_000 {
        inputs::text(&mut random, &mut s);
        if round % 3 == 0 {
            inputs::damage(&mut random, &mut s);
        }
        all.clear();
        for _ in 0..random.below(30) {
            inputs::push(&mut all, random.pick(&white));
        }
        all.extend_from_slice(&s);
        for _ in 0..random.below(30) {
            inputs::push(&mut all, random.pick(&white));
        }
        trims(c, &all);
        let from = random.below(all.len() + 1);
        trims(c, &all[from..]);
        trims(c, &all[..from]);
    }
}
