//! UTF-8 and the replacement of what is not, beside `from_utf8` and `from_utf8_lossy`.

use crate::compared::{put, Compared, Leaf};
use crate::inputs;
use leaves::*;
use std::borrow::Cow;
use std::str::from_utf8;

/// Whether the bytes are UTF-8, and their length with what is not replaced.
pub fn measured<'a>(c: &mut Compared, s: &'a [u8]) -> Cow<'a, str> {
    c.expect(Leaf::is_utf8, &s, is_utf8(s), from_utf8(s).is_ok());
    let lossy = String::from_utf8_lossy(s);
    c.expect(Leaf::replaced_len, &s, replaced_len(s), lossy.len());
    lossy
}

pub fn bytes(c: &mut Compared, s: &[u8]) {
    let lossy = measured(c, s);
    let len = lossy.len() + c.spare();
    c.expect_written(Leaf::put_replaced, &s, len, |out| put_replaced(out, s), |out| put(out, lossy.as_bytes()));
}

/// ASCII of three blocks of 64 bytes, with room for a character at any place of the first two and of their ends.
const BLOCKS: usize = 192;

/// Each scalar value alone, and among ASCII around the end of a block, inside the next one and around its end.
pub fn scalars(c: &mut Compared, part: usize) {
    let mut s = Vec::new();
    for ch in inputs::scalars(part) {
        bytes(c, ch.encode_utf8(&mut [0; 4]).as_bytes());
        s.clear();
        let k = u32::from(ch) as usize;
        for at in [60 + k % 5, 70 + k % 49, 124 + k / 5 % 5] {
            s.resize(at, b'x');
            inputs::push(&mut s, ch);
        }
        s.resize(BLOCKS, b'x');
        bytes(c, &s);
    }
}

/// Each string of up to three bytes alone, and among ASCII at a place that depends on it.
pub fn short(c: &mut Compared, part: usize) {
    let mut text = [b'x'; BLOCKS];
    inputs::short_strings(part as u8, |s| {
        bytes(c, s);
        let at = 60 + s.iter().map(|b| usize::from(*b)).sum::<usize>() % 72;
        text[at..at + s.len()].copy_from_slice(s);
        c.expect(Leaf::is_utf8, &text, is_utf8(&text), from_utf8(&text).is_ok());
        text[at..at + s.len()].fill(b'x');
    });
}

/// Each second byte behind each byte, then the ends of the trailing ranges and their neighbours; alone and among ASCII.
pub fn long_leads(c: &mut Compared, part: usize) {
    const ENDS: [u8; 12] = [0x00, 0x7F, 0x80, 0x8F, 0x90, 0x9F, 0xA0, 0xBF, 0xC0, 0xC2, 0xE0, 0xFF];
    let mut text = [b'x'; BLOCKS];
    for second in 0..=255 {
        for third in ENDS {
            for fourth in ENDS {
                let s = [part as u8, second, third, fourth];
                bytes(c, &s);
                let at = 60 + (part + usize::from(second) + usize::from(third ^ fourth)) % 72;
                text[at..at + 4].copy_from_slice(&s);
                c.expect(Leaf::is_utf8, &text, is_utf8(&text), from_utf8(&text).is_ok());
                text[at..at + 4].fill(b'x');
            }
        }
    }
}

/// Texts of up to some 300 bytes, whole and damaged, and parts of them cut anywhere.
pub fn texts(c: &mut Compared, part: usize) {
    let mut random = Random::new(1_000 + part as u64);
    let mut s = Vec::new();
    bytes(c, &s);
    for round in 0..10_000 {
        inputs::text(&mut random, &mut s);
        if round % 2 == 1 {
            inputs::damage(&mut random, &mut s);
        }
        bytes(c, &s);
        if round % 4 < 2 {
            let from = random.below(s.len() + 1);
            let to = from + random.below(s.len() - from + 1);
            bytes(c, &s[from..to]);
        }
    }
}
