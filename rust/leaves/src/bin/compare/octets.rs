//! Byte slices copied, moved, zeroed and compared, and a byte and a word looked for, beside plain Rust.

use crate::compared::{Compared, Leaf};
use crate::inputs;
use leaves::*;

pub fn compares(c: &mut Compared, a: &[u8], b: &[u8]) {
    c.expect(Leaf::before, &(a, b), before(a, b), a < b);
    c.expect(Leaf::same, &(a, b), same(a, b), a == b);
    c.expect(Leaf::same_letters, &(a, b), same_letters(a, b), a.eq_ignore_ascii_case(b));
}

/// An empty word stands in every text that is not empty.
pub fn word(c: &mut Compared, text: &[u8], word: &[u8]) {
    let lower = text.to_ascii_lowercase();
    let want = if word.is_empty() { !text.is_empty() } else { lower.windows(word.len()).any(|w| w == word) };
    c.expect(Leaf::says, &(text, word), says(text, word), want);
}

fn pair(c: &mut Compared, a: &[u8], b: &[u8]) {
    compares(c, a, b);
    word(c, a, b);
}

pub fn place(c: &mut Compared, s: &[u8], byte: u8) {
    let want = s.iter().position(|b| *b == byte).unwrap_or(s.len());
    c.expect(Leaf::find_byte, &(s, byte), find_byte(s, byte), want);
}

pub fn copies(c: &mut Compared, len: usize, at: usize, s: &[u8]) {
    let rust = |out: &mut [u8]| out[at..at + s.len()].copy_from_slice(s);
    c.expect_written(Leaf::copy_at, &(len, at, s), len, |out| copy_at(out, at, s), rust);
}

pub fn moves(c: &mut Compared, len: usize, from: usize, to: usize, n: usize) {
    let rust = |out: &mut [u8]| out.copy_within(from..from + n, to);
    c.expect_written(Leaf::shift, &(len, from, to, n), len, |out| shift(out, from, to, n), rust);
}

pub fn zeros(c: &mut Compared, len: usize) {
    c.expect_written(Leaf::zero_fill, &len, len, zero_fill, |out| out.fill(0));
}

/// Each byte beside each byte, in words of one to three; each byte looked for in each string of up to two bytes, and at each place
/// of longer ones.
pub fn bytes(c: &mut Compared, part: usize) {
    let a = part as u8;
    for b in 0..=255 {
        pair(c, &[a], &[b]);
        pair(c, b"xx", &[a, b]);
        pair(c, &[b'x', a], b"xx");
        pair(c, &[a, b], &[b, a]);
        pair(c, &[a, b, a], &[b, a]);
        for byte in 0..=255 {
            place(c, &[a, b], byte);
        }
        place(c, &[a], b);
        place(c, &[], b);
    }
    for len in 1..100 {
        for at in 0..len {
            let mut s = vec![a ^ 0x80; len];
            place(c, &s, a);
            s[at] = a;
            place(c, &s, a);
        }
    }
}

/// Every two words of up to three bytes at the edges of the letters.
pub fn words(c: &mut Compared, part: usize) {
    const LETTERS: &[u8] = b"aAzZ@[`{\x00\xFF";
    let words = inputs::patterns(LETTERS, 3);
    common::words(LETTERS, 3, (part, 256), |a| {
        pair(c, a, &[]);
        for b in &words {
            pair(c, a, b);
        }
    });
}

/// Each move and each copy in rooms of twelve lengths of up to 70 bytes, some in longer ones; each length of up to 2,000 zeroed.
pub fn stores(c: &mut Compared, part: usize) {
    let mut random = Random::new(6_000 + part as u64);
    let bytes: Vec<u8> = (0..4_000).map(|_| random.byte()).collect();
    for len in [0, 1, 2, 5, 31, 32, 33, 34, 63, 64, 65, 70] {
        for n in (0..=len).filter(|n| n % 4 == part % 4) {
            for from in (0..=len - n).filter(|from| from % 64 == part / 4) {
                for to in 0..=len - n {
                    moves(c, len, from, to, n);
                    copies(c, len, to, &bytes[from..from + n]);
                }
            }
        }
    }
    for k in 0..400 {
        zeros(c, part + 256 * (k % 8) + k / 8);
        let len = 1 + random.below(4_000);
        let n = random.below(len + 1);
        let (from, to) = (random.below(len - n + 1), random.below(len - n + 1));
        moves(c, len, from, to, n);
        let near = from.saturating_sub(40) + random.below(80);
        moves(c, len, from, near.min(len - n), n);
        copies(c, len, to, &bytes[from..from + n]);
    }
}

/// Longer texts that differ in little, and words looked for in them.
pub fn texts(c: &mut Compared, part: usize) {
    let mut random = Random::new(7_000 + part as u64);
    let mut s = Vec::new();
    for round in 0..1_500 {
        inputs::text(&mut random, &mut s);
        if round % 2 == 0 {
            s.iter_mut().for_each(|b| *b = random.pick(b"aAbBzZ[@`{\x7F\xE9"));
        }
        let mut t = s.clone();
        if !t.is_empty() {
            let at = random.below(t.len());
            match random.below(4) {
                0 => t[at] ^= 1 << random.below(8),
                1 => t[at] ^= 0x20,
                2 => t.truncate(at),
                _ => t.iter_mut().for_each(u8::make_ascii_lowercase),
            }
        }
        pair(c, &s, &t);
        pair(c, &t, &s);
        pair(c, &s, &t[..random.below(t.len() + 1)]);
        let from = random.below(t.len() + 1);
        pair(c, &s, &t[from..(from + 1 + random.below(12)).min(t.len())]);
        for _ in 0..8 {
            place(c, &s, random.byte());
            place(c, &s, random.pick(b"aAbBzZ[@\n\xC2\xE2\xFF"));
        }
    }
}

/// `message/cpim` with a scalar value in place of each of its characters, or behind it, beside the source's test.
pub fn message_cpim(c: &mut Compared, part: usize) {
    const WORD: &str = "message/cpim";
    let texts = ["Type: Message/CPIM", "Type: message/cpim", "Type: mEsSaGe/cPiM"];
    for (k, ch) in inputs::scalars(part).enumerate() {
        let text = texts[k % 3];
        let from = text.len() - WORD.len();
        for at in from..=text.len() {
            let text = [&text[..at], ch.encode_utf8(&mut [0; 4]), text.get(at + 1..).unwrap_or("")].concat();
            let want = text.to_lowercase().contains(WORD);
            c.expect(Leaf::says, &text, says(text.as_bytes(), WORD.as_bytes()), want);
        }
    }
}
