//! Texts longer than any block and than 16 bits can count, and one of the greatest length that is read.

use crate::compared::Compared;
use crate::{characters, escaping, octets, search, utf8, values};

const LENGTHS: [usize; 8] = [4_095, 16_384, 65_535, 65_536, 65_537, 131_072, 262_143, 300_000];
const GREATEST: usize = 20_971_520;

/// Texts of one letter but for an end, at their end, at their start or in their middle.
pub fn texts(c: &mut Compared, part: usize) {
    let Some(len) = LENGTHS.get(part) else {
        if part == LENGTHS.len() {
            greatest(c);
        }
        return;
    };
    let plain = vec![b'x'; *len];
    let ended = |end: &[u8]| [&plain[end.len()..], end].concat();
    for end in ["x", "é", "\u{80}", "\u{3000}", "\\", "\\u00e9", "\\ud800", "\n\n", "\r\n\r\n", "\r\n", "\n"] {
        let s = ended(end.as_bytes());
        let turned = [&s[len - end.len()..], &s[..len - end.len()]].concat();
        for s in [&s, &turned, &[&s[..], &turned].concat(), &[&turned[..], &s].concat()] {
            utf8::bytes(c, s);
            characters::trims(c, s);
            escaping::both(c, s);
            values::writes(c, s);
            search::joins(c, s);
            search::finds(c, s, end.as_bytes());
            search::finds(c, s, &[b"xx", end.as_bytes(), b"x"].concat());
            octets::word(c, s, end.as_bytes());
            octets::compares(c, s, &plain);
            octets::place(c, s, end.as_bytes()[0]);
        }
    }
    for end in [&b"\xC2"[..], b"\xE0\x80", b"\xF1\x80\x80", b"\xFF"] {
        utf8::bytes(c, &ended(end));
    }
    characters::trims(c, " ".repeat(*len).as_bytes());
    characters::trims(c, "\u{2003}".repeat(*len).as_bytes());
    values::writes(c, " ".repeat(*len).as_bytes());
    values::writes(c, "\u{2003}".repeat(*len).as_bytes());
    escaping::both(c, "\u{1}\u{9F}".repeat(*len / 2).as_bytes());
    search::joins(c, "\n".repeat(*len).as_bytes());
    octets::compares(c, &plain, &ended(b"X"));
    octets::compares(c, &plain, &plain[1..]);
    octets::zeros(c, *len);
    octets::copies(c, *len, 0, &plain);
    octets::copies(c, *len + 9, 7, &plain);
    for (from, to, n) in [(0, 19, len - 19), (19, 0, len - 19), (0, 0, *len), (0, len / 2, len / 2), (0, 1, 1)] {
        octets::moves(c, *len, from, to, n);
    }
}

fn greatest(c: &mut Compared) {
    let mut s = "ü".repeat(GREATEST / 2).into_bytes();
    for end in [&b"\n\n"[..], b"\xC3\xC3"] {
        s[GREATEST - 2..].copy_from_slice(end);
        utf8::measured(c, &s);
        search::finds(c, &s, end);
        search::joined_lens(c, &s);
        octets::place(c, &s, end[1]);
    }
}
