//! Names and values: plain ones, those at and around every limit, and those that are refused.

use crate::ends::with_ends;
use crate::senders::sender;
use common::{is_plain_white, Random};

/// At every limit, one below and one above.
const LENGTHS: [usize; 14] = [0, 1, 63, 64, 65, 127, 128, 129, 255, 256, 257, 1023, 1024, 1025];

/// Names that meet: of the wrappers, in other cases, prefixes of each other, equal but for a last byte.
const NAMES: [&str; 43] = [
    "Content-type",
    "CONTENT-TYPE",
    "Content-typ",
    "From",
    "To",
    "DateTime",
    "Subject",
    "cc",
    "NS",
    "Require",
    "from",
    "FROM",
    "Fro",
    "From ",
    "From1",
    "to",
    "Too",
    "CC",
    "c",
    "Subjec",
    "Subject-",
    "subject",
    "lang",
    "Lang",
    "la",
    "a",
    "b",
    "aa",
    "ab",
    "A",
    "a-",
    "aé",
    "é",
    "é1",
    "\u{80}",
    "a\u{85}",
    "\u{a0}",
    "\u{10ffff}",
    "\u{ffff}",
    "Content-ID",
    "content-id",
    "Content-I",
    "z",
];

const VALUES: [&str; 14] = [
    "",
    "a",
    "Hi",
    "Alice <im:alice@example.com>",
    "2023-01-15T10:30:00Z",
    "en",
    " x ",
    "ä ö",
    "\u{1f600}",
    "a:b",
    "a=b",
    "\u{85}\u{9f}",
    "\u{feff}",
    "x-y, z",
];

const CHARACTERS: [char; 16] = [
    'a',
    'b',
    'Z',
    '0',
    '-',
    ' ',
    '~',
    'é',
    'ß',
    '\u{85}',
    '\u{a0}',
    '€',
    '\u{2028}',
    '\u{ffff}',
    '\u{1f600}',
    '\u{10ffff}',
];

/// Reserved in one place or another, ASCII controls at the ends of their ranges, controls past ASCII.
const SPECIAL: [char; 20] = [
    ':', ';', '=', '\\', '"', '\0', '\u{1}', '\u{8}', '\t', '\n', '\r', '\u{1f}', '\u{7f}', '\u{80}', '\u{85}',
    '\u{9f}', '<', '>', '\'', ',',
];

/// Not UTF-8: a continuation alone, an overlong form, a surrogate, past U+10FFFF, ends too early, no lead at all.
const ILL: [&[u8]; 10] = [
    &[0x80],
    &[0xC0, 0x80],
    &[0xE0, 0x9F, 0xBF],
    &[0xED, 0xA0, 0x80],
    &[0xF0, 0x8F, 0xBF, 0xBF],
    &[0xF4, 0x90, 0x80, 0x80],
    &[0xE2, 0x82],
    &[0xF0, 0x9F, 0x98],
    &[0xFF],
    &[0xC3],
];

/// A text of exactly so many bytes, of one letter or of characters of any length.
pub fn text_of(random: &mut Random, len: usize) -> Vec<u8> {
    let mut s = String::new();
    if random.once_in(2) {
        let c = random.pick(&['a', 'b', 'q']);
        s.extend(std::iter::repeat_n(c, len));
    }
    while s.len() < len {
        let c = random.pick(&CHARACTERS);
        if s.len() + c.len_utf8() <= len {
            s.push(c);
        }
    }
    s.into_bytes()
}

/// Puts bytes into a text at one of its places between characters.
fn insert(random: &mut Random, s: &mut Vec<u8>, what: &[u8]) {
    let mut at = random.below(s.len() + 1);
    while at < s.len() && s[at] & 0xC0 == 0x80 {
        at += 1;
    }
    s.splice(at..at, what.iter().copied());
}

fn odd(random: &mut Random, mut s: Vec<u8>) -> Vec<u8> {
    match random.below(8) {
        0 => {
            let ill = random.pick(&ILL);
            insert(random, &mut s, ill);
        }
        1..=3 => {
            let n = random.pick(&LENGTHS);
            s = text_of(random, n);
            if random.once_in(3) {
                let c = random.pick(&SPECIAL);
                // Of the same length, where a character of one byte stands there.
                if let Some(at) = s.iter().position(|b| *b < 0x80) {
                    s.splice(at..at + 1, c.to_string().into_bytes());
                }
            }
        }
        _ => {
            let c = random.pick(&SPECIAL);
            insert(random, &mut s, c.to_string().as_bytes());
        }
    }
    s
}

/// How texts are drawn: one in `odd` is at a limit or out of the ordinary; long ones where `long` is set. Of header values one in four is a sender's
/// where `senders` is set; and one in two has an end drawn for it where `ends` is set, and else none has white space at an end that is no control
/// character.
#[derive(Clone, Copy)]
pub struct Kind {
    pub odd: usize,
    pub long: bool,
    pub ends: bool,
    pub senders: bool,
}

impl Kind {
    pub fn name(self, random: &mut Random) -> Vec<u8> {
        let s = match random.below(10) {
            0..=6 => random.pick(&NAMES).as_bytes().to_vec(),
            7 if self.long => {
                let n = random.pick(&[63, 64, 65, 127, 128]);
                text_of(random, n)
            }
            _ => format!("h{}", random.below(70)).into_bytes(),
        };
        if random.once_in(self.odd) {
            return odd(random, s);
        }
        s
    }

    /// A parameter's name.
    pub fn param(self, random: &mut Random) -> Vec<u8> {
        let s = match random.below(10) {
            0..=3 => random.pick(&NAMES).as_bytes().to_vec(),
            4 if self.long => {
                let n = random.pick(&[63, 64, 65]);
                text_of(random, n)
            }
            _ => format!("p{}", random.below(14)).into_bytes(),
        };
        if random.once_in(self.odd) {
            return odd(random, s);
        }
        s
    }

    pub fn value(self, random: &mut Random) -> Vec<u8> {
        let s = if self.long && random.once_in(2) {
            let n = random.pick(&[255, 256, 1000, 1023, 1024]);
            text_of(random, n)
        } else if random.once_in(3) {
            let n = random.below(24);
            text_of(random, n)
        } else {
            random.pick(&VALUES).as_bytes().to_vec()
        };
        if random.once_in(self.odd) {
            return odd(random, s);
        }
        s
    }

    pub fn header_value(self, random: &mut Random) -> Vec<u8> {
        let signed = self.senders && random.once_in(4);
        let value = if signed { sender(random).into_bytes() } else { self.value(random) };
        let Ok(text) = std::str::from_utf8(&value) else { return value };
        match (self.ends, random.once_in(2)) {
            (true, true) => with_ends(random, text).into_bytes(),
            (true, false) => value,
            (false, _) => text.trim_matches(is_plain_white).as_bytes().to_vec(),
        }
    }

    pub fn content_type(self, random: &mut Random) -> Vec<u8> {
        let s = if self.long {
            let n = random.pick(&[1, 255, 256]);
            text_of(random, n)
        } else {
            random.pick(&["text/plain", "a", "application/im-iscomposing+xml", "é"]).as_bytes().to_vec()
        };
        if random.once_in(self.odd.min(5)) {
            return odd(random, s);
        }
        s
    }

    /// Any bytes.
    pub fn body(self, random: &mut Random) -> Vec<u8> {
        let n = random.pick(&[0, 0, 1, 2, 7, 30, 100, 255, 256, 600]);
        (0..n).map(|_| random.byte()).collect()
    }

    /// Prefix and address of `with_ns`, now and then with a sum of lengths at the limit.
    pub fn namespace(self, random: &mut Random) -> (Vec<u8>, Vec<u8>) {
        if random.once_in(self.odd.min(8)) {
            let sum = random.pick(&[1020, 1021, 1022, 1023, 1025]);
            let first = random.below(sum + 1);
            return (text_of(random, first), text_of(random, sum - first));
        }
        (self.header_value(random), self.value(random))
    }
}
