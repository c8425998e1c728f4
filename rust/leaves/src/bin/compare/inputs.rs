//! Inputs for the comparison: characters at the edges of their classes, texts made of them, and damage to texts.

use common::{words, Random};

/// The first and last code points of the lengths and lead bytes of UTF-8, of white space and of the controls, and their neighbours.
pub const EDGES: [u32; 64] = [
    0x00, 0x08, 0x09, 0x0A, 0x0D, 0x0E, 0x1F, 0x20, 0x21, 0x22, 0x5C, 0x7E, 0x7F, 0x80, 0x84, 0x85, 0x86, 0x9F, 0xA0,
    0xA1, 0xBF, 0xC0, 0xE9, 0x7FF, 0x800, 0xFFF, 0x1000, 0x167F, 0x1680, 0x1681, 0x180E, 0x1FFF, 0x2000, 0x2003,
    0x200A, 0x200B, 0x2027, 0x2028, 0x2029, 0x202A, 0x202F, 0x2030, 0x205E, 0x205F, 0x2060, 0x20AC, 0x2FFF, 0x3000,
    0x3001, 0xCFFF, 0xD000, 0xD7FF, 0xE000, 0xFEFF, 0xFFFD, 0xFFFF, 0x10000, 0x3FFFF, 0x40000, 0xBFFFF, 0xC0000,
    0xFFFFF, 0x100000, 0x10FFFF,
];

/// Bytes that make a text ill-formed, or another one: trailing bytes, the leads with ranges of their own, those that lead nothing.
const ODD: [u8; 24] = [
    0x00, 0x7F, 0x80, 0x8F, 0x90, 0x9F, 0xA0, 0xBF, 0xC0, 0xC1, 0xC2, 0xDF, 0xE0, 0xE1, 0xED, 0xEF, 0xF0, 0xF1, 0xF2,
    0xF3, 0xF4, 0xF5, 0xF8, 0xFF,
];

/// Pieces that the format cares about: every byte class, white space, controls, escapes whole and broken; ill-formed ones last.
#[rustfmt::skip]
const PIECES: [&[u8]; 44] = [
    b"a", b"Z", b"9", b" ", b"\t", b"\r", b"\n", b"\0", b"\x1f", b"\x7f", b"\"", b"\\", b"\\\\", b"\\\"", b"\\b", b"\\t",
    b"\\n", b"\\r", b"\\u0041", b"\\u00E9", b"\\ud800", b"\\uDFFF", b"\\u20ac", b"\\u+041", b"\\u12", b"\\q", b"\\'",
    b"\xc2\x80", b"\xc2\x85", b"\xc2\x9f", b"\xc2\xa0", b"\xe2\x80\xa8", b"\xe3\x80\x80", b"\xf0\x9f\x98\x80", b"\xe2\x82\xac",
    b"\xc3\xa9",
    b"\xff", b"\xc2", b"\xe2\x82", b"\xf0\x9f", b"\x80", b"\xed\xa0\x80", b"\xe0\x80", b"\xf4\x90",
];
const WELL_FORMED: usize = 36;

pub fn push(s: &mut Vec<u8>, c: char) {
    s.extend_from_slice(c.encode_utf8(&mut [0; 4]).as_bytes());
}

pub fn edge(random: &mut Random) -> char {
    char::from_u32(random.pick(&EDGES)).unwrap()
}

/// Any scalar value, each length of encoding as often as any other.
fn any_char(random: &mut Random) -> char {
    let [from, to] = random.pick(&[[0, 0x80], [0x80, 0x800], [0x800, 0x10000], [0x10000, 0x110000]]);
    char::from_u32((from + random.below(to - from)) as u32).unwrap_or('\u{FFFD}')
}

/// UTF-8 of up to some 300 bytes: characters beyond ASCII one behind another, strewn, or around the ends of blocks of 64.
pub fn text(random: &mut Random, s: &mut Vec<u8>) {
    s.clear();
    let (len, kind) = (random.below(301), random.below(8));
    while s.len() < len {
        let near_block_end = (s.len() + 4) % 64 < 8;
        let c = match kind {
            0 => edge(random),
            1 => any_char(random),
            2 if random.once_in(6) => edge(random),
            3 if random.once_in(40) => any_char(random),
            4 if near_block_end => edge(random),
            5 if near_block_end => any_char(random),
            6 => random.pick(&['é', '€', '€']),
            7 => char::from_u32(0x800 + random.below(0xD000) as u32).unwrap_or('€'),
            _ => 'x',
        };
        push(s, c);
    }
}

/// One or two faults, half of them close to the end of a block of 64: a byte exchanged, left out, put in, or all behind it cut off.
pub fn damage(random: &mut Random, s: &mut Vec<u8>) {
    for _ in 0..1 + random.below(2) {
        if s.is_empty() {
            s.push(random.pick(&ODD));
        }
        let mut at = random.below(s.len());
        if random.once_in(2) {
            at = (at / 64 * 64 + 60 + random.below(9)).min(s.len() - 1);
        }
        match random.below(5) {
            0 => s[at] = random.byte(),
            1 => s[at] = random.pick(&ODD),
            2 => s.insert(at, random.pick(&ODD)),
            3 => s.truncate(at + 1),
            _ => drop(s.remove(at)),
        }
    }
}

/// Up to 24 pieces with stretches of ASCII between some; well-formed in two of three.
pub fn pieces(random: &mut Random, s: &mut Vec<u8>) {
    s.clear();
    let kinds = if random.once_in(3) { PIECES.len() } else { WELL_FORMED };
    for _ in 0..random.below(24) {
        if random.once_in(8) {
            s.resize(s.len() + random.below(150), b'x');
        }
        s.extend_from_slice(PIECES[random.below(kinds)]);
    }
}

/// Four to twelve bytes: most of them such as escapes and two-byte controls are made of.
pub fn few_bytes(random: &mut Random, s: &mut Vec<u8>) {
    s.clear();
    for _ in 0..4 + random.below(9) {
        s.push(if random.once_in(5) { random.byte() } else { random.pick(b"\\\\\\uu00+aFnrbt\"x\xC2\x80\x9F") });
    }
}

/// Every string of up to `most` letters but the empty one.
pub fn patterns(letters: &[u8], most: u32) -> Vec<Vec<u8>> {
    let mut all = Vec::new();
    words(letters, most, (0, 1), |word| all.push(word.to_vec()));
    all.remove(0);
    all
}

/// Every string of one to three bytes that begins with `first`.
pub fn short_strings(first: u8, mut each: impl FnMut(&[u8])) {
    each(&[first]);
    for b in 0..=255 {
        each(&[first, b]);
        for d in 0..=255 {
            each(&[first, b, d]);
        }
    }
}

/// The scalar values, the `part`-th of 256 parts of them.
pub fn scalars(part: usize) -> impl Iterator<Item = char> {
    (0..0x1100).filter_map(move |k| char::from_u32((k * 256 + part) as u32))
}
