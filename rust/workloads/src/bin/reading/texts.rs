//! The texts that are read, each with one header and, once it is read, a body of 10,485,760 bytes.

use common::Random;
use std::ops::RangeInclusive;
use workloads::inputs::{behind, blank_lines, words, Script, LARGE};

/// The first section of all texts but one, and that of this one: 140 bytes, more than the gateway's crate looks at.
const SHORT: &str = "Content-type: Message/CPIM";
const FOUR_LINES: &str =
    "MIME-Version: 1.0\nContent-Type: Message/CPIM; charset=utf-8\nContent-Transfer-Encoding: 8bit\nContent-ID: \
    <found-20260314-0815@depots.example>";

const CRLF: &str = "\r\n";
const LF: &str = "\n";

/// The tables that texts stand in.
#[derive(Clone, Copy, PartialEq, Eq)]
pub enum Table {
    /// The words of the request, and the same text under LF.
    Request,
    /// What else may stand in the body of a CRLF text.
    Bodies,
    /// What may stand in the body of an LF text.
    LfBodies,
}

/// T-14's limit, and T-05's goal, which is for lent stores.
pub const LIMIT: f64 = 2.0;
const JOINED: f64 = 0.28;

/// A text: its table, what its body is and how that is made, and what stands before it.
pub struct Text {
    pub table: Table,
    pub what: &'static str,
    first: &'static str,
    line_end: &'static str,
    body: fn() -> String,
    /// The goal of reading it in lent stores.
    pub goal: f64,
    /// Whether the second reading is measured too. It differs in header lines alone, so that one text shows it.
    pub second: bool,
}

impl Text {
    pub fn text(&self) -> String {
        behind(self.first, self.line_end, &(self.body)())
    }
}

const fn crlf(table: Table, what: &'static str, body: fn() -> String) -> Text {
    Text { table, what, first: SHORT, line_end: CRLF, body, goal: LIMIT, second: false }
}

const fn lf(table: Table, what: &'static str, body: fn() -> String) -> Text {
    Text { line_end: LF, ..crlf(table, what, body) }
}

use Table::{Bodies, LfBodies, Request};

pub const TEXTS: [Text; 19] = [
    Text {
        second: true,
        ..crlf(Request, "CRLF, 72 bytes and CRLFCRLF", || blank_lines(Script::Ascii, CRLF, 72, LARGE))
    },
    crlf(Request, "CRLF, 76 bytes and CRLFCRLF", || blank_lines(Script::Ascii, CRLF, 76, LARGE)),
    crlf(Request, "CRLF, base64 in lines of 76, one of them blank", photograph),
    Text { goal: JOINED, ..lf(Request, "LF, 72 bytes and LFLF", || blank_lines(Script::Ascii, LF, 72, LARGE)) },
    crlf(Bodies, "ASCII words without a line end", || words(LARGE)),
    crlf(Bodies, "CRLFCRLF alone", || repeated("\r\n\r\n", LARGE)),
    crlf(Bodies, "CR alone", || repeated("\r", LARGE)),
    crlf(Bodies, "CR LF CR and a letter", || repeated("\r\n\ra", LARGE)),
    crlf(Bodies, "characters of two bytes", || characters(&[TWO])),
    crlf(Bodies, "characters of three bytes", || characters(&[THREE])),
    crlf(Bodies, "characters of four bytes", || characters(&[FOUR])),
    crlf(Bodies, "characters of one to four bytes", || characters(&[ONE, TWO, THREE, FOUR])),
    lf(LfBodies, "CR ab LF in each 64 bytes", || marked(64, words(LARGE))),
    lf(LfBodies, "CR ab LF, then four characters of three bytes", || repeated("\rab\n€€€€", LARGE)),
    lf(LfBodies, "15 bytes and LFLF", || joined("fifteen letters", LARGE)),
    Text {
        first: FOUR_LINES,
        ..lf(LfBodies, "the same behind a first section of four lines", || joined("fifteen letters", LARGE))
    },
    lf(LfBodies, "CR ab LF, three characters of three bytes, two letters and LFLF", || joined("\rab\n€€€ab", LARGE)),
    lf(LfBodies, "a character of three bytes, two letters and LFLF", || joined("€ab", LARGE)),
    lf(LfBodies, "LFLF alone", || joined("", LARGE)),
];

const ONE: RangeInclusive<u32> = 0x20..=0x7e;
const TWO: RangeInclusive<u32> = 0x80..=0x7ff;
const THREE: RangeInclusive<u32> = 0x800..=0xffff;
const FOUR: RangeInclusive<u32> = 0x1_0000..=0x10_ffff;

/// Characters by chance, each from one of these ranges; `x` where no further one has room.
fn characters(ranges: &[RangeInclusive<u32>]) -> String {
    let mut random = Random::new(3862);
    let mut text = String::with_capacity(LARGE);
    while text.len() + 4 <= LARGE {
        let range = &ranges[random.below(ranges.len())];
        let number = range.start() + random.below((range.end() - range.start() + 1) as usize) as u32;
        // A surrogate is no character.
        text.extend(char::from_u32(number));
    }
    let rest = LARGE - text.len();
    text + &"x".repeat(rest)
}

/// A piece over and over, `x` where no further one has room.
fn repeated(piece: &str, n: usize) -> String {
    piece.repeat(n / piece.len()) + &"x".repeat(n % piece.len())
}

/// A section over and over, so often that the body, where CRLFCRLF stands between them, has `n` bytes; `x` at its end.
fn joined(section: &str, n: usize) -> String {
    let each = section.len() + 4;
    [section, LF, LF].concat().repeat(n / each) + &"x".repeat(n % each)
}

/// The first and the last byte of CRLFCRLF at its distance, once in each so many bytes.
fn marked(every: usize, text: String) -> String {
    let mut bytes = text.into_bytes();
    bytes.chunks_exact_mut(every).for_each(|part| part[..4].copy_from_slice(b"\rab\n"));
    String::from_utf8(bytes).expect("ASCII")
}

/// `n` bytes of base64 by chance in lines of 76 characters, the last one cut short.
fn base64(random: &mut Random, n: usize) -> String {
    const DIGITS: &[u8; 64] = b"ABCDEFGHIJKLMNOPQRSTUVWXYZabcdefghijklmnopqrstuvwxyz0123456789+/";
    let mut byte = |k: usize| match k % LINE {
        76 => b'\r',
        77 => b'\n',
        _ => random.pick(DIGITS),
    };
    (0..n).map(|k| char::from(byte(k))).collect()
}

/// 76 characters and CRLF.
const LINE: usize = 78;

/// A photograph as it comes: base64, and near the middle one blank line.
fn photograph() -> String {
    let mut random = Random::new(76);
    let first = LARGE / 2 / LINE * LINE;
    let before = base64(&mut random, first);
    let behind = base64(&mut random, LARGE - first - CRLF.len());
    [before, behind].join(CRLF)
}
