//! `parse_cpim` of the gateway's crate beside the source, by the length of the text. Each line has the table, what is read with the
//! length behind it, the goal, and what one call takes by the crate and by the source.

use crate::tables::PARSING;
use ::workloads::inputs::{filled, notice, text, with_line, Script, LARGE, NOTICE};
use ::workloads::rows;
use common::measure::{dropping, in_turn, side, Side};
use cpim::lent::Message;
use source::cpim as source;
use std::hint::black_box;

/// A text of 0.4, 5, 20 and 100 KB, of 1 and of 10 MB. Each is measured in a process of its own: what was freed before decides whether
/// the allocator has memory at hand or asks the system for it.
pub const LENGTHS: [usize; 6] = [400, 5_000, 20_000, 100_000, 1_000_000, 10_000_000];

/// Goals: accepted under CRLF, under LF, and refused.
const CRLF: f64 = 0.5;
const LF: f64 = 0.8;
const REFUSED: f64 = 1.0;

/// The texts of one length.
struct Texts {
    length: usize,
}

impl Texts {
    /// A text that is refused by a number, or accepted where that is 0.
    fn row(&self, what: &str, goal: f64, number: u64, text: &str) {
        let refused = cpim::parse_cpim(text).map_or_else(|e| e.number(), |_| 0);
        assert_eq!((refused, source::parse_cpim(text).is_ok()), (number, number == 0), "{what}, {}", self.length);
        self.beside(what, goal, text, dropping(|| cpim::parse_cpim(black_box(text))));
    }

    /// A text that is read in lent stores, and its body left in its place.
    fn in_place(&self, what: &str, goal: f64, text: &str) {
        let stores = (vec![0; 4_096], vec![0; 2 * text.len()]);
        let here = side(
            stores,
            |_| {},
            |(head, buffer)| {
                let m = Message::parse_in_place(black_box(text.as_bytes()), head, buffer);
                m.map_or(0, |m| m.record().bodylen)
            },
        );
        self.beside(what, goal, text, here);
    }

    fn beside(&self, what: &str, goal: f64, text: &str, here: Side<'_>) {
        let measured = in_turn([here, dropping(|| source::parse_cpim(black_box(text)))]);
        rows::print(PARSING, &format!("{what} {}", self.length), goal, &measured.map(|measured| measured.time.thread));
    }

    fn notices(&self) {
        let (lines, piece) = (notice(self.length, true), notice(self.length, false));
        self.row("CRLF, blank lines", CRLF, 0, &lines);
        self.row("CRLF, body in one piece", CRLF, 0, &piece);
        self.row("LF, blank lines", LF, 0, &lf(&lines));
        self.row("LF, body in one piece", LF, 0, &lf(&piece));
        self.in_place("CRLF, blank lines, in lent stores", CRLF, &lines);
        let (colon, control) = (with_line(&lines, 1, "Found"), with_line(&lines, 2, "Content-Note: \u{7f}"));
        self.row("4, CRLF, blank lines", REFUSED, 4, &colon);
        self.row("4, CRLF, body in one piece", REFUSED, 4, &with_line(&piece, 1, "Found"));
        self.row("4, LF, blank lines", REFUSED, 4, &lf(&colon));
        self.row("11, CRLF, blank lines", REFUSED, 11, &control);
        self.row("11, LF, blank lines", REFUSED, 11, &lf(&control));
        self.row("2", REFUSED, 2, &"x".repeat(self.length));
    }

    /// Headers that fill the text.
    fn filled(&self) {
        self.row("CRLF, 50 headers", CRLF, 0, &filled(self.length, 50));
        self.row("20, CRLF, 51 headers", REFUSED, 20, &filled(self.length, 51));
    }

    fn too_long(&self) {
        self.row("23, CRLF, blank lines", REFUSED, 23, &text(Script::Ascii, "\r\n", LARGE + 1));
        self.row("23, LF, blank lines", REFUSED, 23, &text(Script::Ascii, "\n", LARGE + 1));
    }
}

fn lf(text: &str) -> String {
    text.replace('\r', "")
}

/// The rows of one length.
pub fn all(length: usize) {
    let texts = Texts { length };
    if length == LENGTHS[0] {
        texts.row("CRLF, the notice of 379 bytes", CRLF, 0, NOTICE);
    }
    texts.notices();
    if (5_000..=100_000).contains(&length) {
        texts.filled();
    }
    if length == LENGTHS[5] {
        texts.too_long();
    }
}
