//! Random texts from a grammar: every delimiter, escape, white space and limit.

use crate::names::{text_of, Kind};
use common::{value_text, Random};
use source::cpim::open_escape_header_value;
use std::str::from_utf8;

const WHITE: [&str; 9] = ["", "", "", " ", " ", "\t", "\u{a0}", "\u{2003}", "\u{85}\u{3000}"];
/// The first twelve can be read.
#[rustfmt::skip]
const ESCAPES: [&str; 20] = [
    "\\\\", "\\\"", "\\b", "\\t", "\\n", "\\r", "\\u0041", "\\u00E9", "\\u20ac", "\\uffff", "\\u0000", "\\u+041", "\\ud800", "\\uDFFF",
    "\\u12", "\\q", "\\'", "\\u-001", "\\u00é", "\\",
];
const FIRST: [&str; 6] = [
    "Content-type: Message/CPIM",
    "message/cpim",
    "Content-Type: MESSAGE/cpim; charset=utf-8",
    "x\r\nxmessage/CPIMx",
    "Content-type: text/plain",
    "message/cp\u{130}m",
];

/// How a text is drawn.
struct Drawn {
    kind: Kind,
    end: &'static str,
    /// Bare names and values only, so that many lines are accepted.
    plain: bool,
    /// Parameters behind the colon, and little white space around the parts of a line: the second reading trims none.
    behind: bool,
}

fn white(random: &mut Random, s: &mut Vec<u8>) {
    s.extend_from_slice(random.pick(&WHITE).as_bytes());
}

fn padded(random: &mut Random, s: &mut Vec<u8>, part: &[u8]) {
    white(random, s);
    s.extend_from_slice(part);
    white(random, s);
}

impl Drawn {
    fn padded(&self, random: &mut Random, s: &mut Vec<u8>, part: &[u8]) {
        if self.behind && (self.plain || !random.once_in(12)) {
            return s.extend_from_slice(part);
        }
        padded(random, s, part)
    }

    fn name(&self, random: &mut Random) -> Vec<u8> {
        if self.plain {
            return format!("{}{}", random.pick(&["h", "H", "é"]), random.below(70)).into_bytes();
        }
        match random.below(30) {
            0 => {
                let n = random.pick(&[0, 1, 127, 128, 129]);
                text_of(random, n)
            }
            _ => self.kind.name(random),
        }
    }

    /// As it is, escaped, its ends too or not, or with escapes strewn in.
    fn value(&self, random: &mut Random) -> Vec<u8> {
        let mut value = match random.below(40) {
            0 => {
                let n = random.pick(&[1_023, 1_024, 1_025]);
                text_of(random, n)
            }
            _ => self.kind.header_value(random),
        };
        if let (true, Ok(text)) = (random.once_in(2) || self.plain, from_utf8(&value)) {
            let escape = if random.once_in(4) { open_escape_header_value } else { value_text };
            value = escape(text).into_bytes();
        }
        if random.once_in(8) {
            for _ in 0..1 + random.below(3) {
                let kinds = if self.plain || random.once_in(2) { 12 } else { ESCAPES.len() };
                value.extend_from_slice(ESCAPES[random.below(kinds)].as_bytes());
            }
        }
        value
    }

    fn param(&self, random: &mut Random, s: &mut Vec<u8>) {
        s.push(b';');
        if self.behind && self.plain {
            return s.extend_from_slice(format!("p{}=en", random.below(14)).as_bytes());
        }
        if random.once_in(12) {
            let part = self.kind.name(random);
            return self.padded(random, s, &part);
        }
        let name = match random.below(30) {
            0 => {
                let n = random.pick(&[0, 63, 64, 65]);
                text_of(random, n)
            }
            _ => self.kind.param(random),
        };
        let value = match random.below(20) {
            0 => {
                let n = random.pick(&[255, 256, 257]);
                text_of(random, n)
            }
            1..=3 => self.kind.value(random),
            _ => random.pick(&["", "en", "a=b", "ä", "1"]).as_bytes().to_vec(),
        };
        self.padded(random, s, &name);
        s.push(b'=');
        self.padded(random, s, &value);
    }

    fn params(&self, random: &mut Random, s: &mut Vec<u8>) {
        let params = match random.below(if self.behind { 12 } else { 40 }) {
            0 => 9 + random.below(3),
            1..=6 => 1 + random.below(3),
            _ => 0,
        };
        if params > 8 {
            // Names of their own, but for one now and then.
            for k in 0..params {
                s.extend_from_slice(format!(";p{}=v", random.pick(&[k, k, k, k, k, k, k, 0])).as_bytes());
            }
        } else {
            (0..params).for_each(|_| self.param(random, s));
        }
    }

    fn header_line(&self, random: &mut Random, s: &mut Vec<u8>) {
        let name = self.name(random);
        self.padded(random, s, &name);
        if !self.behind {
            self.params(random, s);
        }
        if !random.once_in(60) {
            s.push(b':');
        }
        if self.behind {
            self.params(random, s);
            let space = if !self.plain && random.once_in(40) { random.pick(&WHITE) } else { " " };
            s.extend_from_slice(space.as_bytes());
        }
        let value = self.value(random);
        self.padded(random, s, &value);
    }

    fn content_line(&self, random: &mut Random, s: &mut Vec<u8>) {
        let content_type = random.once_in(8);
        if content_type {
            s.extend_from_slice(
                random.pick(&["Content-type", "content-type", "CONTENT-TYPE ", "\tContent-Type"]).as_bytes(),
            );
        } else {
            let name = self.name(random);
            padded(random, s, &name);
        }
        if !random.once_in(20) {
            s.push(b':');
        }
        let value = match random.below(16) {
            0 if content_type => {
                let n = random.pick(&[0, 255, 256, 257]);
                text_of(random, n)
            }
            _ if content_type => self.kind.content_type(random),
            0 if !self.plain => self.value(random),
            _ => self.kind.value(random),
        };
        padded(random, s, &value);
    }

    fn section(&self, random: &mut Random, s: &mut Vec<u8>, lines: usize, line: impl Fn(&mut Random, &mut Vec<u8>)) {
        for k in 0..lines {
            if k > 0 || random.once_in(20) {
                s.extend_from_slice(self.end.as_bytes());
            }
            line(random, s);
        }
        if random.once_in(20) {
            s.extend_from_slice(random.pick(&["\r\n", "\n", "\r", " "]).as_bytes());
        }
    }
}

fn body(random: &mut Random, separator: &str, s: &mut Vec<u8>) {
    for _ in 0..random.below(8) {
        let piece = random.pick(&["Hi", "\r\n", "\n", "\n\n", separator, "é\u{1f600}", "a: b", "\r", "\u{fffd}"]);
        s.extend_from_slice(piece.as_bytes());
    }
    if random.once_in(10) {
        let n = random.below(700);
        s.extend(text_of(random, n));
    }
}

/// A text; most are accepted, or refused in one line.
pub fn text(random: &mut Random) -> Vec<u8> {
    drawn(random, false)
}

/// A text with parameters behind the colons; most are accepted by the second reading, or refused in one line.
pub fn text_behind(random: &mut Random) -> Vec<u8> {
    drawn(random, true)
}

fn drawn(random: &mut Random, behind: bool) -> Vec<u8> {
    let shape = random.below(24);
    let odd = random.pick(&[30, 100, 1 << 30]);
    let plain = shape < 4 || random.once_in(3);
    let kind = Kind {
        odd: if plain { 1 << 30 } else { odd },
        long: random.once_in(12),
        ends: random.once_in(2),
        senders: true,
    };
    let separator = random.pick(&["\r\n\r\n", "\r\n\r\n", "\n\n"]);
    let ends: [&str; 8] = if separator == "\n\n" {
        ["\n", "\n", "\n", "\r\n", "\r\n", "\n", "\r", "\n"]
    } else {
        ["\r\n", "\r\n", "\r\n", "\r\n", "\n", "\n", "\r", "\r\n"]
    };
    let mut s = if random.once_in(25) { random.pick(&FIRST) } else { FIRST[random.below(3)] }.as_bytes().to_vec();
    s.extend_from_slice(separator.as_bytes());
    let headers = match shape {
        0 | 1 => 49 + random.below(3),
        2 => 0,
        _ => random.below(6),
    };
    let contents = match shape {
        1..=3 => 19 + random.below(3),
        _ => random.below(4),
    };
    let drawn = Drawn { kind, end: random.pick(&ends), plain, behind };
    drawn.section(random, &mut s, headers, |random, s| drawn.header_line(random, s));
    s.extend_from_slice(separator.as_bytes());
    let drawn = Drawn { kind, end: random.pick(&ends), plain, behind };
    drawn.section(random, &mut s, contents, |random, s| {
        if contents < 9 || random.once_in(40) {
            return drawn.content_line(random, s);
        }
        // Of its own name.
        let value = drawn.kind.value(random);
        s.extend(format!("c{}:", s.len()).into_bytes());
        padded(random, s, &value);
    });
    if !random.once_in(50) {
        s.extend_from_slice(separator.as_bytes());
    }
    body(random, separator, &mut s);
    s
}
