//! Every text of a few pieces, in each place of a message.

use crate::compared::Compared;
use common::{value_text, words, WHITE_SPACE};

/// What the format cares about, and some that it does not.
#[rustfmt::skip]
const PIECES: [&str; 31] = [
    ":", ";", "=", "\\", "\"", " ", "\t", "\r", "\n", "\r\n", "\u{a0}", "\u{85}", "\u{2003}", "\u{130}", "Content-type",
    "message/cpim", "\\n", "\\\"", "\\u0041", "\\u+041", "\\ud800", "\\u12", "\\q", "a", "B", "\u{1}", "\u{7f}", "a:b", ";p=q", "é",
    "<",
];
const ENDS: [&str; 7] = ["\r\n", "\n", "\r", "\r\n\r\n", "\n\n", "a:b", "message/cpim"];
const PARTS: usize = crate::PARTS;

fn each(c: &mut Compared, part: usize, letters: &[&str], most: u32, frames: &[[&str; 2]]) {
    let mut text = String::new();
    let mut seed = 0;
    words(letters, most, (part, PARTS), |word| {
        for [before, behind] in frames {
            text.clear();
            text.push_str(before);
            word.iter().for_each(|piece| text.push_str(piece));
            text.push_str(behind);
            seed += 1;
            c.text(text.as_bytes(), seed);
        }
    });
}

/// What is read first, and where sections end.
pub fn separators(c: &mut Compared, part: usize, long: bool) {
    let most = if long { 7 } else { 6 };
    each(c, part, &ENDS, most, &[["", ""], ["message/cpim", ""]]);
    each(
        c,
        part,
        &ENDS,
        most - 1,
        &[["message/cpim\n\na:b\n\n", "\n\nx"], ["message/cpim\r\n\r\na:b\r\n\r\n", "\r\n\r\n"]],
    );
}

pub fn first_sections(c: &mut Compared, part: usize, long: bool) {
    each(c, part, &PIECES, if long { 4 } else { 3 }, &[["", "\n\na:b\n\n\n\n"]]);
    let letters = ["message", "/", "cpim", "CP", "\u{130}", "i", "I", "m", "MESSAGE", " ", "K", "\u{212a}"];
    each(c, part, &letters, if long { 5 } else { 4 }, &[["Content-type: ", "\r\n\r\na:b\r\n\r\n\r\n\r\nHi"]]);
}

pub fn header_lines(c: &mut Compared, part: usize, long: bool) {
    each(
        c,
        part,
        &PIECES,
        if long { 4 } else { 3 },
        &[
            ["message/cpim\r\n\r\n", "\r\n\r\nContent-type: a\r\n\r\nHi"],
            ["message/cpim\n\n", "\n\nContent-type: a\n\nHi"],
            ["message/cpim\r\n\r\nTo: x\r\n", "\r\na;p=q: y\r\n\r\n\r\n\r\n"],
            ["message/cpim\n\nB: x\na", ": y\n\nx: y\n\n"],
        ],
    );
}

pub fn content_lines(c: &mut Compared, part: usize, long: bool) {
    each(
        c,
        part,
        &PIECES,
        if long { 4 } else { 3 },
        &[
            ["message/cpim\r\n\r\nTo: x\r\n\r\n", "\r\n\r\nHi"],
            ["message/cpim\n\nTo: x\n\na: longer than what follows\n", "\n\nHi"],
            ["message/cpim\r\n\r\nTo: x\r\n\r\nContent-type: b\r\na: c\r\n", "\r\nB: d\r\n\r\n"],
        ],
    );
}

/// What stands behind the colon of a header line: parameters, the space and the value.
pub fn behind_colons(c: &mut Compared, part: usize, long: bool) {
    let letters =
        [";", "=", " ", ":", "\t", "\u{a0}", "\"", "\u{7f}", "\\'", "\\u+041", "\\u0041", "a", ";p=q", "é", "p="];
    let frames = [
        ["message/cpim\r\n\r\nTo:", "\r\n\r\nContent-type: a\r\n\r\nHi"],
        ["message/cpim\n\nB: x\n To :;", " y\n\nx: y\n\n"],
    ];
    each(c, part, &letters, if long { 5 } else { 4 }, &frames);
}

/// Values with escapes, whole and broken.
pub fn escapes(c: &mut Compared, part: usize, long: bool) {
    let letters = ["\\", "u", "0", "+", "d", "8", "n", "\"", "é", "'", " ", "\u{85}", "A"];
    let frames = [["message/cpim\n\nTo:", "\n\n\n\n"], ["message/cpim\r\n\r\nTo: \\u00", "\r\n\r\n\r\n\r\n"]];
    each(c, part, &letters, if long { 5 } else { 4 }, &frames);
}

/// Values of white space of every kind and of what it stands next to, escaped by the rule, so that they are held and written.
pub fn ends(c: &mut Compared, part: usize, long: bool) {
    let white = WHITE_SPACE.map(|c| value_text(&c.to_string()));
    let beside =
        ["\u{200b}", "\u{feff}", "\u{180e}", "\\b", "\\u007f", "\\u009f", "\\\"", "\\\\", "a", "é", "€", "\u{1f600}"];
    let letters: Vec<&str> = white.iter().map(String::as_str).chain(beside).collect();
    let frame = ["message/cpim\r\n\r\nTo: ", "\r\n\r\nContent-type: a\r\n\r\nHi"];
    each(c, part, &letters, if long { 4 } else { 3 }, &[frame]);
}
