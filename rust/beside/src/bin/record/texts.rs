//! Texts: most have a header or two and are accepted, or are refused in one line; and one at and past each limit.

use beside::names::{text_of, Kind};
use common::{value_text, Random};

/// Without the values of senders, so that the stored list stays.
const KIND: Kind = Kind { odd: 40, long: false, ends: true, senders: false };

#[rustfmt::skip]
const VALUES: [&str; 25] = [
    "Hi", "x\\u00a0", "a \\\"b\\\"", "\\u0041", "\\u+041", "\\u00e9", "\\ud800", "\\q", "\\", "\\u12", "\\t", "\\\\", " \u{a0}x\u{2003} ", "\u{85}", "\\u0020a",
    "\\u0020", "\\u3000\\u3000", "<im:a@b>", "", "é", "\\u001f", "a: b", "; p=q", "\\n\\r\\b", "\\'",
];
const PARAMS: [&str; 13] =
    ["", "", "", "", "", "", ";lang=en", ";a=1;a=2", ";depot = north ", ";x", ";=x", ";a=\"b\"", ";a\"b=c"];
const FIRST: [&str; 8] = [
    "Content-type: Message/CPIM",
    "Content-type: Message/CPIM",
    "Content-type: Message/CPIM",
    "message/cpim",
    "MESSAGE/CPIM",
    "Content-type: text/plain",
    "",
    "Content-type: message/cp\u{130}m",
];
const CONTENTS: [&str; 12] = [
    "Content-type: text/plain",
    "content-TYPE: a; charset=utf-8",
    "Content-ID: <1>",
    "a: b",
    "a: \u{a0}c ",
    "no colon",
    " ",
    "Content-type:",
    "a\u{7f}b: c",
    "x: a\tb",
    ": y",
    "Content-type: a\u{7}b",
];
const BODIES: [&str; 7] = ["Hi", "", "a\n\nb", "a\r\n\r\nb\r\n\r\n", "é\u{1f600}", "\n", "Left on tram 6."];

/// One of the first few; of all now and then.
fn mostly(random: &mut Random, all: &[&'static str], first: usize, rare: usize) -> &'static [u8] {
    let n = if random.once_in(rare) { all.len() } else { first };
    random.pick(&all[..n]).as_bytes()
}

fn header(random: &mut Random, s: &mut Vec<u8>) {
    let pad = random.pick(&["", "", " ", "\t", "\u{2003}"]);
    s.extend(pad.as_bytes());
    s.extend(KIND.name(random));
    s.extend(mostly(random, &PARAMS, 10, 12));
    s.extend(if random.once_in(25) { "" } else { ":" }.as_bytes());
    s.extend(pad.as_bytes());
    match random.below(4) {
        0 => s.extend(KIND.value(random)),
        1 => s.extend(value_text(&String::from_utf8_lossy(&KIND.header_value(random))).into_bytes()),
        _ => s.extend(mostly(random, &VALUES, 6, 3)),
    }
}

pub fn text(random: &mut Random) -> Vec<u8> {
    let (separator, end) = random.pick(&[("\r\n\r\n", "\r\n"), ("\r\n\r\n", "\n"), ("\n\n", "\n"), ("\n\n", "\r\n")]);
    let mut s = mostly(random, &FIRST, 5, 12).to_vec();
    s.extend(separator.as_bytes());
    for k in 0..random.below(5) {
        s.extend(if k > 0 { end } else { "" }.as_bytes());
        header(random, &mut s);
    }
    s.extend(separator.as_bytes());
    for k in 0..random.below(4) {
        s.extend(if k > 0 { end } else { "" }.as_bytes());
        s.extend(mostly(random, &CONTENTS, 6, 6));
    }
    s.extend(if random.once_in(30) { "" } else { separator }.as_bytes());
    s.extend(random.pick(&BODIES).as_bytes());
    if random.once_in(40) {
        s.push(random.pick(&[255, 0xC3, 0x80]));
    }
    s
}

fn notice(headers: &str, contents: &str) -> Vec<u8> {
    format!("Content-type: Message/CPIM\r\n\r\n{headers}\r\n\r\n{contents}\r\n\r\nHi").into_bytes()
}

/// One below each limit of a line, at it and past it; and of the counts.
pub fn limits() -> Vec<Vec<u8>> {
    let mut all = Vec::new();
    for (limit, before, behind) in [(128, "", ": b"), (1024, "To: ", ""), (64, "To;", "=b: c"), (256, "To;a=", ": c")] {
        for n in [limit - 1, limit, limit + 1] {
            all.push(notice(&format!("{before}{}{behind}", "a".repeat(n)), "Content-type: text/plain"));
        }
    }
    for n in [255, 256, 257] {
        all.push(notice("To: a", &format!("Content-type: {}", "a".repeat(n))));
    }
    for n in [1023, 1024, 1025] {
        all.push(notice("To: a", &format!("ID: {}", "a".repeat(n))));
    }
    for n in [49, 50, 51] {
        all.push(notice(&"To: a\r\n".repeat(n), "a: b"));
    }
    for n in [9, 10, 11] {
        let params: String = (0..n).map(|k| format!(";p{k}=v")).collect();
        all.push(notice(&format!("To{params}: a"), "a: b"));
        all.push(notice(&format!("To{params};p0=w: a"), "a: b"));
    }
    for n in [19, 20, 21] {
        let contents: String = (0..n).map(|k| format!("c{k}: v\r\n")).collect();
        all.push(notice("To: a", &contents));
        all.push(notice("To: a", &format!("{contents}c0: w")));
    }
    let mut random = Random::new(22);
    let long = String::from_utf8(text_of(&mut random, 900)).expect("characters");
    all.push(notice("To: a", &format!("a: b\r\n\r\n{long}")));
    all
}
