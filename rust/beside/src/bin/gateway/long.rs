//! Texts and bodies at their limits, and texts that need the most room for their length.

use crate::Both;
use beside::call::{Call, Function};

const MOST_BODY: usize = 10_485_760;
const MOST_TEXT: usize = 20_971_520;

fn text(end: &str, headers: &str, contents: &str, body: &str) -> String {
    ["message/cpim", headers, contents, body].map(|part| part.replace('\n', end)).join(&end.repeat(2))
}

pub fn texts(both: &mut Both) {
    for end in ["\n", "\r\n"] {
        // Entries of as few bytes as there can be.
        let params: String = ('a'..='j').map(|c| format!(";{c}=")).collect();
        let headers = |n: usize| format!("a{params}:\n").repeat(n);
        let contents = |n: u8| (0..n).map(|k| format!("{}:\n", char::from(b'a' + k))).collect::<String>();
        both.begin();
        for (h, c) in [(50, 20), (51, 20), (50, 21), (1, 0), (0, 20)] {
            both.parse(&text(end, headers(h).trim_end(), contents(c).trim_end(), ""));
        }
        // Heads of up to the longest, so that those lent first do not do.
        let params: String = ('a'..='j').map(|c| format!(";{c}={}", "v".repeat(256))).collect();
        let value = "w".repeat(1_024);
        for h in [1, 6, 7, 25, 26, 27, 28, 50, 51] {
            both.parse(&text(end, format!("a{params}:{value}\n").repeat(h).trim_end(), &contents(20), "b\n\nc"));
            both.parse(&text(end, format!("a{params}:{value}\n").repeat(h).trim_end(), "\u{1}:", "b\n\nc"));
            both.parse(&text(end, format!("a:{params} {value}\n").repeat(h).trim_end(), &contents(20), "b\n\nc"));
        }
        both.parse(&text(end, "a: b", "", &"\n".repeat(10_000)));
        both.parse(&text(end, "a: b", &"x:\n".repeat(20_000), &"\n".repeat(1_000)));
        // A line end is two bytes under CRLF; joined LFLF doubles.
        for len in [MOST_BODY / 2 - 1, MOST_BODY / 2, MOST_BODY / 2 + 1] {
            both.begin();
            both.parse(&text(end, "a: b", "", &"\n".repeat(len)));
        }
    }
    // The first line end is not that of the separators.
    for body in ["", "Hi", "Hi\r\n\r\nHo\n\nHa"] {
        both.parse(&format!("a\nmessage/cpim\r\n\r\na: b\r\n\r\nc:d\r\n\r\n{body}"));
        both.parse(&format!("a\r\nmessage/cpim\n\na: b\n\nc:d\n\n{body}"));
    }
    for len in [MOST_BODY, MOST_BODY + 1, MOST_TEXT] {
        both.begin();
        both.parse(&text("\r\n", "a: b", "", &"b".repeat(len)));
        for (function, first, second) in [
            (Function::New, b"text/plain".to_vec(), vec![b'n'; len]),
            (Function::SetBody, vec![b's'; len], Vec::new()),
            (Function::SetBody, vec![0xFF; len / 8], Vec::new()),
        ] {
            both.call(&Call { function, first, second });
        }
    }
    both.begin();
}
