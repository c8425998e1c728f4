//! What of a message its text does not give back.

use crate::places::{Places, MOST};
use crate::raw::{self, text, Record};
use std::fmt;

/// Why a message does not come back from its text by [`parse_cpim`](crate::parse_cpim): the first clause of demand 3 that fails
/// (crates/roundtrip/specs/Loss.antt), and for which header or content header, by its number in map order, counting from 0, and its name. No clause
/// is about the ends of header values, which are written so that they come back.
#[derive(Debug, Clone, Copy, PartialEq, Eq)]
pub enum Loss<'a> {
    /// There is no header: the text lacks a section, so it is refused, or read as another message where the body has a blank line.
    NoHeader,
    /// A header has a parameter, which is read as the start of its value.
    Parameter { header: usize, name: &'a str },
    /// The body is not UTF-8; each ill-formed part is written as U+FFFD.
    Body,
    /// A content header is called Content-type: it is read as the type.
    ContentTypeTwice { content_header: usize, name: &'a str },
    /// White space at an end of a header name is trimmed.
    HeaderName { header: usize, name: &'a str },
    /// White space at an end of a content header's name or value is trimmed.
    ContentHeader { content_header: usize, name: &'a str },
    /// White space at an end of the content type is trimmed.
    ContentType,
}

impl<'a> Loss<'a> {
    /// None where the message comes back. `record` and stores hold one.
    pub(crate) fn of(record: Record, head: &'a [u8], body: &[u8]) -> Option<Self> {
        let raw::Loss { clause, entry } = raw::loss(record, head, body);
        let header = entry;
        let content_header = entry;
        Some(match clause {
            1 => Loss::NoHeader,
            2 => Loss::Parameter { header, name: name(record, head, entry) },
            3 => Loss::Body,
            4 => Loss::ContentTypeTwice { content_header, name: name(record, head, record.headers + entry) },
            5 => Loss::HeaderName { header, name: name(record, head, entry) },
            6 => Loss::ContentHeader { content_header, name: name(record, head, record.headers + entry) },
            7 => Loss::ContentType,
            0 => return None,
            clause => unreachable!("clause {clause} of a message that is held"),
        })
    }
}

/// The name of the n-th entry, the content headers counted behind the headers.
fn name(record: Record, head: &[u8], n: usize) -> &str {
    let mut rows = [0; MOST];
    let places = Places::find(record, head, &mut rows).expect("the places of what is held");
    let all = places.headers().chain(places.content_headers());
    let at = all.map(|e| e.name_at()).nth(n).expect("an entry of the message");
    text(&head[at])
}

/// The words of the program `wholecpim` (crates/report/specs/Words.antt): entries are counted from 1 here.
impl fmt::Display for Loss<'_> {
    fn fmt(&self, f: &mut fmt::Formatter<'_>) -> fmt::Result {
        let mut entry = |what: &str, n: &usize, name: &str, why: &str| {
            write!(f, "{what} {} in the order of names, {}, {why}", n + 1, name.escape_debug())
        };
        match self {
            Loss::NoHeader => f.write_str("it has no header: its text is refused, or read as another message"),
            Loss::Parameter { header, name } => {
                let why = "has a parameter: it is written behind the colon and read as part of the value";
                entry("header", header, name, why)
            }
            Loss::Body => f.write_str("its body is not UTF-8: ill-formed bytes are written as U+FFFD"),
            Loss::ContentTypeTwice { content_header, name } => {
                entry("content header", content_header, name, "is called Content-type: it is read as the type")
            }
            Loss::HeaderName { header, name } => {
                entry("header", header, name, "has white space at an end of its name: it is trimmed when read")
            }
            Loss::ContentHeader { content_header, name } => {
                let why = "has white space at an end of its name or value: it is trimmed when read";
                entry("content header", content_header, name, why)
            }
            Loss::ContentType => f.write_str("its type has white space at an end: it is trimmed when read"),
        }
    }
}
