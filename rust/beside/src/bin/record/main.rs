//! Writes a list of the source's answers to standard output, for the program `test_replay` to hold the proved functions to. From the root,
//! with `rust/Cargo.toml` for the manifest:
//!
//!     cargo run --release --offline --quiet --manifest-path rust/Cargo.toml --bin record >crates/test_replay/stdin
//!
//! The list is the same in every run. Its form is in crates/test_replay/src/main.rt. The bytes of a message's entries are those of its layout,
//! which the source has not, and a text is the rule's where a header value has white space at an end (document 02, T-03); all else is the source's
//! own answer. It is given room for everything, so 25 and 26 do not come. How many texts are whose is said on standard error.

mod lists;
mod texts;

use beside::layout::layout;
use beside::refusals::{number, text, Refusal};
use beside::written::{written, Texts};
use common::Random;
use source::cpim::{parse_cpim, CpimMessage};
use std::io::{stdout, Write};

/// The kinds of answers, by their numbers in the list.
const READ: u8 = 1;
const WRITTEN: u8 = 2;
const READ_AND_RUN: u8 = 3;
const NEW_AND_RUN: u8 = 4;

fn put_part(out: &mut Vec<u8>, part: &[u8]) {
    out.extend((part.len() as u32).to_le_bytes());
    out.extend(part);
}

/// The records one behind another, and whose texts are in them.
#[derive(Default)]
struct List {
    bytes: Vec<u8>,
    texts: Texts,
}

impl List {
    /// A record: what is asked, and what the source answers.
    fn put(&mut self, kind: u8, asked: [&[u8]; 3], answer: &Result<CpimMessage, Refusal>) {
        let (number, carried) = answer.as_ref().err().copied().unwrap_or((0, 0));
        let mut record = vec![kind];
        asked.iter().for_each(|part| put_part(&mut record, part));
        put_part(&mut record, &[(number as u32).to_le_bytes(), (carried as u32).to_le_bytes()].concat());
        let parts = match answer {
            Ok(m) => {
                let text = if kind == READ { String::new() } else { self.text(m) };
                [m.content_type().as_bytes().to_vec(), layout(m)[256..].to_vec(), m.body().to_vec(), text.into_bytes()]
            }
            Err(_) => Default::default(),
        };
        parts.iter().for_each(|part| put_part(&mut record, part));
        put_part(&mut self.bytes, &record);
    }

    fn text(&mut self, m: &CpimMessage) -> String {
        let due = written(m);
        self.texts.compared(&due);
        due.text
    }
}

fn read(bytes: &[u8]) -> Result<CpimMessage, Refusal> {
    parse_cpim(text(bytes)?).map_err(number)
}

fn main() {
    let mut list = List::default();
    let mut random = Random::new(3862);
    for bytes in texts::limits() {
        list.put(READ, [&bytes, b"", b""], &read(&bytes));
    }
    for _ in 0..1_500 {
        let bytes = texts::text(&mut random);
        list.put(READ, [&bytes, b"", b""], &read(&bytes));
    }
    let mut accepted = 0;
    while accepted < 300 {
        let bytes = texts::text(&mut random);
        let answer = read(&bytes);
        if answer.is_ok() {
            list.put(WRITTEN, [&bytes, b"", b""], &answer);
            accepted += 1;
        }
    }
    for _ in 0..300 {
        let bytes = texts::text(&mut random);
        let mut answer = read(&bytes);
        let script = lists::script(&mut random, &mut answer);
        list.put(READ_AND_RUN, [&bytes, b"", &script], &answer);
    }
    for _ in 0..300 {
        let (content_type, body) = lists::beginning(&mut random);
        let mut answer = lists::new(&content_type, &body);
        let script = lists::script(&mut random, &mut answer);
        list.put(NEW_AND_RUN, [&content_type, &body, &script], &answer);
    }
    let [by_source, by_rule] = list.texts.compared;
    eprintln!("texts of the source: {by_source}, by the rule for the ends of header values: {by_rule}");
    assert!(by_source.min(by_rule) > 200, "too few texts of one kind");
    stdout().write_all(&list.bytes).expect("standard output");
}
