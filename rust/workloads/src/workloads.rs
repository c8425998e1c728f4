//! The workloads. Each prints a line: its table, what it is, its goal, and what one call takes in nanoseconds by the lent stores, by the
//! gateway's crate and by the source.

use crate::tables;
use ::workloads::inputs::{many, text, Many, Script, LARGE, NOTICE, SIZES};
use ::workloads::lent::{Lent, Reading, FIRST, SECOND};
use ::workloads::rows;
use common::measure::{in_turn, side, Side};
use cpim::raw;
use source::cpim as source;

fn row(what: &str, goal: f64, sides: [Side<'_>; 3]) {
    let table = if goal.is_finite() { tables::GOALS } else { tables::SIZES };
    rows::print(table, what, goal, &in_turn(sides).map(|measured| measured.time.thread));
}

fn reading(what: &str, goal: f64, text: &str, body: usize) {
    reading_by(&FIRST, what, goal, text, body);
}

/// The source has one reading alone, which stands beside each.
fn reading_by(reading: &Reading, what: &str, goal: f64, text: &str, body: usize) {
    row(
        what,
        goal,
        [
            side(Lent::for_text(text, body), Lent::clear, |lent| lent.read(reading, text)),
            side((), |_| {}, |_| (reading.crated)(text).expect(what)),
            side((), |_| {}, |_| source::parse_cpim(text).expect(what)),
        ],
    );
}

fn writing(what: &str, goal: f64, text: &str) {
    let (crated, there) = (cpim::parse_cpim(text).expect(what), source::parse_cpim(text).expect(what));
    let lent = Lent::holding(text);
    row(
        what,
        goal,
        [
            side(lent, |lent| lent.out.fill(0), Lent::write),
            side(crated, |_| {}, |m| cpim::CpimMessage::to_string(m).expect(what)),
            side(there, |_| {}, |m| source::CpimMessage::to_string(m).expect(what)),
        ],
    );
}

/// The calls that build 50 headers with ten parameters each, on lent stores.
fn build(lent: &mut Lent, store: &mut [u8], many: &Many) {
    let mut m = raw::new(b"text/plain", b"Hi", &mut lent.head, &mut lent.body).record;
    for name in &many.names {
        let mut h = raw::header_new(many.value.as_bytes(), store).record;
        for (name, value) in &many.params {
            h = raw::header_with_param(h, store, name.as_bytes(), value.as_bytes()).record;
        }
        let answer = raw::add_header_obj(m, &mut lent.head, name.as_bytes(), h, store);
        assert_eq!(answer.number, 0);
        m = answer.record;
    }
}

/// The same calls by an API that owns its messages: the gateway's crate and the source have the same one.
macro_rules! built {
    ($api:ident, $many:expr) => {{
        let mut m = $api::CpimMessage::new("text/plain", b"Hi".to_vec()).expect("a message");
        for name in &$many.names {
            let mut h = $api::CpimHeader::new($many.value).expect("a header");
            for (name, value) in &$many.params {
                h = h.with_param(name, value).expect("a parameter");
            }
            m.add_header_obj(name, h).expect("room");
        }
        m
    }};
}

fn building(what: &str, goal: f64, many: &Many) {
    let stores = (Lent::new(32_768, 2, 0), vec![0; 4_400]);
    row(
        what,
        goal,
        [
            side(stores, |(lent, _)| lent.clear(), |(lent, store)| build(lent, store, many)),
            side((), |_| {}, |_| built!(cpim, many)),
            side((), |_| {}, |_| built!(source, many)),
        ],
    );
}

fn lookup(what: &str, goal: f64, text: &str, name: &str) {
    let (crated, there) = (cpim::parse_cpim(text).expect(what), source::parse_cpim(text).expect(what));
    let mut lent = Lent::for_text(text, text.len());
    lent.read(&FIRST, text);
    row(
        what,
        goal,
        [
            side(lent, |_| {}, |lent| raw::get_header(lent.record, &lent.head, name.as_bytes()).length),
            side(crated, |_| {}, |m| m.get_header(name).map(str::len)),
            side(there, |_| {}, |m| m.get_header(name).map(str::len)),
        ],
    );
}

pub fn all() {
    assert_eq!(NOTICE.len(), 379);
    let crlf = text(Script::Ascii, "\r\n", LARGE);
    reading("(a) reading, CRLF, body of 10,485,760 bytes", 0.2, &crlf, LARGE);
    reading("(b) reading, LF, the same body", 0.28, &text(Script::Ascii, "\n", LARGE), LARGE);
    writing("(c) writing it", 0.35, &crlf);
    for (script, name) in [(Script::German, "German"), (Script::Greek, "Greek")] {
        let text = text(script, "\r\n", LARGE);
        reading(&format!("(d) reading, CRLF, {name}, 10,485,760 bytes"), 0.5, &text, LARGE);
        writing(&format!("(d) writing it, {name}"), 0.5, &text);
    }
    reading("(e) reading a notice of 379 bytes", 0.5, NOTICE, 256);
    writing("(f) writing it", 0.5, NOTICE);
    let many = many();
    reading("(g) reading 50 headers of 10 parameters", 0.5, &many.text(), 2);
    writing("(g) writing them", 0.5, &many.text());
    building("(h) building them by calls", 0.5, &many);
    lookup("(i) a lookup in the notice", 1.0, NOTICE, "Subject");
    reading_by(&SECOND, "(j) the second reading of the notice of 379 bytes", 0.5, NOTICE, 256);
    for n in SIZES {
        writing(&n.to_string(), f64::INFINITY, &text(Script::Ascii, "\r\n", n));
    }
}
