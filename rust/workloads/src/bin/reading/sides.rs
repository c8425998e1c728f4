//! Readings beside the source's.

use crate::texts::{Table, Text, LIMIT};
use common::measure::{in_turn, side, Measured, Side};
use cpim::raw;
use source::cpim as source;
use workloads::counted::Counts;
use workloads::inputs::{self, text, with_body, with_line, Script, LARGE};
use workloads::lent::{Lent, Reading, FIRST, SECOND};
use workloads::rows;

/// The tables, by the first field of a line.
pub const PAIRS: &str = "pairs";
pub const REQUEST: &str = "request";
pub const BODIES: &str = "bodies";
pub const LF_BODIES: &str = "lf";
pub const SIZES: &str = "sizes";
pub const LIMITS: &str = "limits";
pub const MEMORY: &str = "memory";

/// The calls, as the tables name them.
const LENT: &str = "`cpim_parse`, lent stores";
const CRATE: &str = "`parse_cpim`, the gateway's crate";
const LENT_RFC: &str = "`cpim_parse_rfc`, lent stores";
const CRATE_RFC: &str = "`parse_cpim_rfc`, the gateway's crate";
const SOURCE: &str = "`parse_cpim` of the source";

/// A body store of so many bytes; both stores are cleared before each run.
fn lent<'a>(reading: &'static Reading, text: &'a str, body: usize) -> Side<'a> {
    side(Lent::for_text(text, body), Lent::clear, |lent| lent.read(reading, text))
}

fn crated<'a>(reading: &'static Reading, text: &'a str) -> Side<'a> {
    side((), |_| {}, |_| (reading.crated)(text).expect("a text that is read"))
}

fn there(text: &str) -> Side<'_> {
    side((), |_| {}, |_| source::parse_cpim(text))
}

/// The sides, the source the last: by the time that the thread ran, by the clock on the wall, and how many readings a run is.
fn line<const N: usize>(table: &str, what: &str, goal: f64, sides: [Side<'_>; N]) {
    let sides = in_turn(sides);
    let figures: [fn(&Measured) -> f64; 3] = [|m| m.time.thread, |m| m.time.wall, |m| m.calls as f64];
    rows::print(table, what, goal, &figures.map(|figure| sides.each_ref().map(figure)).concat());
}

/// The request's measure of one of its texts: a call and the source in turn, and nothing beside them.
pub fn pairs(text: &Text) {
    let Text { what, goal, second, .. } = *text;
    let text = text.text();
    assert_same(&text, LARGE);
    let pair = |call: &str, goal, here| line(PAIRS, &format!("{what} | {call}"), goal, [here, there(&text)]);
    pair(LENT, goal, lent(&FIRST, &text, LARGE));
    pair(CRATE, LIMIT, crated(&FIRST, &text));
    if second {
        pair(LENT_RFC, LIMIT, lent(&SECOND, &text, LARGE));
        pair(CRATE_RFC, LIMIT, crated(&SECOND, &text));
    }
}

/// A text in lent stores, by the gateway's crate and by the source, in turn.
pub fn three(text: &Text) {
    let table = match text.table {
        Table::Request => REQUEST,
        Table::Bodies => BODIES,
        Table::LfBodies => LF_BODIES,
    };
    let (what, text) = (text.what, text.text());
    assert_same(&text, LARGE);
    line(table, what, LIMIT, [lent(&FIRST, &text, LARGE), crated(&FIRST, &text), there(&text)]);
}

/// Every call reads the body, of so many bytes, the type and the header that the source reads.
fn assert_same(text: &str, body: usize) {
    let there = source::parse_cpim(text).expect("a text that the source reads");
    let from = there.get_header("From");
    assert_eq!((there.body().len(), there.headers().len(), from.is_some()), (body, 1, true));
    for reading in [&FIRST, &SECOND] {
        let here = (reading.crated)(text).expect("a text that is read");
        assert!(here.body() == there.body());
        assert_eq!(
            (here.content_type(), here.headers().len(), here.get_header("From")),
            (there.content_type(), 1, from)
        );
        let mut lent = Lent::for_text(text, body);
        lent.read(reading, text);
        assert!(lent.body == there.body());
        let (head, record) = (&lent.head, lent.record);
        assert_eq!((record.headers, record.contents, record.bodylen), (1, 0, body));
        assert_eq!(raw::content_type(record, head).of(head), Some(there.content_type().as_bytes()));
        assert_eq!(raw::get_header(record, head, b"From").of(head), from.map(str::as_bytes));
    }
}

/// The text of the request by the length of its body.
pub fn sizes() {
    for n in inputs::SIZES {
        let text = text(Script::Ascii, "\r\n", n);
        assert_same(&text, n);
        line(SIZES, &n.to_string(), LIMIT, [lent(&FIRST, &text, n), there(&text)]);
    }
}

/// The longest texts that are read, and the shortest that are refused.
pub fn limits() {
    let body = |n| with_body("\r\n", &"x".repeat(n));
    // A content line without a colon is skipped, however long it is.
    let padded = |n: usize| {
        let text = body(LARGE);
        let rest = n - text.len() - "\r\n".len();
        with_line(&text, 2, &"x".repeat(rest))
    };
    limit("a body of 10,485,759 bytes", &body(LARGE - 1), LARGE, Ok(LARGE - 1));
    limit("a body of 10,485,760 bytes, a store of as many", &body(LARGE), LARGE, Ok(LARGE));
    limit("the same, a store of 10,485,759", &body(LARGE), LARGE - 1, Err((26, LARGE)));
    limit("a body of 10,485,761 bytes", &body(LARGE + 1), LARGE, Err((23, LARGE + 1)));
    limit("a text of 20,971,520 bytes", &padded(2 * LARGE), LARGE, Ok(LARGE));
    limit("a text of 20,971,521 bytes", &padded(2 * LARGE + 1), LARGE, Err((1, 2 * LARGE + 1)));
}

/// A text that is read into a body store of so many bytes, or refused: a body's length, or a number and what it carries.
fn limit(what: &str, text: &str, store: usize, answer: Result<usize, (u64, usize)>) {
    use source::CpimError::{BodyTooLarge, InputTooLarge};
    let mut stores = Lent::for_text(text, store);
    let here = (FIRST.lent)(text.as_bytes(), &mut stores.head, &mut stores.body);
    let expected = answer.map_or_else(|(number, carried)| (number, carried as u64, 0), |body| (0, 0, body));
    assert_eq!((here.number, here.carried, here.record.bodylen), expected, "{what}");
    // The source makes its own store, so it has no 26.
    let there_too = match source::parse_cpim(text) {
        Ok(m) => answer.map_or_else(|(number, _)| number == 26, |body| m.body().len() == body),
        Err(BodyTooLarge { actual, .. }) => answer == Err((23, actual)),
        Err(InputTooLarge { actual, .. }) => answer == Err((1, actual)),
        Err(_) => false,
    };
    assert!(there_too, "{what}");
    let said = match answer {
        Ok(_) => "read".to_string(),
        Err((number, carried)) => format!("{number} carrying {}", common::grouped(carried as u64)),
    };
    let here =
        side(stores, Lent::clear, |stores| (FIRST.lent)(text.as_bytes(), &mut stores.head, &mut stores.body).number);
    line(LIMITS, &format!("{what} | {said}"), f64::INFINITY, [here, there(text)]);
}

/// What one reading of a text asks of the allocator, by each call and by the source.
pub fn memory(text: &Text) {
    let text = text.text();
    let mut stores = Lent::for_text(&text, LARGE);
    count(LENT, || stores.read(&FIRST, &text));
    count(CRATE, || cpim::parse_cpim(&text));
    count(SOURCE, || source::parse_cpim(&text));
}

fn count<T>(what: &str, call: impl FnOnce() -> T) {
    let before = Counts::now();
    let kept = call();
    let counts = Counts::now() - before;
    drop(kept);
    rows::print(MEMORY, what, f64::INFINITY, &[counts.times, counts.asked, counts.given_back].map(|n| n as f64));
}
