//! Lists of changing calls, as scripts (crates/calls_script/specs/Script.antt) and made on the source's message; a refused call keeps it.

use beside::layout::{layout_alone, record_alone};
use beside::names::Kind;
use beside::refusals::{number, text, Refusal};
use common::Random;
use source::cpim::{CpimError, CpimHeader, CpimMessage};

/// Without the values of senders, so that the stored list stays.
const KIND: Kind = Kind { odd: 12, long: false, ends: true, senders: false };

fn put_number(script: &mut Vec<u8>, n: usize) {
    script.extend((n as u32).to_le_bytes());
}

fn put_argument(script: &mut Vec<u8>, s: &[u8]) {
    put_number(script, s.len());
    script.extend(s);
}

pub fn beginning(random: &mut Random) -> (Vec<u8>, Vec<u8>) {
    (KIND.content_type(random), KIND.body(random))
}

pub fn new(content_type: &[u8], body: &[u8]) -> Result<CpimMessage, Refusal> {
    CpimMessage::new(text(content_type)?, body.to_vec()).map_err(number)
}

/// A header alone with up to three parameters; those that are refused are left out.
fn header(random: &mut Random) -> CpimHeader {
    let mut h = CpimHeader::new("v").expect("a value");
    if let Ok(value) = std::str::from_utf8(&KIND.header_value(random)) {
        h = CpimHeader::new(value).unwrap_or(h);
    }
    for _ in 0..random.below(4) {
        let (name, value) = (KIND.param(random), KIND.value(random));
        if let (Ok(name), Ok(value)) = (text(&name), text(&value)) {
            h = h.clone().with_param(name, value).unwrap_or(h);
        }
    }
    h
}

/// The call of a number of `Call` (crates/format/specs/Calls.antt) with one or two texts.
fn called(m: &CpimMessage, call: u8, a: &str, b: &str) -> Result<CpimMessage, CpimError> {
    let mut m = m.clone();
    match call {
        1 => m.set_header(a, b).map(|()| m),
        2 => m.add_header(a, b).map(|()| m),
        4 => m.add_content_header(a, b).map(|()| m),
        5 => m.with_from(a),
        6 => m.with_to(a),
        7 => m.with_datetime(a),
        8 => m.with_subject(a),
        9 => m.with_subject_lang(a, b),
        10 => m.with_cc(a),
        11 => m.with_ns(a, b),
        12 => m.with_require(a),
        13 => m.with_content_header(a, b),
        _ => unreachable!("a call of one or two texts"),
    }
}

/// One call, put behind those of the script; what it leaves of the message.
fn step(random: &mut Random, script: &mut Vec<u8>, m: &CpimMessage) -> Option<CpimMessage> {
    let call = random.below(14) as u8;
    script.push(call);
    let mut after = m.clone();
    if call == 0 {
        let body = KIND.body(random);
        put_argument(script, &body);
        return after.set_body(body).ok().map(|()| after);
    }
    if call == 3 {
        let (name, h) = (KIND.name(random), header(random));
        put_argument(script, &name);
        let record = record_alone(&h);
        for n in [record.valuelen, record.params, record.size] {
            put_number(script, n);
        }
        put_argument(script, &layout_alone(&h));
        return after.add_header_obj(text(&name).ok()?, h).ok().map(|()| after);
    }
    let first = if matches!(call, 1 | 2 | 4 | 13) { KIND.name(random) } else { KIND.header_value(random) };
    put_argument(script, &first);
    let second = match call {
        1 | 2 => KIND.header_value(random),
        4 | 9 | 11 | 13 => KIND.value(random),
        _ => return called(m, call, text(&first).ok()?, "").ok(),
    };
    put_argument(script, &second);
    called(m, call, text(&first).ok()?, text(&second).ok()?).ok()
}

/// Up to six calls; the message becomes what they leave of it.
pub fn script(random: &mut Random, answer: &mut Result<CpimMessage, Refusal>) -> Vec<u8> {
    let mut script = Vec::new();
    let nothing = CpimMessage::new("a", Vec::new()).expect("a message");
    for _ in 0..random.below(7) {
        let m = answer.as_ref().unwrap_or(&nothing);
        let after = step(random, &mut script, m);
        if let (Ok(m), Some(after)) = (answer.as_mut(), after) {
            *m = after;
        }
    }
    script
}
