//! Lists of calls as scripts (crates/calls_script/specs/Script.antt): run at once, and the same calls one by one.

use crate::lists::{step, Room};
use crate::stores::Stores;
use beside::call::{Call, Function, Function::*, Lengths};
use beside::names::Kind;
use beside::random_calls::{any, new};
use common::Random;
use cpim::raw;

fn put_number(script: &mut Vec<u8>, n: usize) {
    script.extend((n as u32).to_le_bytes());
}

fn put_argument(script: &mut Vec<u8>, s: &[u8]) {
    put_number(script, s.len());
    script.extend(s);
}

/// The call behind those of the script; the header is the one that stands in its store.
fn put_call(script: &mut Vec<u8>, call: &Call, stores: &Stores, lengths: Lengths) {
    const ORDER: [Function; 14] = [
        SetBody,
        SetHeader,
        AddHeader,
        AddObj,
        AddContent,
        From,
        To,
        DateTime,
        Subject,
        SubjectLang,
        Cc,
        Ns,
        Require,
        WithContent,
    ];
    script.push(ORDER.iter().position(|f| *f == call.function).expect("a changing call") as u8);
    put_argument(script, &call.first);
    match call.function {
        SetHeader | AddHeader | AddContent | SubjectLang | Ns | WithContent => put_argument(script, &call.second),
        AddObj => {
            let h = stores.header_record;
            for n in [h.valuelen, h.params, h.size] {
                put_number(script, n);
            }
            put_argument(script, stores.header_store.bytes(lengths.header));
        }
        _ => {}
    }
}

fn script(random: &mut Random, stores: &mut Stores) {
    stores.begin();
    let kind = Kind { odd: random.pick(&[8, 16]), long: false, ends: random.once_in(2), senders: true };
    let lengths = Lengths { head: 256 + random.below(1_500), body: 600, header: 16 + random.below(150) };
    let room = Room::Fixed(lengths);
    let call = new(random, kind);
    step(random, stores, &call, room);
    let record = stores.record;
    let mut head = stores.head.bytes(lengths.head).to_vec();
    let mut body = stores.body.bytes(lengths.body).to_vec();
    let mut script = Vec::new();
    for _ in 0..random.below(30) {
        let call = any(random, kind, &[]);
        if !call.on_header() {
            put_call(&mut script, &call, stores, lengths);
        }
        step(random, stores, &call, room);
    }
    // What is no whole call ends a script.
    script.extend(random.pick(&[&[][..], &[14], &[255, 0], &[1, 4, 0, 0, 0, b'a']]));
    let left = raw::run(&script, record, &mut head, &mut body);
    stores.tally.scripts += 1;
    stores.same("a script's record", &left, &stores.record);
    stores.same("a script's head store", &head.as_slice(), &stores.head.bytes(lengths.head));
    stores.same("a script's body store", &body.as_slice(), &stores.body.bytes(lengths.body));
}

pub fn part(stores: &mut Stores, part: usize, scripts: usize) {
    stores.refill(part);
    for k in 0..scripts {
        let mut random = Random::new((1 << 32) + (part * scripts + k) as u64);
        script(&mut random, stores);
        stores.finish();
    }
}
