//! Stores and records with something altered: a call answers by what they then hold, or with 25 carrying 0, and changes no byte.

use crate::samples::{battery, header_battery, samples};
use crate::stores::Stores;
use beside::call::{Call, Lengths};
use beside::layout::{held, held_alone, need, need_alone};
use common::Random;
use cpim::raw::{HeaderRecord, Record};
use source::cpim::CpimMessage;

/// The work in parts of about the same size; each part takes every so manieth alteration.
pub const PARTS: usize = 32;

const MOST_BODY: usize = 10_485_760;
const BYTES: [u8; 9] = [0, 1, 16, b':', b';', b'a', 0x7F, 0x80, 0xFF];
const NUMBERS: [usize; 24] = [
    0,
    1,
    2,
    10,
    11,
    15,
    16,
    17,
    20,
    21,
    50,
    51,
    255,
    256,
    257,
    1024,
    MOST_BODY,
    MOST_BODY + 1,
    1 << 32,
    1 << 63,
    usize::MAX / 2,
    usize::MAX - 255,
    usize::MAX - 1,
    usize::MAX,
];

/// The records and stores that a sample left.
struct Sample {
    record: Record,
    header: HeaderRecord,
    head: Vec<u8>,
    body: Vec<u8>,
    store: Vec<u8>,
    need: usize,
    header_need: usize,
}

/// What is altered beside the numbers of the records: bytes of the head store and of the header store, by place.
#[derive(Clone, Debug)]
struct Altered {
    record: Record,
    header: HeaderRecord,
    head: Vec<(usize, u8)>,
    store: Vec<(usize, u8)>,
    lengths: Lengths,
}

impl Sample {
    fn build(stores: &mut Stores, calls: &[Call]) -> Self {
        stores.refill(3);
        stores.begin();
        let all = stores.room();
        for call in calls {
            if call.on_header() {
                let after = stores.header_after(call);
                stores.run_header(call, after, all);
            } else {
                let after = stores.after(call);
                stores.run(call, after, all);
            }
        }
        let need = need(stores.message.as_ref().unwrap());
        let header_need = need_alone(stores.header.as_ref().unwrap());
        Sample {
            record: stores.record,
            header: stores.header_record,
            head: stores.head.bytes(need + 600).to_vec(),
            body: stores.body.bytes(64).to_vec(),
            store: stores.header_store.bytes(header_need + 600).to_vec(),
            need,
            header_need,
        }
    }

    /// Nothing altered, in stores with some room to spare.
    fn whole(&self) -> Altered {
        let lengths = Lengths { head: self.need + 500, body: 40, header: self.header_need + 300 };
        Altered { record: self.record, header: self.header, head: Vec::new(), store: Vec::new(), lengths }
    }

    /// What is altered, in the stores.
    fn lay(&self, stores: &mut Stores, altered: &Altered) {
        stores.begin();
        stores.note = format!("{altered:?}");
        stores.head.put(0, &self.head);
        stores.body.put(0, &self.body);
        stores.header_store.put(0, &self.store);
        for (at, b) in &altered.head {
            stores.head.put(*at, &[*b]);
        }
        for (at, b) in &altered.store {
            stores.header_store.put(*at, &[*b]);
        }
        stores.record = altered.record;
        stores.header_record = altered.header;
        stores.header = held_alone(altered.header, stores.header_store.bytes(altered.lengths.header));
    }

    /// The message held by the head store alone, or by both stores.
    fn held(stores: &Stores, lengths: Lengths, both: bool) -> Option<CpimMessage> {
        let body = both.then(|| stores.body.bytes(lengths.body));
        held(stores.record, stores.head.bytes(lengths.head), body)
    }

    fn look_up(&self, stores: &mut Stores, altered: &Altered) {
        self.lay(stores, altered);
        stores.message = Self::held(stores, altered.lengths, false);
        let whole = Self::held(stores, altered.lengths, true);
        for names in [&[b"From", &b"Subject"[..], b"A", "é".as_bytes(), b"b"][..], &[]] {
            stores.look_up(names, altered.lengths, whole.as_ref());
        }
    }

    fn run(&self, stores: &mut Stores, altered: &Altered, call: &Call) {
        self.lay(stores, altered);
        let lengths = altered.lengths;
        stores.message = Self::held(stores, lengths, call.takes_body());
        if call.on_header() {
            let after = stores.header_after(call);
            stores.run_header(call, after, lengths);
        } else {
            let after = stores.after(call);
            stores.run(call, after, lengths);
        }
    }
}

/// The values that a byte is set to.
fn bytes(b: u8) -> Vec<u8> {
    let mut all = BYTES.to_vec();
    all.extend([b.wrapping_add(1), b.wrapping_sub(1), b ^ 0x20, b ^ 0x80]);
    all.retain(|v| *v != b);
    all.sort();
    all.dedup();
    all
}

/// The values that a number is set to.
fn numbers(n: usize) -> Vec<usize> {
    let mut all = NUMBERS.to_vec();
    all.extend([n.wrapping_add(1), n.wrapping_sub(1), n.wrapping_add(16), n.wrapping_sub(16), n + 256, n + (1 << 32)]);
    all
}

/// Every alteration of the message, in order.
fn message_altered(s: &Sample, random: &mut Random) -> Vec<Altered> {
    let mut all = vec![s.whole()];
    for at in 0..s.need + 4 {
        all.extend(bytes(s.head[at]).into_iter().map(|b| Altered { head: vec![(at, b)], ..s.whole() }));
    }
    for len in 0..s.need + 300 {
        all.push(Altered { lengths: Lengths { head: len, ..s.whole().lengths }, ..s.whole() });
    }
    for len in 0..40 {
        all.push(Altered { lengths: Lengths { body: len, ..s.whole().lengths }, ..s.whole() });
    }
    for k in 0..6 {
        let mut r = s.record;
        for n in numbers(*r.fields()[k]) {
            let mut record = s.record;
            *record.fields()[k] = n;
            all.push(Altered { record, ..s.whole() });
        }
    }
    // An entry, and its bytes, counted on the other side; sums that are right only where they wrap.
    for d in (0..400).chain([usize::MAX - 255, usize::MAX / 2, 1 << 63]) {
        for sign in [d, d.wrapping_neg()] {
            for count in [0, 1, usize::MAX] {
                let mut record = s.record;
                record.headers = record.headers.wrapping_add(count);
                record.contents = record.contents.wrapping_sub(count);
                record.headerlen = record.headerlen.wrapping_add(sign);
                record.contentlen = record.contentlen.wrapping_sub(sign);
                all.push(Altered { record, ..s.whole() });
            }
        }
    }
    // Two or three at once.
    for _ in 0..6_000 {
        let mut altered = s.whole();
        for _ in 0..2 + random.below(2) {
            let at = if random.once_in(4) { random.below(s.need) } else { 256 + random.below(s.need - 252) };
            let b = bytes(s.head[at]);
            altered.head.push((at, random.pick(&b)));
        }
        if random.once_in(2) {
            let field = random.below(6);
            let n = &mut *altered.record.fields()[field];
            *n = random.pick(&[n.wrapping_add(1), n.wrapping_sub(1)]);
        }
        all.push(altered);
    }
    all
}

/// Every alteration of the header alone.
fn header_altered(s: &Sample, random: &mut Random) -> Vec<Altered> {
    let mut all = vec![s.whole()];
    for at in 0..s.header_need + 4 {
        all.extend(bytes(s.store[at]).into_iter().map(|b| Altered { store: vec![(at, b)], ..s.whole() }));
    }
    for len in 0..s.header_need + 300 {
        all.push(Altered { lengths: Lengths { header: len, ..s.whole().lengths }, ..s.whole() });
    }
    for k in 0..3 {
        let mut r = s.header;
        for n in numbers(*r.fields()[k]) {
            let mut header = s.header;
            *header.fields()[k] = n;
            all.push(Altered { header, ..s.whole() });
        }
    }
    for _ in 0..6_000 {
        let mut altered = s.whole();
        for n in altered.header.fields() {
            *n = random.pick(&[*n, *n, n.wrapping_add(1), n.wrapping_sub(1)]);
        }
        let at = random.below(s.header_need + 1);
        let b = bytes(s.store[at]);
        altered.store.push((at, random.pick(&b)));
        all.push(altered);
    }
    all
}

pub fn part(stores: &mut Stores, part: usize) {
    for calls in samples() {
        let mut random = Random::new(11);
        let s = Sample::build(stores, &calls);
        for altered in message_altered(&s, &mut random).iter().skip(part).step_by(PARTS) {
            s.look_up(stores, altered);
            battery().iter().for_each(|call| s.run(stores, altered, call));
        }
        for altered in header_altered(&s, &mut random).iter().skip(part).step_by(PARTS) {
            s.look_up(stores, altered);
            header_battery().iter().for_each(|call| s.run(stores, altered, call));
        }
        stores.note.clear();
    }
}
