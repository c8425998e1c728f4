//! Reading held against what it must answer and leave, and counted.

use crate::expected::Reading;
use crate::pattern::Pattern;
use crate::tally::{Tallies, Tally};
use beside::layout::{layout, record};
use beside::manner::Manner::{self, Rfc, Source};
use beside::store::Store;
use beside::whole::condition;
use beside::written::{written, Written};
use common::Random;
use cpim::raw::{self, Answer, Record};
use source::cpim::CpimMessage;
use std::fmt::Debug;
use std::process::exit;

/// Texts of more bytes than this are lent fewer lengths.
pub const MANY: usize = 1 << 20;

/// How many lengths of one kind are lent.
pub fn few(text: &[u8]) -> usize {
    if text.len() > MANY {
        2
    } else {
        4
    }
}

pub struct Compared {
    pub tallies: Tallies,
    pub head: Store,
    pub body: Store,
    pub out: Store,
    pub pattern: Pattern,
    pub random: Random,
}

/// Bytes as a text, shortened where they are very many.
fn shown(s: &[u8]) -> String {
    match s.get(..20_000) {
        Some(start) => format!("\"{}\"... ({} bytes)", start.escape_ascii(), s.len()),
        None => format!("\"{}\"", s.escape_ascii()),
    }
}

#[cold]
pub fn differ(what: &str, input: &dyn Debug, text: &[u8], here: &dyn Debug, rust: &dyn Debug) -> ! {
    eprintln!("{what} is not as it must be.\ntext: {}\nwith: {input:?}\nhere: {here:?}\nRust: {rust:?}", shown(text));
    exit(1)
}

fn unchanged(lent: &Store, text: &[u8]) {
    if let Some((places, here, there)) = lent.differences(text.len()) {
        differ(&format!("The text or what lies around it, at {places:?},"), &"any stores", text, &here, &there);
    }
}

impl Compared {
    /// With bodies and outputs of up to so many bytes.
    pub fn new(body: usize, out: usize) -> Self {
        let mut random = Random::new(1);
        let most = body.max(out).max(300_000);
        let mut c = Compared {
            tallies: Tallies::default(),
            head: Store::new(260_000),
            body: Store::new(body),
            out: Store::new(out),
            pattern: Pattern::new(&mut random, most),
            random: Random::new(2),
        };
        for store in [&mut c.head, &mut c.body, &mut c.out] {
            store.refill(&mut random);
        }
        c
    }

    pub fn tally(&mut self, manner: Manner) -> &mut Tally {
        &mut self.tallies.by[manner as usize]
    }

    /// All that depends on one text. What comes of `random` is the same for the same text and seed.
    pub fn text(&mut self, text: &[u8], seed: u64) {
        self.random = Random::new(seed);
        let lent = self.lend(text);
        let text = lent.bytes(text.len());
        let source = Reading::of(Source, text);
        let lengths = self.lengths(&source, text.len() > MANY);
        self.readings(text, &source, &lengths);
        let len = source.body.as_ref().map_or(0, Vec::len);
        for buffer in [len, len.saturating_sub(1), len + self.random.below(30), 0].into_iter().take(few(text)) {
            self.read_body(text, &source, buffer);
        }
        self.write_and_read(text, &source, &[Source, Rfc]);

        let rfc = Reading::of(Rfc, text);
        let lengths = if self.alike(text, &source, &rfc) { lengths } else { self.lengths(&rfc, text.len() > MANY) };
        self.readings(text, &rfc, &lengths);
        if rfc.answer != source.answer {
            self.write_and_read(text, &rfc, &[Rfc]);
        }
        unchanged(&lent, text);
    }

    /// Where both readings make the same of every header line, they make the same of the text; whether that is so.
    fn alike(&mut self, text: &[u8], source: &Reading, rfc: &Reading) -> bool {
        let alike = source.lines == rfc.lines;
        if alike && (&source.answer, &source.peaks) != (&rfc.answer, &rfc.peaks) {
            differ("A text whose lines are read alike", &"any stores", text, &rfc.answer, &source.answer);
        }
        self.tallies.alike += u64::from(alike && source.answer.is_ok() && !source.lines.is_empty());
        alike
    }

    /// One reading, in stores of these lengths.
    fn readings(&mut self, text: &[u8], reading: &Reading, lengths: &[(usize, usize)]) {
        for (head, body) in lengths {
            self.read(text, reading, *head, *body);
        }
        self.read_heads(text, reading, lengths);
    }

    /// What was read, written, and its text read again.
    fn write_and_read(&mut self, text: &[u8], reading: &Reading, again: &[Manner]) {
        if let Ok(m) = &reading.answer {
            let due = written(m);
            self.write(text, reading, &due);
            self.again(m, &due, again);
        }
    }

    /// Reads what was written for a message: it gives that message back exactly under the condition of the reading.
    fn again(&mut self, m: &CpimMessage, due: &Written, manners: &[Manner]) {
        let lent = self.lend(due.text.as_bytes());
        let text = lent.bytes(due.text.len());
        for manner in manners {
            let reading = Reading::of(*manner, text);
            let whole = reading.answer.as_ref() == Ok(m);
            if whole != condition(*manner, m) {
                differ("What comes back", manner, text, &reading.answer, m);
            }
            self.tally(*manner).texts.read_back(due, whole);
            let need = reading.peaks.last().copied().unwrap_or(256);
            let body = reading.body.as_ref().map_or(0, Vec::len);
            let lengths = [(need, body), (need - 1, body), (need + self.random.below(9), body + 5)];
            self.readings(text, &reading, &lengths[..few(text).min(3)]);
        }
        unchanged(&lent, text);
    }

    /// A text with watched bytes around it.
    fn lend(&mut self, text: &[u8]) -> Store {
        let mut store = Store::new(text.len());
        store.refill(&mut self.random);
        store.put(0, text);
        store
    }

    /// Stores with room to spare, with exactly what is needed, with less, and next to each limit that is judged.
    fn lengths(&mut self, reading: &Reading, many: bool) -> Vec<(usize, usize)> {
        let random = &mut self.random;
        let body = reading.body.as_ref().map_or(0, Vec::len);
        let Some(need) = reading.peaks.last().copied() else {
            return vec![(256 + random.below(100), body + random.below(20)), (random.below(257), 0)];
        };
        if many {
            return vec![(need, body), (need - 1, body), (need + 9, body.saturating_sub(1))];
        }
        let peak = random.pick(&reading.peaks);
        let mut all = vec![
            (need + random.below(100), body + random.below(20)),
            (need, body),
            (need - 1, body),
            (255, body),
            (random.below(256), random.below(4)),
            (0, 0),
        ];
        if reading.peaks.len() > 1 {
            all.extend([(256, body), (peak, body + 1), (peak - 1, body), (random.below(need), random.below(body + 1))]);
        }
        if body > 0 {
            all.extend([(need, body - 1), (need + 1, 0), (need - 1, body - 1)]);
        }
        all
    }

    pub fn read(&mut self, text: &[u8], reading: &Reading, head: usize, body: usize) -> Record {
        self.pattern.lay(&mut self.head, head);
        self.pattern.lay(&mut self.body, body);
        let expected = reading.with(head, body);
        let got = reading.manner.read(text, self.head.lent(head), self.body.lent(body));
        let want = match expected {
            Ok(m) => {
                let bytes = layout(m);
                self.head.must(&bytes);
                self.head.free(bytes.len(), head);
                self.body.must(m.body());
                Answer { number: 0, carried: 0, record: record(m) }
            }
            Err((number, carried)) => {
                self.head.must_be_zero(head);
                self.body.must_be_zero(body);
                Answer { number, carried, record: Record::default() }
            }
        };
        self.tally(reading.manner).read[want.number as usize] += 1;
        let lengths = (reading.manner, "head store", head, "body store", body);
        if got != want {
            differ("Reading", &lengths, text, &got, &want);
        }
        for (name, store, len) in [("head", &self.head, head), ("body", &self.body, body)] {
            if let Some((places, here, there)) = store.differences(len) {
                differ(&format!("The {name} store at {places:?}"), &lengths, text, &here, &there);
            }
        }
        got.record
    }

    fn read_body(&mut self, text: &[u8], reading: &Reading, buffer: usize) {
        self.pattern.lay(&mut self.body, buffer);
        let got = raw::read_body(text, self.body.lent(buffer));
        let want = match reading.body_with(buffer) {
            Ok(body) => {
                if reading.joined {
                    self.body.must(body);
                }
                Answer { number: 0, carried: 0, record: body.len() }
            }
            Err((number, carried)) => Answer { number, carried, record: 0 },
        };
        self.tally(reading.manner).bodies[want.number as usize] += 1;
        if got != want {
            differ("The body without a store", &buffer, text, &got, &want);
        }
        if let Some((places, here, there)) = self.body.differences(buffer) {
            differ(&format!("The buffer at {places:?}"), &buffer, text, &here, &there);
        }
        for length in [got.record, buffer, buffer + 1, usize::MAX] {
            self.body_part(text, reading, buffer, length);
        }
    }

    /// The second call, with any length.
    fn body_part(&mut self, text: &[u8], reading: &Reading, buffer: usize, length: usize) {
        let lent = self.body.bytes(buffer);
        let got = raw::body_part(text, lent, length);
        let (want, part) = reading.part(text, lent, length);
        if got != want || got.of(text, lent) != part {
            differ("The second call for the body", &(buffer, length), text, &got, &want);
        }
        let kind = if reading.body.is_err() { 2 } else { usize::from(reading.joined) };
        self.tally(reading.manner).parts[kind] += 1;
    }
}
