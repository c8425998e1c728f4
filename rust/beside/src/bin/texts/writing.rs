//! What was read, written, and the same with something altered.

use crate::compared::{differ, few, Compared, MANY};
use crate::expected::Reading;
use beside::layout::held;
use beside::manner::{Manner, MANNERS};
use beside::refusals::{Refusal, NOTHING_HELD};
use beside::whole::{comes_back, condition};
use beside::written::{written, Written};
use cpim::raw::{self, Answer, Record};
use source::cpim::CpimMessage;

/// What was lent: the record, and the lengths of the stores.
#[derive(Clone, Copy, Debug)]
struct Lent {
    record: Record,
    head: usize,
    body: usize,
}

impl Compared {
    /// The text of what was read, whole, and with the record, a byte or a store's length altered; and whether what is held comes back.
    pub fn write(&mut self, text: &[u8], reading: &Reading, due: &Written) {
        let m = reading.answer.as_ref().expect("a message");
        let need = *reading.peaks.last().unwrap();
        let (head, body) = (need + self.random.below(3), m.body().len() + self.random.below(3));
        let record = self.read(text, reading, head, body);
        let whole = Lent { record, head, body };
        let (len, spare) = (due.text.len(), self.random.below(40));
        for out in [len, len - 1, len + spare, 0].into_iter().take(few(text)) {
            self.written(text, reading.manner, whole, out, Ok(due));
        }
        self.come_back(text, whole, Some((m, due)));
        if len > MANY {
            return;
        }
        for kind in 0..4 {
            let mut lent = whole;
            let at = self.random.below(need);
            let b = self.random.byte();
            match kind {
                // The bytes of a body are free: an ill-formed one is written with U+FFFD.
                0 if !m.body().is_empty() => {
                    let at = self.random.below(m.body().len());
                    self.body.put(at, &[b | 0x80]);
                }
                0 => {}
                1 => {
                    let more = self.random.pick(&[1, usize::MAX, 16, 1 << 63]);
                    let n = &mut *lent.record.fields()[self.random.below(6)];
                    *n = n.wrapping_add(more);
                }
                2 => (lent.head, lent.body) = (self.random.below(head + 1), self.random.below(body + 1)),
                _ => self.head.put(at, &[b]),
            }
            let held = held(lent.record, self.head.bytes(lent.head), Some(self.body.bytes(lent.body)));
            let due = held.as_ref().map(written).ok_or(NOTHING_HELD);
            let len = due.as_ref().map_or(len, |due| due.text.len());
            for out in [len + 3, len.saturating_sub(1)] {
                self.written(text, reading.manner, lent, out, due.as_ref().map_err(|e| *e));
            }
            self.come_back(text, lent, held.as_ref().zip(due.as_ref().ok()));
        }
    }

    /// One output, held against the text or the refusal that is due.
    fn written(&mut self, text: &[u8], manner: Manner, lent: Lent, out: usize, due: Result<&Written, Refusal>) {
        self.pattern.lay(&mut self.out, out);
        let Lent { record, head, body } = lent;
        let got = raw::to_string(record, self.head.bytes(head), self.body.bytes(body), self.out.lent(out));
        let want = match due {
            Ok(due) if due.text.len() <= out => {
                self.out.must(due.text.as_bytes());
                self.tally(manner).texts.compared(due);
                Answer { number: 0, carried: 0, record: due.text.len() }
            }
            Ok(due) => Answer { number: 26, carried: due.text.len() as u64, record: 0 },
            Err((number, carried)) => Answer { number, carried, record: 0 },
        };
        self.tally(manner).written[[0, 25, 26].iter().position(|n| *n == want.number).unwrap()] += 1;
        let input = (lent, out);
        if got != want {
            differ("Writing", &input, text, &got, &want);
        }
        for (name, store, len) in
            [("output", &self.out, out), ("head store", &self.head, head), ("body store", &self.body, body)]
        {
            if let Some((places, here, there)) = store.differences(len) {
                differ(&format!("Writing, the {name} at {places:?}"), &input, text, &here, &there);
            }
        }
    }

    /// Whether what is held comes back by each reading: exactly where its text is read back so, and exactly under the condition.
    fn come_back(&mut self, text: &[u8], lent: Lent, held: Option<(&CpimMessage, &Written)>) {
        for manner in MANNERS {
            let got = manner.says_back(lent.record, self.head.bytes(lent.head), self.body.bytes(lent.body));
            let want = held.is_some_and(|(m, due)| comes_back(manner, m, &due.text));
            let condition = held.is_some_and(|(m, _)| condition(manner, m));
            self.tally(manner).back[usize::from(want)] += 1;
            if (got, condition) != (want, want) {
                differ("What comes back, or the condition,", &(manner, lent), text, &(got, condition), &want);
            }
        }
    }
}
