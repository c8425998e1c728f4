//! Reading that leaves the body in its place, held against the source and against reading with a body store.

use crate::compared::{differ, Compared};
use crate::expected::Reading;
use beside::layout::{layout, record};
use cpim::raw::{HeadAnswer, Record};

impl Compared {
    /// In head stores of the lengths that were lent to reading, once each.
    pub fn read_heads(&mut self, text: &[u8], reading: &Reading, lengths: &[(usize, usize)]) {
        let mut heads: Vec<usize> = lengths.iter().map(|(head, _)| *head).collect();
        heads.sort();
        heads.dedup();
        heads.into_iter().for_each(|head| self.read_head(text, reading, head));
    }

    fn read_head(&mut self, text: &[u8], reading: &Reading, head: usize) {
        self.pattern.lay(&mut self.head, head);
        let before = self.head.bytes(head).to_vec();
        let got = reading.manner.read_head(text, self.head.lent(head));
        let want = match reading.with(head, usize::MAX) {
            Ok(m) => {
                let start = if reading.joined { 0 } else { text.len() - m.body().len() };
                if !reading.joined && text[start..] != *m.body() {
                    differ("The place of the body", &head, text, &start, &m.body().len());
                }
                self.tally(reading.manner).left[usize::from(reading.joined)] += 1;
                let left = self.left_by_reading(text, reading, before);
                self.head.must(&left);
                self.head.must(&layout(m));
                HeadAnswer { number: 0, carried: 0, record: record(m), in_text: !reading.joined, start }
            }
            Err((number, carried)) => {
                self.head.must_be_zero(head);
                HeadAnswer { number, carried, record: Record::default(), in_text: false, start: 0 }
            }
        };
        self.tally(reading.manner).heads[want.number as usize] += 1;
        let with = (reading.manner, head);
        if got != want {
            differ("Reading that leaves the body in its place", &with, text, &got, &want);
        }
        if let Some((places, here, there)) = self.head.differences(head) {
            differ(&format!("Its head store at {places:?}"), &with, text, &here, &there);
        }
    }

    /// What reading with a body store leaves in the same head store, behind the message too.
    fn left_by_reading(&mut self, text: &[u8], reading: &Reading, mut head: Vec<u8>) -> Vec<u8> {
        let body = reading.body.as_ref().map_or(0, Vec::len);
        reading.manner.read(text, &mut head, self.body.lent(body));
        head
    }
}
