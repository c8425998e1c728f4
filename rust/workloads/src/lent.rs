//! Texts read and written in lent stores.

use cpim::raw::{self, Answer, Record};
use cpim::{CpimError, CpimMessage};

/// The head store's bytes that are lent at most: as many as any message needs.
const HEAD: usize = 250_016;

/// Reads a text into a head store and a body store.
type Parse = fn(&[u8], &mut [u8], &mut [u8]) -> Answer<Record>;

/// A reading by the lent stores and by the gateway's crate.
pub struct Reading {
    pub lent: Parse,
    pub crated: fn(&str) -> Result<CpimMessage, CpimError>,
}

/// The source's, and the second one.
pub const FIRST: Reading = Reading { lent: raw::parse, crated: cpim::parse_cpim };
pub const SECOND: Reading = Reading { lent: raw::parse_rfc, crated: cpim::parse_cpim_rfc };

/// Lent stores, and what they hold.
pub struct Lent {
    pub head: Vec<u8>,
    pub body: Vec<u8>,
    pub out: Vec<u8>,
    pub record: Record,
}

impl Lent {
    pub fn new(head: usize, body: usize, out: usize) -> Self {
        Lent { head: vec![1; head], body: vec![1; body], out: vec![1; out], record: Record::default() }
    }

    /// Stores for a text with a body of so many bytes: as much head store as a short text asks for, so that clearing it does not drive the rest
    /// from the caches.
    pub fn for_text(text: &str, body: usize) -> Self {
        Lent::new(HEAD.min(256 + 6 * text.len()), body, 0)
    }

    /// Stores that hold what a text has, with room for its text.
    pub fn holding(text: &str) -> Self {
        let mut lent = Lent::new(HEAD, text.len(), text.len() + 4_096);
        lent.read(&FIRST, text);
        lent
    }

    pub fn clear(&mut self) {
        self.head.fill(0);
        self.body.fill(0);
        self.out.fill(0);
    }

    pub fn read(&mut self, reading: &Reading, text: &str) -> u64 {
        let answer = (reading.lent)(text.as_bytes(), &mut self.head, &mut self.body);
        assert_eq!((answer.number, answer.carried), (0, 0));
        self.record = answer.record;
        answer.number
    }

    pub fn write(&mut self) -> u64 {
        let answer = raw::to_string(self.record, &self.head, &self.body, &mut self.out);
        assert_eq!(answer.number, 0);
        answer.number
    }
}
