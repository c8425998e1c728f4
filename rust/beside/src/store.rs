//! A lent store, and what is lent around it to be watched.

use common::Random;

/// How many bytes before and behind a lent store are watched.
const MARGIN: usize = 64;

/// A store as it is and as it must be.
pub struct Store {
    here: Vec<u8>,
    there: Vec<u8>,
}

impl Store {
    pub fn new(len: usize) -> Self {
        let here = vec![0; len + 2 * MARGIN];
        Store { there: here.clone(), here }
    }

    pub fn refill(&mut self, random: &mut Random) {
        self.here.iter_mut().for_each(|b| *b = random.byte());
        self.there.copy_from_slice(&self.here);
    }

    pub fn room(&self) -> usize {
        self.here.len() - 2 * MARGIN
    }

    pub fn lent(&mut self, len: usize) -> &mut [u8] {
        &mut self.here[MARGIN..][..len]
    }

    pub fn bytes(&self, len: usize) -> &[u8] {
        &self.here[MARGIN..][..len]
    }

    /// Writes to both.
    pub fn put(&mut self, at: usize, bytes: &[u8]) {
        self.here[MARGIN + at..][..bytes.len()].copy_from_slice(bytes);
        self.there[MARGIN + at..][..bytes.len()].copy_from_slice(bytes);
    }

    /// What the start must be.
    pub fn must(&mut self, bytes: &[u8]) {
        self.there[MARGIN..][..bytes.len()].copy_from_slice(bytes);
    }

    pub fn must_be_zero(&mut self, len: usize) {
        self.there[MARGIN..][..len].fill(0);
    }

    /// What stands from one place to another is not fixed.
    pub fn free(&mut self, from: usize, to: usize) {
        self.there[MARGIN + from..MARGIN + to].copy_from_slice(&self.here[MARGIN + from..MARGIN + to]);
    }

    pub fn is_as_it_must(&self) -> bool {
        self.here == self.there
    }

    /// The first places that differ, in what was lent and around it, and the bytes there: as they are, and as they must be.
    pub fn differences(&self, len: usize) -> Option<(Vec<isize>, Vec<u8>, Vec<u8>)> {
        let end = len + 2 * MARGIN;
        if self.here[..end] == self.there[..end] {
            return None;
        }
        let places = || (0..end).filter(|k| self.here[*k] != self.there[*k]).take(20);
        Some((
            places().map(|k| k as isize - MARGIN as isize).collect(),
            places().map(|k| self.here[k]).collect(),
            places().map(|k| self.there[k]).collect(),
        ))
    }
}
