//! What a store holds before a call: other bytes each time, and none of them 0, so that a byte written or zeroed shows.

use beside::store::Store;
use common::Random;

/// How many bytes behind a store are laid too.
const BEHIND: usize = 64;
const TURNS: usize = 251;

pub struct Pattern {
    bytes: Vec<u8>,
    turn: usize,
}

impl Pattern {
    pub fn new(random: &mut Random, most: usize) -> Self {
        Pattern { bytes: (0..most + BEHIND + TURNS).map(|_| random.byte() | 1).collect(), turn: 0 }
    }

    pub fn lay(&mut self, store: &mut Store, len: usize) {
        self.turn = (self.turn + 1) % TURNS;
        store.put(0, &self.bytes[self.turn..][..len + BEHIND]);
    }
}
