//! How often each answer was seen.

use beside::exports::BY_TEXTS;
use beside::manner::Manner::{Rfc, Source};
use beside::refusals::ANSWERS;
use beside::written::Texts;

/// What came of one reading. How often each answer was given by it, by the same that leaves the body in its place and by the body without a store:
/// accepted (0) and each number; by writing what it read: accepted, 25 carrying 0, 26; by the second call for the body: in the text, in the buffer, of
/// a text without a body. How often a body was left in the text, or to be joined; which texts were written. Of how many messages it was asked whether
/// they come back: no and yes.
#[derive(Clone, Default)]
pub struct Tally {
    pub read: [u64; ANSWERS],
    pub heads: [u64; ANSWERS],
    pub left: [u64; 2],
    pub bodies: [u64; ANSWERS],
    pub written: [u64; 3],
    pub parts: [u64; 3],
    pub texts: Texts,
    pub back: [u64; 2],
}

fn add<const N: usize>(sum: &mut [u64; N], more: &[u64; N]) {
    sum.iter_mut().zip(more).for_each(|(a, b)| *a += b);
}

impl Tally {
    fn add(&mut self, t: &Tally) {
        add(&mut self.read, &t.read);
        add(&mut self.heads, &t.heads);
        add(&mut self.left, &t.left);
        add(&mut self.bodies, &t.bodies);
        add(&mut self.written, &t.written);
        add(&mut self.parts, &t.parts);
        add(&mut self.back, &t.back);
        self.texts.add(&t.texts);
    }

    /// How many answers there were, but for what comes back.
    pub fn all(&self) -> u64 {
        [&self.read[..], &self.heads, &self.bodies, &self.parts, &self.written].iter().flat_map(|a| a.iter()).sum()
    }
}

/// Both readings, and how many accepted texts with a header they read alike.
#[derive(Clone, Default)]
pub struct Tallies {
    pub by: [Tally; 2],
    pub alike: u64,
}

impl Tallies {
    pub fn add(&mut self, t: &Tallies) {
        self.by.iter_mut().zip(&t.by).for_each(|(a, b)| a.add(b));
        self.alike += t.alike;
    }

    /// How many answers each function of `BY_TEXTS` gave.
    pub fn by_function(&self) -> [u64; BY_TEXTS.len()] {
        let sum = |answers: &[u64]| answers.iter().sum();
        let [source, rfc] = [Source, Rfc].map(|manner| &self.by[manner as usize]);
        let written = sum(&source.written) + sum(&rfc.written);
        [
            sum(&source.read),
            sum(&source.heads),
            sum(&source.bodies),
            sum(&source.parts),
            written,
            sum(&source.back),
            sum(&rfc.read),
            sum(&rfc.heads),
            sum(&rfc.back),
        ]
    }
}
