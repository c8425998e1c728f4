//! Strings of ASCII bytes one by one, each by the source, the leaf and the automaton.

use crate::{automaton, fail};
use common::in_parts;
use source::cpim::open_unescape_header_value;
use std::str::from_utf8;

/// Each group of strings has so many parts.
const PARTS: usize = 256;

/// `\u` and four bytes.
const CODE: usize = 6;
/// The lengths of the strings, a group each. In codes the four bytes behind `\u` are any, in the others all bytes.
const LENGTHS: [usize; 6] = [0, 1, 2, 3, 4, CODE];

/// How many strings are accepted, and how many refused.
#[derive(Clone, Copy, Default)]
pub struct Counted {
    pub accepted: u64,
    pub refused: u64,
}

/// The four bytes are the number's digits to the base of 128, so that the numbers below 128 to the n have every string of n at their end.
fn code(number: u64) -> [u8; CODE] {
    let [a, b, c, d] = [21, 14, 7, 0].map(|shift| (number >> shift) as u8 & 127);
    [b'\\', b'u', a, b, c, d]
}

fn accepted(s: &[u8]) -> bool {
    let text = from_utf8(s).expect("ASCII");
    let source = open_unescape_header_value(text).is_some();
    let (leaf, automaton) = (leaves::reads(s), automaton::accepts(s));
    if (leaf, automaton) != (source, source) {
        fail(&format!(
            "{text:?} differs.\naccepted by the source: {source}, the leaf: {leaf}, the automaton: {automaton}"
        ));
    }
    source
}

fn part(counted: &mut [Counted; LENGTHS.len()], k: usize) {
    let (group, part) = (k % LENGTHS.len(), k / LENGTHS.len());
    let length = LENGTHS[group];
    let all = 1 << (7 * length.min(4));
    for number in (part as u64..all).step_by(PARTS) {
        if accepted(&code(number)[CODE - length..]) {
            counted[group].accepted += 1;
        } else {
            counted[group].refused += 1;
        }
    }
}

/// Of every string of 0, 1, 2, 3 and 4 bytes, and of every code.
pub fn counted() -> [Counted; LENGTHS.len()] {
    let mut all = [Counted::default(); LENGTHS.len()];
    for more in in_parts(PARTS * LENGTHS.len(), Default::default, part) {
        for (sum, one) in all.iter_mut().zip(more) {
            sum.accepted += one.accepted;
            sum.refused += one.refused;
        }
    }
    all
}
