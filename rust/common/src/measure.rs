//! Sides measured in turn.

use crate::clock::{median, Start, Time};
use std::hint::black_box;

const MEASUREMENTS: usize = 21;
/// How long a measurement takes at least, in nanoseconds, so that the reading of the clocks does not count.
const LONG: f64 = 300_000.0;

/// What makes one measurement of so many calls, and gives what one of them took.
pub type Side<'a> = Box<dyn FnMut(usize) -> Time + 'a>;

/// Calls after `ready`, which is not measured. What they give is kept until the clocks were read, so that freeing it is not measured either.
pub fn side<'a, S: 'a, T>(mut state: S, ready: impl Fn(&mut S) + 'a, call: impl Fn(&mut S) -> T + 'a) -> Side<'a> {
    Box::new(move |times| {
        ready(&mut state);
        let mut kept = Vec::with_capacity(times);
        let start = Start::now();
        for _ in 0..times {
            kept.push(black_box(call(black_box(&mut state))));
        }
        start.each(times)
    })
}

/// Calls of which each drops what it gives before the next, so that freeing is measured too. The first one is not measured: it leaves the
/// allocator as this side does, and not as the other one.
pub fn dropping<'a, T>(call: impl Fn() -> T + 'a) -> Side<'a> {
    Box::new(move |times| {
        drop(black_box(call()));
        let start = Start::now();
        for _ in 0..times {
            drop(black_box(call()));
        }
        start.each(times)
    })
}

/// Calls on inputs, with room to write to: what is measured is one round, a call on each of them.
pub fn rounds<'a, T>(inputs: &'a [T], room: &'a mut [u8], call: impl Fn(&T, &mut [u8]) -> usize + 'a) -> Side<'a> {
    Box::new(move |times| {
        let start = Start::now();
        for _ in 0..times {
            for input in inputs {
                black_box(call(black_box(input), black_box(&mut *room)));
            }
        }
        start.each(times)
    })
}

/// What one call of a side takes: the medians of its measurements, each of so many calls.
pub struct Measured {
    pub calls: usize,
    pub time: Time,
}

/// 21 measurements of each side, in turn. Three before them are to warm up, and to learn how many calls a measurement needs.
pub fn in_turn<const N: usize>(mut sides: [Side<'_>; N]) -> [Measured; N] {
    let calls: Vec<usize> = sides
        .iter_mut()
        .map(|side| (0..3).fold(1, |calls, _| (LONG / side(calls).thread).ceil().clamp(1.0, 100_000.0) as usize))
        .collect();
    let mut measured = vec![Vec::new(); N];
    for _ in 0..MEASUREMENTS {
        for ((side, calls), all) in sides.iter_mut().zip(&calls).zip(&mut measured) {
            all.push(side(*calls));
        }
    }
    let middle = |all: &[Time], of: fn(&Time) -> f64| median(&mut all.iter().map(of).collect::<Vec<f64>>());
    std::array::from_fn(|k| {
        let all = &measured[k];
        Measured { calls: calls[k], time: Time { thread: middle(all, |t| t.thread), wall: middle(all, |t| t.wall) } }
    })
}
