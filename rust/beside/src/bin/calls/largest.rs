//! The longest body, the largest message, and one more.

use crate::lists::{step, Room};
use crate::stores::Stores;
use beside::call::{Call, Function::*, Lengths};
use beside::names::Kind;
use beside::random_calls::any;
use common::Random;

/// Bodies at the limit and one past it.
fn bodies(stores: &mut Stores) {
    const MOST: usize = 10_485_760;
    let mut random = Random::new(7);
    let body: Vec<u8> = (0..MOST + 1).map(|_| random.byte()).collect();
    let kind = Kind { odd: 1 << 30, long: false, ends: true, senders: true };
    let enough = Lengths { head: 2_000, body: MOST + 1, header: 200 };
    let new = |n: usize| Call { function: New, first: b"text/plain".to_vec(), second: body[..n].to_vec() };
    let set = |n: usize| Call { function: SetBody, first: body[body.len() - n..].to_vec(), second: Vec::new() };
    for (call, len) in [
        (new(MOST + 1), MOST + 1),
        (set(3), MOST),
        (new(MOST), MOST - 1),
        (new(MOST), MOST),
        (set(MOST), MOST + 1),
        (set(MOST + 1), MOST),
        (set(1), MOST - 1),
        (set(1), MOST),
        (set(MOST), MOST - 1),
        (set(MOST), 1),
        (set(MOST + 1), 1),
        (set(MOST + 1), 0),
        (set(MOST), MOST),
        (set(MOST - 1), MOST),
        (set(0), MOST - 1),
        (set(0), 0),
    ] {
        step(&mut random, stores, &call, Room::Fixed(Lengths { body: len, ..enough }));
        let other = any(&mut random, kind, &[AddHeader]);
        step(&mut random, stores, &other, Room::Fixed(enough));
    }
}

/// The largest message: 50 headers of 10 parameters each and 20 content headers, all of the greatest lengths.
fn largest(stores: &mut Stores) {
    const NEED: usize = 250_016;
    let mut random = Random::new(8);
    let text = |k: usize, len: usize| format!("{k:02}{}", "é".repeat(len / 2 - 1)).into_bytes();
    let all = Lengths { head: NEED, body: 0, header: 4_400 };
    let short = Lengths { head: NEED - 1, ..all };
    let mut run = |function, first, second, lengths| {
        step(&mut random, stores, &Call { function, first, second }, Room::Fixed(lengths));
    };
    run(New, text(0, 256), Vec::new(), all);
    run(HeaderNew, text(0, 1024), Vec::new(), all);
    for k in 0..11 {
        run(WithParam, text(k * 7 % 10, 64), text(k, 256), all);
    }
    for k in 0..51 {
        run(AddObj, text(k * 7 % 50, 128), Vec::new(), all);
    }
    for k in 0..21 {
        run(AddContent, text(k * 7 % 20, 128), text(k, 1024), short);
        run(AddContent, text(k * 7 % 20, 128), text(k, 1024), all);
    }
    for k in [0, 49, 25] {
        run(SetHeader, text(k, 128), text(k, 1024), short);
        run(SetHeader, text(k, 128), text(k, 1024), all);
        run(AddObj, text(k, 128), Vec::new(), all);
    }
    run(From, b"x".to_vec(), Vec::new(), all);
}

/// On a stores with room for the longest body.
pub fn run(stores: &mut Stores) {
    for list in [bodies, largest] {
        stores.refill(1);
        stores.begin();
        list(stores);
        stores.finish();
    }
    assert!(stores.list.iter().any(|(_, _, answer)| *answer == (25, 250_016)), "the largest need was not met");
}
