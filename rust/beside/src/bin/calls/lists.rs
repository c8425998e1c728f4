//! Random lists of calls on stores of lengths around what is needed.

use crate::stores::Stores;
use beside::call::{Call, Function, Function::*, Lengths};
use beside::layout::{need, need_alone};
use beside::names::Kind;
use beside::random_calls::{any, new, of};
use common::Random;

/// How long the stores lent to a list are.
#[derive(Clone, Copy)]
pub enum Room {
    All,
    Fixed(Lengths),
    Around,
}

/// Around what is needed before (`old`) and after (`new`), mostly enough for both; at most `all`.
fn around(random: &mut Random, old: usize, new: usize, all: usize) -> usize {
    let enough = old.max(new);
    let len = match random.below(16) {
        0..=6 => enough,
        7 => enough + 1,
        8 => enough + random.below(100),
        9 => new,
        10 => new.saturating_sub(1),
        11 => old,
        12 => old.saturating_sub(1),
        13 => random.pick(&[0, 15, 16, 255, 256]),
        14 => random.below(enough + 1),
        _ => all,
    };
    len.min(all)
}

fn lengths(random: &mut Random, room: Room, stores: &Stores, new: Lengths) -> Lengths {
    let all = stores.room();
    match room {
        Room::All => all,
        Room::Fixed(lengths) => lengths,
        Room::Around => {
            let old = stores.message.as_ref().map_or((256, 0), |m| (need(m), m.body().len()));
            Lengths {
                head: around(random, old.0, new.head, all.head),
                body: around(random, old.1, new.body, all.body),
                header: around(random, stores.header.as_ref().map_or(16, need_alone), new.header, all.header),
            }
        }
    }
}

pub fn step(random: &mut Random, stores: &mut Stores, call: &Call, room: Room) {
    if call.on_header() {
        let after = stores.header_after(call);
        let needed = Lengths { header: after.as_ref().map_or(16, need_alone), ..Lengths::default() };
        let lengths = lengths(random, room, stores, needed);
        stores.run_header(call, after, lengths);
    } else {
        let after = stores.after(call);
        let (head, body) = after.as_ref().map_or((256, 0), |m| (need(m), m.body().len()));
        let header = stores.header.as_ref().map_or(16, need_alone);
        let lengths = lengths(random, room, stores, Lengths { head, body, header });
        stores.run(call, after, lengths);
    }
    stores.check_held();
    if !call.on_header() {
        stores.check_whole();
    }
    look_up(stores, &call.first);
}

/// In turn: the name that was called with; one of those that are held, another each time, and the same without its first byte; all else.
fn look_up(stores: &mut Stores, called: &[u8]) {
    let held = stores.message.clone();
    let names: Vec<&[u8]> = held.iter().flat_map(|m| m.headers().keys()).map(|name| name.as_bytes()).collect();
    let turn = stores.list.len();
    let asked: &[&[u8]] = match (turn % 3, names.get(turn / 3 % names.len().max(1))) {
        (0, _) => &[called],
        (1, Some(name)) => &[name, &name[1..]],
        _ => &[],
    };
    stores.look_up(asked, stores.room(), held.as_ref());
}

/// Every name that is held, some that never are, and all else.
fn look_up_all(stores: &mut Stores) {
    let held = stores.message.clone();
    let names = held.iter().flat_map(|m| m.headers().keys()).map(|name| name.as_bytes());
    let absent: [&[u8]; 5] = [b"", b"nobody", b"From:", b"\xFF", &[b'n'; 129]];
    let names: Vec<&[u8]> = names.chain(absent).collect();
    stores.look_up(&names, stores.room(), held.as_ref());
    stores.look_up(&[], stores.room(), held.as_ref());
}

/// Calls of one function with names of their own, until so many stand there.
fn fill(random: &mut Random, stores: &mut Stores, kind: Kind, function: Function, count: usize) {
    let plain = Kind { odd: 1 << 30, ..kind };
    for k in 0..count {
        let mut call = of(random, plain, function);
        if function != AddHeader || random.once_in(2) {
            call.first = format!("{}{k}", random.pick(&["f", "F", "é"])).into_bytes();
        }
        step(random, stores, &call, Room::All);
    }
}

const HEADERS: [Function; 9] = [SetHeader, SetHeader, AddHeader, AddObj, From, To, SubjectLang, Ns, Cc];

fn list(random: &mut Random, stores: &mut Stores) {
    stores.begin();
    let shape = random.below(10);
    let kind =
        Kind { odd: random.pick(&[4, 8, 16]), long: matches!(shape, 3 | 7), ends: random.once_in(2), senders: true };
    let room = match random.below(4) {
        0 => Room::All,
        1 => Room::Fixed(Lengths {
            head: 256 + random.below(if kind.long { 20_000 } else { 1_500 }),
            body: random.pick(&[0, 30, 255, 256, 600, 1_000]),
            header: 16 + random.below(if kind.long { 4_500 } else { 150 }),
        }),
        _ => Room::Around,
    };
    for _ in 0..4 {
        let call = new(random, kind);
        step(random, stores, &call, room);
        if stores.message.is_some() {
            break;
        }
        // On the empty record.
        for _ in 0..random.below(3) {
            let call = any(random, kind, &[]);
            step(random, stores, &call, room);
        }
    }
    let mut most: &[Function] = &[];
    match shape {
        4 | 7 if stores.message.is_some() => {
            let count = 47 + random.below(4);
            fill(random, stores, kind, AddHeader, count);
            most = &HEADERS;
        }
        5 if stores.message.is_some() => {
            let count = 18 + random.below(3);
            fill(random, stores, kind, AddContent, count);
            most = &[AddContent, WithContent];
        }
        6 | 8 => {
            let call = of(random, Kind { odd: 1 << 30, ..kind }, HeaderNew);
            step(random, stores, &call, Room::All);
            let count = 8 + random.below(3);
            fill(random, stores, kind, WithParam, count);
            most = &[WithParam, WithParam, AddObj];
        }
        _ => {}
    }
    for _ in 0..5 + random.below(50) {
        let call = if random.once_in(150) { new(random, kind) } else { any(random, kind, most) };
        step(random, stores, &call, room);
    }
}

pub fn part(stores: &mut Stores, part: usize, lists: usize) {
    stores.refill(part);
    for k in 0..lists {
        let mut random = Random::new((part * lists + k) as u64);
        list(&mut random, stores);
        look_up_all(stores);
        stores.finish();
    }
}
