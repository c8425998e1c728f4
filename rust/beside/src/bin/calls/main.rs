//! Lists of calls on a message and a header in lent stores beside the source. Prints how many calls were accepted and how often
//! each refusal came, how many texts were written, and how much was looked up; the first difference ends it with a failure and the list of calls.

mod damaged;
mod largest;
mod lists;
mod lookups;
mod samples;
mod scripts;
mod stores;

use beside::exports::{all_compared, BY_CALLS, BY_LISTS, BY_LOOKUPS};
use common::{grouped, in_parts, words};
use std::process::exit;
use stores::{Stores, Tally};

const PARTS: usize = 128;
const LISTS: usize = 80;
const SCRIPTS: usize = 40;

fn add(sum: &mut Tally, t: &Tally) {
    sum.answers.iter_mut().zip(t.answers).for_each(|(a, b)| *a += b);
    sum.functions.iter_mut().zip(t.functions).for_each(|(a, b)| *a += b);
    sum.texts.add(&t.texts);
    sum.losses.iter_mut().zip(t.losses).for_each(|(a, b)| *a += b);
    sum.second.iter_mut().zip(t.second).for_each(|(a, b)| *a += b);
    sum.nothing_held += t.nothing_held;
    sum.scripts += t.scripts;
    sum.looked.add(&t.looked);
}

/// A part of these values: every one of up to nine pieces; of up to seven where 0xFF, which is in no character, is a piece too; and of up to five behind
/// as many letters, in quotes or not, as bring them to every place of the blocks of 16 bytes in which signs and quotes are looked for.
fn addresses(stores: &mut Stores, part: usize) {
    let mut look_up = |value: &[u8]| {
        if let Err([what, here, there]) = stores.tally.looked.address(value) {
            eprintln!("{what} differs.\nhere: {here}\nRust: {there}");
            exit(1);
        }
    };
    words(b"a\"\\<>", 9, (part, PARTS + 1), &mut look_up);
    words(b"a\"\\<>\xFF", 7, (part, PARTS + 1), &mut look_up);
    words(b"a\"\\<>", 5, (part, PARTS + 1), |value| {
        for (first, n) in (0..33).flat_map(|n| [(b'a', n), (b'"', n)]) {
            look_up(&[&[first], &[b'a'; 33][..n], value].concat());
        }
    });
}

/// What a thread lends, and what it counted: in lists, and on what was damaged.
struct Worker {
    stores: Stores,
    lists: Tally,
    damaged: Tally,
}

fn part(w: &mut Worker, part: usize) {
    let run = |sum: &mut Tally, stores: &mut Stores, of: &dyn Fn(&mut Stores)| {
        stores.tally = Tally::default();
        of(stores);
        add(sum, &stores.tally);
    };
    run(&mut w.lists, &mut w.stores, &|stores| addresses(stores, part));
    if part == 0 {
        return run(&mut w.lists, &mut Stores::new(10_485_761), &largest::run);
    }
    run(&mut w.lists, &mut w.stores, &|stores| lists::part(stores, part, LISTS));
    run(&mut w.lists, &mut w.stores, &|stores| scripts::part(stores, part, SCRIPTS));
    if part <= damaged::PARTS {
        run(&mut w.damaged, &mut w.stores, &|stores| damaged::part(stores, part - 1));
    }
}

fn print(name: &str, t: &Tally) {
    let refused: u64 = t.answers[1..].iter().sum::<u64>() + t.nothing_held;
    println!("{name}: {} calls, {} accepted", grouped(t.answers[0] + refused), grouped(t.answers[0]));
}

fn main() {
    let make = || Worker { stores: Stores::new(8_192), lists: Tally::default(), damaged: Tally::default() };
    let (mut lists, mut damaged) = (Tally::default(), Tally::default());
    for w in in_parts(PARTS + 1, make, part) {
        add(&mut lists, &w.lists);
        add(&mut damaged, &w.damaged);
    }
    print("Lists of calls", &lists);
    print("Calls on damaged stores and records", &damaged);
    let mut all = lists.clone();
    add(&mut all, &damaged);
    let refusals: Vec<String> = (6..=26).map(|k| format!("{k}: {}", grouped(all.answers[k]))).collect();
    println!("By refusal: {}; 25 carrying 0: {}.", refusals.join(", "), grouped(all.nothing_held));
    if lists.answers[6..].contains(&0) || lists.nothing_held == 0 {
        eprintln!("a refusal was never seen in the lists: {:?}", lists.answers);
        exit(1);
    }
    lists.texts.say(100_000);
    let [whole, lost @ .., free, nothing] = lists.losses;
    println!("Lost first, by clause 1 to 7: {}; nothing held: {}.", lost.map(grouped).join(", "), grouped(nothing));
    let [no, yes] = lists.second.map(grouped);
    println!("By the second reading {yes} messages come back, {no} do not.");
    println!("Scripts: {}.", grouped(lists.scripts));
    for (name, looked) in [("behind calls", &lists.looked), ("on damaged stores and records", &damaged.looked)] {
        println!("Lookups {name}: {}, {} places found.", grouped(looked.all()), grouped(looked.found));
    }
    lists.looked.addresses.say(5_000);
    if lost.contains(&0) || whole == 0 || nothing == 0 || free != 0 || lists.second.contains(&0) {
        eprintln!("a clause never failed first, or 8 was given, or all or none come back: {:?}", lists.losses);
        exit(1);
    }
    all_compared(BY_CALLS, |k| lists.functions[k]);
    let asked = lists.losses.iter().sum();
    all_compared(BY_LISTS, |k| [asked, asked, asked, lists.scripts][k]);
    all_compared(BY_LOOKUPS, |k| lists.looked.answers[k].min(damaged.looked.answers[k]));
    let calls: u64 = all.functions.iter().sum();
    println!("The calls beside Rust: {} calls, {} lookups, no difference", grouped(calls), grouped(all.looked.all()));
}
