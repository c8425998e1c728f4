//! The leaves beside Rust's standard library and the source. Prints how many answers were compared, by group of inputs and by
//! function, and how many header values by whom; the first that differs ends it with a failure and its input.

mod characters;
mod compared;
mod escaping;
mod inputs;
mod long;
mod octets;
mod plain;
mod search;
mod utf8;
mod values;

use common::{exports, grouped, in_parts};
use compared::{Compared, LEAVES};
use std::process::exit;

/// Each group has so many parts. The threads take the first part of each group, then the second of each, and so on.
const PARTS: usize = 256;

type Group = (&'static str, fn(&mut Compared, usize));

const GROUPS: [Group; 26] = [
    ("UTF-8, replacement: every scalar value", utf8::scalars),
    ("UTF-8, replacement: every string of up to 3 bytes", utf8::short),
    ("UTF-8, replacement: strings of 4 bytes", utf8::long_leads),
    ("UTF-8, replacement: texts, whole and damaged", utf8::texts),
    ("white space, control, trim: every scalar value", characters::scalars),
    ("white space, control, trim: every string of up to 3 bytes", characters::short),
    ("trim: ends", characters::ends),
    ("escape, unescape: every scalar value", escaping::scalars),
    ("escape, unescape: every string of up to 3 bytes", escaping::short),
    ("unescape: every code", escaping::codes),
    ("escape, unescape: every byte at every place", escaping::places),
    ("escape, unescape: every text of up to 7 of 7 bytes", escaping::words),
    ("escape, unescape: texts, whole and damaged", escaping::texts),
    ("header values: every one of up to 3 of 79 characters", values::words),
    ("header values: every scalar value at their ends", values::scalars),
    ("header values: every string of up to 3 bytes", values::short),
    ("header values: every text of up to 4 of 26 bytes", values::bytes),
    ("header values: texts, whole and damaged", values::texts),
    ("search, joining: every scalar value", search::scalars),
    ("search, joining: every string of up to 3 bytes", search::short),
    ("search, joining: every text of up to 9 of 3 bytes", search::words),
    ("search, joining: texts and patterns", search::texts),
    ("octets: bytes and words", |c, part| {
        octets::bytes(c, part);
        octets::words(c, part);
        octets::texts(c, part);
    }),
    ("octets: stores", octets::stores),
    ("octets: message/cpim with every scalar value", octets::message_cpim),
    ("all: long texts", long::texts),
];

const SOURCE: &str = include_str!(concat!(env!("CARGO_MANIFEST_DIR"), "/../../crates/leaf_exports/src/lib.rt"));

type Answers = [[u64; LEAVES.len()]; GROUPS.len()];

fn add(sum: &mut [u64; LEAVES.len()], more: &[u64; LEAVES.len()]) {
    sum.iter_mut().zip(more).for_each(|(a, b)| *a += b);
}

fn part((c, answers): &mut (Compared, Answers), k: usize) {
    let group = k % GROUPS.len();
    c.answers.fill(0);
    GROUPS[group].1(c, k / GROUPS.len());
    add(&mut answers[group], &c.answers);
}

fn main() {
    let mut answers: Answers = [[0; LEAVES.len()]; GROUPS.len()];
    let mut values = [0, 0];
    for (c, more) in in_parts(PARTS * GROUPS.len(), || (Compared::new(), answers), part) {
        answers.iter_mut().zip(&more).for_each(|(sum, group)| add(sum, group));
        values.iter_mut().zip(c.values).for_each(|(sum, n)| *sum += n);
    }
    for ((name, _), group) in GROUPS.iter().zip(&answers) {
        println!("{name:<60}{:>15}", grouped(group.iter().sum()));
    }
    let by_leaf: Vec<(String, u64)> = LEAVES
        .iter()
        .map(|leaf| (format!("{leaf:?}"), answers.iter().map(|group| group[*leaf as usize]).sum()))
        .collect();
    let listed: Vec<String> = by_leaf.iter().map(|(name, n)| format!("{name} {}", grouped(*n))).collect();
    println!("By function: {}.", listed.join(", "));
    let [by_source, by_rule] = values.map(grouped);
    println!("Header values compared with the source: {by_source}, with the rule for their ends: {by_rule}.");
    if values.iter().any(|n| *n < 100_000) {
        eprintln!("too few header values: at least 100,000 of each");
        exit(1);
    }
    for name in exports(SOURCE, "leaves_") {
        if !by_leaf.iter().any(|(leaf, n)| leaf == name && *n > 0) {
            eprintln!("leaves_{name} is not compared");
            exit(1);
        }
    }
    let all: u64 = by_leaf.iter().map(|(_, n)| n).sum();
    println!("The leaves beside Rust: {} answers, no difference", grouped(all));
}
