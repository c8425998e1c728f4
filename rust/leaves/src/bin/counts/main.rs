//! How many strings of ASCII bytes the source's unescaping accepts, and how many it refuses: document 02, T-13. Every string of up to four bytes, and
//! every four behind `\u`, is put to the source, the leaf and an automaton; the automaton then counts those of up to nine, which makes the lines that
//! crates/countcpim prints. The first difference ends it with a failure.

mod automaton;
mod strings;

use automaton::{sum, Ends};
use common::grouped;
use std::fmt::Debug;
use std::process::exit;
use strings::Counted;

const LONGEST: usize = 9;
/// What the request says is accepted: of strings of 0, 1 and 2 bytes, and of four characters behind `\u`.
const SHORT: [u64; 3] = [1, 127, 16_135];
const CODES: u64 = 231_352;

const LINES: &str = include_str!(concat!(env!("CARGO_MANIFEST_DIR"), "/../../crates/countcpim/stdout"));

#[cold]
fn fail(what: &str) -> ! {
    eprintln!("{what}");
    exit(1)
}

fn same<T: PartialEq + Debug>(what: &str, (one, here): (&str, T), (other, there): (&str, T)) {
    if here != there {
        fail(&format!("{what} differs.\n{one}: {here:?}\n{other}: {there:?}"));
    }
}

/// 128 to the n.
fn all(n: usize) -> u64 {
    128u64.checked_pow(n as u32).expect("a number of strings below 2 to the 64")
}

/// The automaton, what was counted string by string, and the request.
fn agree(ends: &[Ends], short: &[Counted], codes: &Counted) {
    for (n, end) in ends.iter().enumerate() {
        let what = format!("The number of strings of length {n}");
        same(&what, ("128 to the n", all(n)), ("automaton", sum([end.outside, end.inside, end.dead])));
    }
    for (n, (end, counted)) in ends.iter().zip(short).enumerate() {
        let what = format!("What is accepted and refused of the strings of length {n}");
        same(&what, ("automaton", [end.outside, end.refused()]), ("source", [counted.accepted, counted.refused]));
    }
    for (n, (said, counted)) in SHORT.iter().zip(short).enumerate() {
        let what = format!("What is accepted of the strings of length {n}");
        same(&what, ("request", *said), ("source", counted.accepted));
    }
    let counted = [codes.accepted, codes.refused];
    same("What is accepted and refused behind \\u", ("request", [CODES, all(4) - CODES]), ("source", counted));
}

fn same_lines(lines: &str) {
    let [lines, said] = [lines, LINES].map(|text| text.split_inclusive('\n').collect::<Vec<_>>());
    for k in 0..lines.len().max(said.len()) {
        let what = format!("Line {} of crates/countcpim/stdout", k + 1);
        same(&what, ("automaton", lines.get(k)), ("file", said.get(k)));
    }
}

fn main() {
    let counted = strings::counted();
    let [short @ .., codes] = &counted;
    let ends = automaton::ends(LONGEST);
    agree(&ends, short, codes);
    let lines = ends.iter().enumerate();
    let lines = lines.map(|(n, end)| format!("n={n} accepted={} refused={}\n", end.outside, end.refused()));
    same_lines(&lines.collect::<String>());

    let names = (0..short.len()).map(|n| format!("every string of length {n}"));
    for (name, c) in names.chain(["every 4 bytes behind \\u".to_string()]).zip(&counted) {
        println!("{name:<30}{:>15} accepted{:>15} refused", grouped(c.accepted), grouped(c.refused));
    }
    let Ends { outside, inside, dead } = ends[LONGEST];
    let [outside, inside, dead] = [outside, inside, dead].map(grouped);
    println!("Of length {LONGEST}: {outside} strings end outside of an escape, {inside} inside of one, {dead} behind a bad one.");
    // Of each string the leaf's answer and the automaton's are held against the source's.
    let answers: u64 = counted.iter().map(|c| 2 * (c.accepted + c.refused)).sum();
    println!("The counts beside Rust: {} answers, no difference", grouped(answers));
}
