//! Reading and writing texts beside the source, in stores of many lengths, and the second reading beside the request's words. Prints how many answers
//! were compared, by group of texts and by reading, and how often each refusal came; the first difference ends it with a failure and its text.
//! `texts long` takes longer.

mod compared;
mod expected;
mod heads;
mod limits;
mod long;
mod partners;
mod pattern;
mod pieces;
mod tally;
mod writing;

use beside::exports::{all_compared, BY_TEXTS};
use beside::{damage, grammar};
use common::{grouped, in_parts, Random};
use compared::Compared;
use std::process::exit;
use tally::{Tallies, Tally};

/// Each group has so many parts.
const PARTS: usize = 64;

type Group = (&'static str, fn(&mut Compared, usize, bool));

const GROUPS: [Group; 15] = [
    ("bodies and texts at their limits", long::texts),
    ("every limit", limits::texts),
    ("every limit, parameters behind the colon", limits::behind_colons),
    ("separators: every text of a few pieces", pieces::separators),
    ("first sections: every one of a few pieces", pieces::first_sections),
    ("header lines: every one of a few pieces", pieces::header_lines),
    ("behind the colon: every line of a few pieces", pieces::behind_colons),
    ("content lines: every one of a few pieces", pieces::content_lines),
    ("escapes: every value of a few pieces", pieces::escapes),
    ("ends of header values: every value of a few characters", pieces::ends),
    ("texts of partners", partners::texts),
    ("texts from a grammar", |c, part, long| random(c, part, rounds(3_000, long), grammar::text, false)),
    ("texts from a grammar, damaged", |c, part, long| random(c, part, rounds(3_000, long), grammar::text, true)),
    ("the same, parameters behind the colon", |c, part, long| {
        random(c, part, rounds(1_000, long), grammar::text_behind, false)
    }),
    ("the same, damaged", |c, part, long| random(c, part, rounds(1_000, long), grammar::text_behind, true)),
];

fn rounds(usual: usize, long: bool) -> usize {
    if long {
        40_000
    } else {
        usual
    }
}

fn random(c: &mut Compared, part: usize, rounds: usize, text: fn(&mut Random) -> Vec<u8>, damaged: bool) {
    for k in 0..rounds {
        let seed = ((part * rounds + k) * 2 + usize::from(damaged)) as u64;
        let mut random = Random::new(seed);
        let mut text = text(&mut random);
        if damaged {
            damage::damage(&mut random, &mut text);
        }
        c.text(&text, seed);
    }
}

/// How often each refusal was seen.
fn listed(answers: &[u64]) -> String {
    let seen = answers.iter().enumerate().skip(1).filter(|(_, n)| **n > 0);
    seen.map(|(k, n)| format!("{k}: {}", grouped(*n))).collect::<Vec<_>>().join(", ")
}

/// What came of one reading, which has the refusals up to `last`, and at least so many texts of each kind.
fn say(name: &str, t: &Tally, last: usize, least: u64) {
    println!("{name}: {} accepted; by refusal: {}.", grouped(t.read[0]), listed(&t.read));
    let [in_text, joined] = t.left.map(grouped);
    println!(
        "{name}, the body left in its place: {in_text} in the text, {joined} to be joined; by refusal: {}.",
        listed(&t.heads)
    );
    let ([written, nothing, short], [lost, back]) = (t.written.map(grouped), t.back.map(grouped));
    println!("What it read, written: {written}; 25 carrying 0: {nothing}, 26: {short}.");
    println!("Messages that come back by it: {back}, and that do not: {lost}.");
    t.texts.say(least);
    // 26 is no answer of the reading that leaves the body in its place.
    let heads = t.heads[..=last].iter().enumerate().filter(|(k, _)| *k != 26).map(|(_, n)| *n);
    let mut all = heads.chain([&t.read[..=last], &t.left, &t.written, &t.back].concat());
    if all.any(|n| n == 0) || t.read[last + 1..].iter().any(|n| *n > 0) {
        eprintln!(
            "{name}: an answer was never seen, or one that there is not: {:?}, {:?}, {:?}",
            t.read, t.heads, t.back
        );
        exit(1);
    }
}

fn main() {
    let long = match std::env::args().nth(1).as_deref() {
        None => false,
        Some("long") => true,
        Some(other) => panic!("`{other}`: only `long` is known"),
    };
    let part = |(c, tallies): &mut (Compared, [Tallies; GROUPS.len()]), k: usize| {
        let group = k % GROUPS.len();
        c.tallies = Tallies::default();
        GROUPS[group].1(c, k / GROUPS.len(), long);
        tallies[group].add(&c.tallies);
    };
    let make = || (Compared::new(200_000, 800_000), Default::default());
    let mut tallies: [Tallies; GROUPS.len()] = Default::default();
    for (_, more) in in_parts(PARTS * GROUPS.len(), make, part) {
        tallies.iter_mut().zip(&more).for_each(|(sum, t)| sum.add(t));
    }
    let mut all = Tallies::default();
    println!("{:<60}{:>20}{:>20}", "", "source's reading", "second reading");
    for ((name, _), t) in GROUPS.iter().zip(&tallies) {
        let [source, rfc] = t.by.each_ref().map(|t| grouped(t.all()));
        println!("{name:<60}{source:>20}{rfc:>20}");
        all.add(t);
    }
    let [source, rfc] = &all.by;
    say("Read", source, 26, 100_000);
    // Of what was read, only messages that the source does not read so are written again.
    say("Read by the second reading", rfc, 28, 20_000);
    println!("Accepted texts whose headers both readings read alike: {}.", grouped(all.alike));
    println!("Bodies without a store: {} found; by refusal: {}.", grouped(source.bodies[0]), listed(&source.bodies));
    let [in_text, in_buffer, none] = source.parts.map(grouped);
    println!("The second call for the body: {in_text} in the text, {in_buffer} in the buffer, {none} without a body.");
    let bodies = [0, 1, 2, 23, 24, 26].map(|k| source.bodies[k]);
    if bodies.iter().chain(&source.parts).any(|n| *n == 0) || all.alike < 100_000 {
        eprintln!("an answer was never seen, or few texts are read alike: {:?}, {:?}", source.bodies, source.parts);
        exit(1);
    }
    let answers = all.by_function();
    all_compared(BY_TEXTS, |k| answers[k]);
    println!("Texts beside Rust: {} answers, no difference", grouped(answers.iter().sum()));
}
