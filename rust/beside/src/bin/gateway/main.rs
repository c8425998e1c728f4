//! The gateway's crate beside the source: lists of calls and texts, both sides through the same lines of code, and its second reading and addresses
//! beside the requests' words. Prints how many answers and how many texts were compared; the first difference ends it with a failure.

mod long;
mod side;

use beside::address::{address_of, Addresses};
use beside::call::Call;
use beside::manner::{Manner, MANNERS};
use beside::names::Kind;
use beside::refusals::{Refusal, ANSWERS};
use beside::written::{written, Texts};
use beside::{damage, grammar, random_calls, refusals, whole};
use common::{grouped, in_parts, Random};
use side::{here, there};
use std::fmt::Debug;
use std::process::exit;

const PARTS: usize = 64;
const LISTS: usize = 200;
const TEXTS: usize = 1_000;
/// Texts with parameters behind the colons.
const BEHIND: usize = 300;
const NAMES: [&str; 8] = ["From", "To", "Subject", "a", "h1", "é", "", "Content-ID"];

#[derive(Default)]
struct Both {
    here: here::Side,
    there: there::Side,
    /// What led to this.
    trace: Vec<String>,
    answers: u64,
    /// How often each answer was given: by the calls and the source's reading, and by the second one.
    refused: [[u64; ANSWERS]; 2],
    texts: Texts,
    addresses: Addresses,
}

impl Both {
    #[cold]
    fn differ(&self, what: &str, here: &dyn Debug, there: &dyn Debug) -> ! {
        let trace = self.trace.join("\n");
        eprintln!("{what} is not as it must be.\n{trace}\nhere: {here:?}\nRust: {there:?}");
        exit(1)
    }

    fn same<T: PartialEq + Debug>(&mut self, what: &str, here: T, there: T) {
        if here != there {
            self.differ(what, &here, &there);
        }
        self.answers += 1;
    }

    fn count(&mut self, manner: Manner, answer: Result<(), Refusal>) {
        self.refused[manner as usize][answer.map_or_else(|e| e.0, |()| 0) as usize] += 1;
    }

    fn answered(&mut self, here: Result<(), cpim::CpimError>, there: Result<(), source::cpim::CpimError>) {
        let here = here.map_err(|e| (e.to_string(), format!("{e:?}"), (e.number(), e.carried())));
        let there = there.map_err(|e| (e.to_string(), format!("{e:?}"), refusals::number(e)));
        self.count(Manner::Source, there.as_ref().map_err(|e| e.2).copied());
        self.same("An answer", here, there);
    }

    /// Everything that can be seen of the message, its text as it must be written, and whether it comes back.
    fn look(&mut self) {
        let (here, mut there) = (self.here.seen(&NAMES), self.there.seen(&NAMES));
        let due = self.there.message.as_ref().map(written);
        if let Some(due) = due.as_ref().filter(|due| due.by_rule) {
            (there.text, there.display) = (due.text.clone(), due.text.clone());
        }
        let text = here.text.clone();
        self.same("What is seen", here, there);
        if let (Some(m), Some(k), Some(due)) = (&self.here.message, &self.there.message, &due) {
            let [whole, second] = MANNERS.map(|manner| whole::comes_back(manner, k, &due.text));
            let read = cpim::parse_cpim(&text).as_ref() == Ok(m);
            let here = (m.comes_back(), m.loss().is_none(), read);
            let here_second = (m.comes_back_rfc(), cpim::parse_cpim_rfc(&text).as_ref() == Ok(m));
            let values = NAMES.map(|name| k.get_header(name));
            let addresses = NAMES.map(|name| m.address(name).map(str::to_string));
            let by_words = values.map(|value| value.and_then(address_of).map(str::to_string));
            values.into_iter().flatten().for_each(|value| self.addresses.count(value.as_bytes()));
            self.texts.compared(due);
            self.texts.read_back(due, whole);
            self.same("What comes back", here, (whole, whole, whole));
            self.same("What comes back by the second reading", here_second, (second, second));
            self.same("An address", addresses, by_words);
        }
    }

    fn call(&mut self, call: &Call) {
        self.trace.push(format!("{call:?}"));
        let (here, there) = (self.here.call(call), self.there.call(call));
        self.answered(here, there);
        self.look();
    }

    /// By the second reading, which the source does not have, and then by its own.
    fn parse(&mut self, text: &str) {
        let shown: String = text.chars().take(3_000).collect();
        self.trace.push(format!("{shown:?} ({} bytes)", text.len()));
        let here = self.here.read(cpim::parse_cpim_rfc(text)).map_err(|e| (e.number(), e.carried()));
        let there = self.there.read(Manner::Rfc.parse(text));
        self.count(Manner::Rfc, there);
        self.same("An answer of the second reading", here, there);
        self.look();
        let (here, there) = (self.here.parse(text), self.there.parse(text));
        self.answered(here, there);
        self.look();
    }

    /// A new list.
    fn begin(&mut self) {
        self.here = here::Side::default();
        self.there = there::Side::default();
        self.trace.clear();
    }
}

fn list(both: &mut Both, random: &mut Random) {
    let kind = Kind { odd: random.pick(&[4, 8, 16]), long: random.once_in(5), ends: random.once_in(2), senders: true };
    both.call(&random_calls::new(random, kind));
    for _ in 0..random.below(40) {
        both.call(&random_calls::any(random, kind, &[]));
    }
}

fn text(both: &mut Both, random: &mut Random, text: fn(&mut Random) -> Vec<u8>) {
    let mut text = text(random);
    if random.once_in(2) {
        damage::damage(random, &mut text);
    }
    both.parse(&String::from_utf8_lossy(&text));
    let kind = Kind { odd: 8, long: false, ends: random.once_in(2), senders: true };
    for _ in 0..random.below(4) {
        both.call(&random_calls::any(random, kind, &[]));
    }
}

fn main() {
    let part = |both: &mut Both, k: usize| {
        if k == 0 {
            return long::texts(both);
        }
        for n in 0..LISTS + TEXTS {
            let mut random = Random::new((k * (LISTS + TEXTS) + n) as u64);
            both.begin();
            if n < LISTS {
                list(both, &mut random);
            } else {
                text(both, &mut random, grammar::text);
            }
        }
        for n in 0..BEHIND {
            both.begin();
            text(both, &mut Random::new((1 << 32) + (k * BEHIND + n) as u64), grammar::text_behind);
        }
    };
    let all = in_parts(PARTS, Both::default, part);
    let answers: u64 = all.iter().map(|b| b.answers).sum();
    let [first, second] =
        MANNERS.map(|m| (0..ANSWERS).map(|k| all.iter().map(|b| b.refused[m as usize][k]).sum()).collect::<Vec<u64>>());
    if [&first[..24], &second[..24], &second[27..]].concat().contains(&0) {
        eprintln!("an answer was never seen: {first:?}, by the second reading: {second:?}");
        exit(1);
    }
    let mut texts = Texts::default();
    all.iter().for_each(|b| texts.add(&b.texts));
    texts.say(100_000);
    let mut addresses = Addresses::default();
    all.iter().for_each(|b| addresses.add(&b.addresses));
    addresses.say(5_000);
    println!("The gateway's crate beside Rust: {} answers, no difference", grouped(answers));
}
