//! Unescaping as an automaton, written down from the rules of the source's `unescape_header_value`, and how many strings of each length lead to each
//! of its states. It knows neither the numbers that are asked for nor a law for them.

use std::collections::BTreeMap;

/// What has been read of a string.
#[derive(Clone, Copy, PartialEq, Eq, PartialOrd, Ord)]
enum State {
    /// Whole: every escape is closed.
    Outside,
    /// A backslash is the last byte.
    Backslash,
    /// `\u` and this many of its four characters, which make this number.
    Code { read: u32, number: u32 },
    /// No end makes it good. The source takes all four characters before it looks at one, and refuses them all the same.
    Dead,
}

fn digit(byte: u8) -> Option<u32> {
    let value = match byte {
        b'0'..=b'9' => byte - b'0',
        b'a'..=b'f' => byte - b'a' + 10,
        b'A'..=b'F' => byte - b'A' + 10,
        _ => return None,
    };
    Some(u32::from(value))
}

/// Behind the fourth character: a surrogate is no character.
fn closed(number: u32) -> State {
    match number {
        0xD800..=0xDFFF => State::Dead,
        _ => State::Outside,
    }
}

impl State {
    fn step(self, byte: u8) -> State {
        match (self, byte) {
            (State::Outside, b'\\') => State::Backslash,
            (State::Outside, _) => State::Outside,
            (State::Backslash, b'\\' | b'"' | b'b' | b't' | b'n' | b'r') => State::Outside,
            (State::Backslash, b'u') => State::Code { read: 0, number: 0 },
            (State::Backslash, _) => State::Dead,
            // `from_str_radix` takes a plus before the digits.
            (State::Code { read: 0, .. }, b'+') => State::Code { read: 1, number: 0 },
            (State::Code { read, number }, _) => match (read, digit(byte)) {
                (_, None) => State::Dead,
                (3, Some(last)) => closed(16 * number + last),
                (_, Some(next)) => State::Code { read: read + 1, number: 16 * number + next },
            },
            (State::Dead, _) => State::Dead,
        }
    }
}

pub fn accepts(s: &[u8]) -> bool {
    s.iter().fold(State::Outside, |state, byte| state.step(*byte)) == State::Outside
}

/// Where the strings of one length end.
#[derive(Default)]
pub struct Ends {
    pub outside: u64,
    /// In an escape that is not closed.
    pub inside: u64,
    pub dead: u64,
}

/// The checked sum: 2 to the 63 is the greatest number here.
pub fn sum(numbers: impl IntoIterator<Item = u64>) -> u64 {
    numbers.into_iter().try_fold(0, u64::checked_add).expect("a number of strings below 2 to the 64")
}

impl Ends {
    fn of(strings: &BTreeMap<State, u64>) -> Ends {
        let mut ends = Ends::default();
        for (state, many) in strings {
            let end = match state {
                State::Outside => &mut ends.outside,
                State::Backslash | State::Code { .. } => &mut ends.inside,
                State::Dead => &mut ends.dead,
            };
            *end = sum([*end, *many]);
        }
        ends
    }

    pub fn refused(&self) -> u64 {
        sum([self.inside, self.dead])
    }
}

/// Where the strings of 0 bytes end, those of 1, and so on up to `longest`.
pub fn ends(longest: usize) -> Vec<Ends> {
    let mut strings = BTreeMap::from([(State::Outside, 1)]);
    let mut all = vec![Ends::of(&strings)];
    for _ in 0..longest {
        let mut longer = BTreeMap::new();
        for (state, many) in &strings {
            for byte in 0..128 {
                let reached = longer.entry(state.step(byte)).or_default();
                *reached = sum([*reached, *many]);
            }
        }
        strings = longer;
        all.push(Ends::of(&strings));
    }
    all
}
