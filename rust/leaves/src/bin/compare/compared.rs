//! Answers held against Rust's and counted, and lent room in which every byte that changes is seen.

use leaves::Random;
use std::fmt::Debug;
use std::process::exit;

macro_rules! leaves {
    ($($name:ident)*) => {
        /// The functions of crates/leaf_exports/src/lib.rt, by their names there behind `leaves_`.
        #[allow(non_camel_case_types)]
        #[derive(Clone, Copy, Debug)]
        pub enum Leaf {
            $($name),*
        }

        pub const LEAVES: &[Leaf] = &[$(Leaf::$name),*];
    };
}

leaves! {
    is_utf8 is_white is_control trim replaced_len put_replaced escaped_len escape value_text_len put_value_text reads unescaped_len unescape
    find find_plain joined_len join_body copy_at shift zero_fill before same same_letters says find_byte
}

/// How many bytes before and behind lent room are watched, and how much room is lent at most.
const MARGIN: usize = 64;
const ROOM: usize = 1 << 21;
/// The pattern that lent room holds begins at another place each time.
const TURNS: usize = 251;
/// How much more room is lent than is needed, in turn.
const SPARE: [usize; 8] = [0, 1, 0, 3, 16, 0, 31, 64];

pub struct Compared {
    pub answers: [u64; LEAVES.len()],
    /// How many header values were written as the source escapes them, and how many by the rule for their ends.
    pub values: [u64; 2],
    pattern: Vec<u8>,
    here: Vec<u8>,
    there: Vec<u8>,
    turn: usize,
}

/// Bytes in hexadecimal, shortened where they are very many.
fn shown(value: &dyn Debug) -> String {
    let all = format!("{value:02x?}");
    if all.len() < 20_000 || !all.is_ascii() {
        return all;
    }
    format!("{} .. ({} characters left out) .. {}", &all[..9_000], all.len() - 18_000, &all[all.len() - 9_000..])
}

#[cold]
fn differ(leaf: Leaf, input: &dyn Debug, got: &dyn Debug, want: &dyn Debug) -> ! {
    eprintln!(
        "{leaf:?} differs from Rust (numbers in hexadecimal).\ninput: {}\nhere:  {}\nRust:  {}",
        shown(input),
        shown(got),
        shown(want)
    );
    exit(1)
}

impl Compared {
    pub fn new() -> Self {
        let mut random = Random::new(1);
        let pattern: Vec<u8> = (0..ROOM + 2 * MARGIN + TURNS).map(|_| random.byte()).collect();
        let (here, there) = (pattern.clone(), pattern.clone());
        Compared { answers: [0; LEAVES.len()], values: [0; 2], here, there, pattern, turn: 0 }
    }

    pub fn expect<T: PartialEq + Debug>(&mut self, leaf: Leaf, input: &dyn Debug, got: T, want: T) {
        self.answers[leaf as usize] += 1;
        if got != want {
            differ(leaf, input, &got, &want);
        }
    }

    /// How many bytes more than needed are to be lent this time.
    pub fn spare(&self) -> usize {
        SPARE[self.turn % SPARE.len()]
    }

    /// Lends room of `len` bytes with the same bytes in it to `here` and to `rust`. What they give back has to agree, and so has
    /// every byte of the room, before it and behind it.
    pub fn expect_written<T: PartialEq + Debug>(
        &mut self,
        leaf: Leaf,
        input: &dyn Debug,
        len: usize,
        here: impl FnOnce(&mut [u8]) -> T,
        rust: impl FnOnce(&mut [u8]) -> T,
    ) {
        self.answers[leaf as usize] += 1;
        self.turn += 1;
        let before = &self.pattern[self.turn % TURNS..][..len + 2 * MARGIN];
        let (a, b) = (&mut self.here[..before.len()], &mut self.there[..before.len()]);
        a.copy_from_slice(before);
        b.copy_from_slice(before);
        let (got, want) = (here(&mut a[MARGIN..MARGIN + len]), rust(&mut b[MARGIN..MARGIN + len]));
        if got != want || a != b {
            let places: Vec<_> =
                (0..a.len()).filter(|k| a[*k] != b[*k]).map(|k| k as isize - MARGIN as isize).collect();
            eprintln!("In room of {len} bytes these places differ: {places:?}");
            differ(leaf, input, &(got, &a[MARGIN..MARGIN + len]), &(want, &b[MARGIN..MARGIN + len]));
        }
    }
}

/// Rust's answer written to the start of the room.
pub fn put(out: &mut [u8], answer: &[u8]) -> usize {
    out[..answer.len()].copy_from_slice(answer);
    answer.len()
}
