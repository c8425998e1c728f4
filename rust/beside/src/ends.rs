//! Ends for header values: white space of every kind, alone, doubled, and next to what is none.

use common::{Random, WHITE_SPACE};

/// Next to white space at an end: no white space, though it looks like it or was once; escaped as everywhere; a letter.
const BESIDE_WHITE: [char; 9] = ['\u{200b}', '\u{feff}', '\u{180e}', '\u{8}', '\u{7f}', '\u{9f}', '"', '\\', 'a'];
/// The longest header value.
const MOST_VALUE: usize = 1_024;

/// One or two characters for an end of a value, mostly white space.
fn end(random: &mut Random) -> String {
    let from: &[char] = if random.once_in(4) { &BESIDE_WHITE } else { &WHITE_SPACE };
    let first = random.pick(from);
    let second = if random.once_in(2) { first } else { random.pick(&WHITE_SPACE) };
    [first, second].into_iter().take(1 + random.below(2)).collect()
}

/// A value with such ends, or one of nothing else. Where it was within the limit it stays so.
pub fn with_ends(random: &mut Random, value: &str) -> String {
    let (mut front, mut back) = (end(random), end(random));
    match random.below(6) {
        0 => return front,
        1 | 2 => front.clear(),
        3 | 4 => back.clear(),
        _ => {}
    }
    let mut between = value.to_string();
    while value.len() <= MOST_VALUE && front.len() + between.len() + back.len() > MOST_VALUE {
        between.pop();
    }
    front + &between + &back
}
