//! Values as senders sign: names, quoted or not, before an address; and such values with something amiss.

use common::Random;

const WORDS: [&str; 8] = ["Coach", "firm", "Büro", "O'Neill", "5\" pipe", "\\", "a>b", "\u{1f68c}"];
/// What a quoted string is made of: backslashes stand in pairs or cover what is behind them.
const QUOTED: [&str; 14] =
    ["Lost", "Found", " ", " ", "<", "<", ">", " < ", "<im:x>", "\\\"", "\\\\", "\\<", "\\é", "ü\u{1f9e4}"];
const ADDRESSES: [&str; 10] = [
    "<im:lost@depot>",
    "<im:lost@depot>",
    "<im:lost@depot>",
    "<im:b>, <im:c>",
    "<>",
    "<\"a>\"",
    "<a\\>b>",
    "<<é>>",
    "<im:lost",
    "im:lost",
];
/// What closes a quoted string that is open, opens another, covers or ends something, wherever it comes in.
const AMISS: [&str; 7] = ["\"", "\"", "\"", "\\", "\\\"", "<", ">"];

fn quoted_string(random: &mut Random) -> String {
    let inside: String = (0..random.below(6)).map(|_| random.pick(&QUOTED)).collect();
    format!("\"{inside}\"")
}

/// Up to three words and quoted strings, and an address; once in three times with a piece more somewhere.
pub fn sender(random: &mut Random) -> String {
    let mut value = String::new();
    for _ in 0..random.below(4) {
        value += &if random.once_in(3) { random.pick(&WORDS).to_string() } else { quoted_string(random) };
        value += random.pick(&[" ", " ", ""]);
    }
    value += random.pick(&ADDRESSES);
    if random.once_in(3) {
        let places: Vec<usize> = value.char_indices().map(|(at, _)| at).chain([value.len()]).collect();
        value.insert_str(random.pick(&places), random.pick(&AMISS));
    }
    value
}
