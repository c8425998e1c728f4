//! The address in a value by the words of document 02, T-02. The source does not have it.

use common::grouped;
use std::process::exit;

/// "The address is from now on between the first `<` outside a quoted string and the next `>`": where it begins, and its length.
pub fn address(value: &[u8]) -> Option<(usize, usize)> {
    let (_, behind) = cut(behind_quoted_strings(value)?, b'<')?;
    let (address, _) = cut(behind, b'>')?;
    Some((value.len() - behind.len(), address.len()))
}

/// The address itself.
pub fn address_of(value: &str) -> Option<&str> {
    address(value.as_bytes()).map(|(start, length)| &value[start..start + length])
}

/// What is before the first such byte, and what is behind it.
fn cut(s: &[u8], sign: u8) -> Option<(&[u8], &[u8])> {
    let at = s.iter().position(|b| *b == sign)?;
    Some((&s[..at], &s[at + 1..]))
}

/// Each quoted string is taken off the front, with what is before it. "Quotes are looked for only before that `<`, and if one is left unclosed there is
/// no address."
fn behind_quoted_strings(mut value: &[u8]) -> Option<&[u8]> {
    while let Some((before, quoted)) = cut(value, b'"') {
        if before.contains(&b'<') {
            break;
        }
        value = behind_closing_quote(quoted)?;
    }
    Some(value)
}

/// Up to the quote that closes it, a quoted string is pairs of a backslash and another byte, and bytes by themselves: "a backslash inside the quotes covers
/// the character after it". Of a character beyond ASCII the first byte is covered, and the others are neither quotes nor backslashes.
fn behind_closing_quote(mut quoted: &[u8]) -> Option<&[u8]> {
    loop {
        quoted = match quoted {
            [b'"', behind @ ..] => return Some(behind),
            [b'\\', _, behind @ ..] | [_, behind @ ..] => behind,
            [] => return None,
        };
    }
}

/// How many addresses were found; of these, how many behind a quoted string, and behind one with a `<` in it; and how often there was none, for a quote
/// that is left unclosed, where document 01 had one: between the first `<` of all and the next `>`.
#[derive(Clone, Copy, Default)]
pub struct Addresses {
    found: u64,
    quoted: u64,
    signs: u64,
    unclosed: u64,
}

impl Addresses {
    pub fn count(&mut self, value: &[u8]) {
        let Some((start, _)) = address(value) else {
            let plain = cut(value, b'<').and_then(|(_, behind)| cut(behind, b'>'));
            self.unclosed += u64::from(plain.is_some() && behind_quoted_strings(value).is_none());
            return;
        };
        let before = &value[..start - 1];
        self.found += 1;
        self.quoted += u64::from(before.contains(&b'"'));
        self.signs += u64::from(before.contains(&b'<'));
    }

    pub fn add(&mut self, more: &Addresses) {
        self.found += more.found;
        self.quoted += more.quoted;
        self.signs += more.signs;
        self.unclosed += more.unclosed;
    }

    /// Prints them, and ends the program with a failure where there are fewer than so many of a kind.
    pub fn say(&self, least: u64) {
        let [found, quoted, signs, unclosed] = [self.found, self.quoted, self.signs, self.unclosed].map(grouped);
        println!(
            "Addresses in values that are held: {found}, behind a quoted string: {quoted}, behind one with a `<` in it: {signs}; \
             none for an unclosed quote: {unclosed}."
        );
        if self.quoted.min(self.signs).min(self.unclosed) < least {
            eprintln!("too few addresses with quotes before them: at least {} of each kind", grouped(least));
            exit(1);
        }
    }
}
