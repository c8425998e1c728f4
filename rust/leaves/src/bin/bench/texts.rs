//! Texts to measure with: each maker gives `n` bytes of UTF-8, or nothing where `n` bytes do not show what the maker is for.

use leaves::Random;

pub type Maker = fn(&mut Random, usize) -> Option<String>;

const WORDS: &str = "der die das und in zu den nicht von sie ist mit sich dem auf ein eine als auch es an werden aus er hat dass \
    wir nach wird bei einer um am sind noch wie einem einen so zum war haben nur oder aber vor zur bis mehr durch man Schirm \
    schwarz Griff aus Holz Koffer Tasche Haltestelle Linie Endstation gestern gegen sieben Uhr liegt im Schrank Depot Nord Fach \
    Zettel";
const UMLAUTS: &str = "für über Straße Fundbüro Schlüssel Rückgabe gehört möglich Tür";

/// `n` bytes of words by chance. The last word may be cut short.
fn prose(random: &mut Random, n: usize, words: &str) -> Option<String> {
    let words: Vec<&str> = words.split_whitespace().collect();
    let mut text = String::with_capacity(n + 40);
    while text.len() < n {
        text.push_str(random.pick(&words));
        text.push_str(random.pick(&[" ", " ", " ", " ", " ", " ", ", ", ". "]));
    }
    let mut end = n;
    while !text.is_char_boundary(end) {
        end -= 1;
    }
    text.truncate(end);
    text.push_str(&"x".repeat(n - end));
    Some(text)
}

pub fn ascii(random: &mut Random, n: usize) -> Option<String> {
    prose(random, n, WORDS)
}

/// German, with a character beyond ASCII in some 50 bytes.
pub fn german(random: &mut Random, n: usize) -> Option<String> {
    prose(random, n, &[WORDS, UMLAUTS].join(" "))
}

/// ASCII with a mark in the middle of each `every` bytes; of fewer bytes in the middle of all.
fn marked(random: &mut Random, n: usize, every: usize, mark: &str) -> Option<String> {
    let mut text = ascii(random, n)?;
    let first = every.min(n) / 2;
    for at in (first..n - mark.len()).step_by(every) {
        text.replace_range(at..at + mark.len(), mark);
    }
    Some(text)
}

/// One character beyond ASCII in each 40 bytes, or 200.
pub fn sparse_40(random: &mut Random, n: usize) -> Option<String> {
    (n >= 40).then(|| marked(random, n, 40, "é"))?
}

pub fn sparse_200(random: &mut Random, n: usize) -> Option<String> {
    (n >= 200).then(|| marked(random, n, 200, "é"))?
}

/// `n` bytes of one character, ASCII at the end where they are not a multiple of its length.
fn only(c: &str, n: usize) -> Option<String> {
    Some(c.repeat(n / c.len()) + &"x".repeat(n % c.len()))
}

pub fn two_byte(_: &mut Random, n: usize) -> Option<String> {
    only("é", n)
}

pub fn three_byte(_: &mut Random, n: usize) -> Option<String> {
    only("€", n)
}

/// Lines of 74 bytes and CRLF, or of 75 and LF; the last one ends with the text.
pub fn crlf_lines(random: &mut Random, n: usize) -> Option<String> {
    let mut text = ascii(random, n)?;
    for at in (74..n - 4).step_by(76).chain([n - 2]) {
        text.replace_range(at..at + 2, "\r\n");
    }
    Some(text)
}

pub fn lf_lines(random: &mut Random, n: usize) -> Option<String> {
    Some(crlf_lines(random, n)?.replace('\r', "x"))
}

/// The lines with a blank line at the end of the text.
pub fn headers(random: &mut Random, n: usize) -> Option<String> {
    let mut text = crlf_lines(random, n)?;
    text.replace_range(n - 4.., "\r\n\r\n");
    Some(text)
}

/// The first and the last byte of CRLFCRLF at its distance in each 64 bytes.
pub fn almost(random: &mut Random, n: usize) -> Option<String> {
    marked(random, n, 64, "\rab\n")
}

/// Blank lines, each behind 74 bytes.
pub fn lf_blank_lines(random: &mut Random, n: usize) -> Option<String> {
    Some(crlf_lines(random, n)?.replace('\r', "\n"))
}

pub fn spaces_around(random: &mut Random, n: usize) -> Option<String> {
    Some(format!("  {} ", ascii(random, n - 3)?.replace(' ', "x")))
}

pub fn wide_spaces_around(random: &mut Random, n: usize) -> Option<String> {
    Some(format!("\u{3000}{}\u{3000}", ascii(random, n - 6)?.replace(' ', "x")))
}

pub fn unspaced(random: &mut Random, n: usize) -> Option<String> {
    Some(ascii(random, n)?.replace(' ', "x"))
}

/// A quote, which is escaped, in each 10 bytes, 40 or 200.
pub fn quotes_10(random: &mut Random, n: usize) -> Option<String> {
    marked(random, n, 10, "\"")
}

pub fn quotes_40(random: &mut Random, n: usize) -> Option<String> {
    (n >= 40).then(|| marked(random, n, 40, "\""))?
}

pub fn quotes_200(random: &mut Random, n: usize) -> Option<String> {
    (n >= 200).then(|| marked(random, n, 200, "\""))?
}
