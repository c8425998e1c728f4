//! What Rust answers: the standard library and the source on texts, and both carried over to bytes that are not UTF-8.

use common::value_text;
use source::cpim::{open_escape_header_value, open_unescape_header_value};
use std::borrow::Cow;
use std::str::from_utf8;

/// The one character that the bytes are.
pub fn one_char(s: &[u8]) -> Option<char> {
    let mut chars = from_utf8(s).ok()?.chars();
    chars.next().filter(|_| chars.next().is_none())
}

/// `str::trim`. An ill-formed subpart is no white space.
pub fn trimmed(s: &[u8]) -> &[u8] {
    if let Ok(text) = from_utf8(s) {
        return text.trim().as_bytes();
    }
    let (mut from, mut to) = (0, s.len());
    if let Some(first) = s.utf8_chunks().next() {
        from = first.valid().len() - first.valid().trim_start().len();
    }
    if let Some(last) = s.utf8_chunks().last().filter(|last| last.invalid().is_empty()) {
        to -= last.valid().len() - last.valid().trim_end().len();
    }
    &s[from..to]
}

/// The source's `escape_header_value`. An ill-formed subpart is written as it is.
pub fn escaped(s: &[u8]) -> Vec<u8> {
    let mut all = Vec::new();
    for chunk in s.utf8_chunks() {
        all.extend_from_slice(open_escape_header_value(chunk.valid()).as_bytes());
        all.extend_from_slice(chunk.invalid());
    }
    all
}

/// A header value by document 02's T-03. An ill-formed subpart is written as it is; a letter put in its place next to a well-formed part, and taken
/// away again, tells that this part does not reach the end of the value there.
pub fn value(s: &[u8]) -> Vec<u8> {
    let mut all = Vec::new();
    for (k, chunk) in s.utf8_chunks().enumerate() {
        let before = if k == 0 { "" } else { "x" };
        let behind = if chunk.invalid().is_empty() { "" } else { "x" };
        let text = value_text(&[before, chunk.valid(), behind].concat());
        all.extend_from_slice(&text.as_bytes()[before.len()..text.len() - behind.len()]);
        all.extend_from_slice(chunk.invalid());
    }
    all
}

/// Characters that no escape stands for: in bytes that are not UTF-8 each byte beyond ASCII is put as one of these.
const STAND_INS: u32 = 0x10FF00;

/// The source's `unescape_header_value`. A byte beyond ASCII reads as itself.
pub fn unescaped(s: &[u8]) -> Option<Vec<u8>> {
    if let Ok(text) = from_utf8(s) {
        return Some(open_unescape_header_value(text)?.into_bytes());
    }
    let text: String = s
        .iter()
        .map(|b| if b.is_ascii() { char::from(*b) } else { char::from_u32(STAND_INS + u32::from(*b)).unwrap() })
        .collect();
    let mut all = Vec::new();
    for c in open_unescape_header_value(&text)?.chars() {
        match u32::from(c).checked_sub(STAND_INS) {
            Some(byte) => all.push(byte as u8),
            None => all.extend_from_slice(c.encode_utf8(&mut [0; 4]).as_bytes()),
        }
    }
    Some(all)
}

/// `str::find` where both are UTF-8; the length where there is no place.
pub fn found(s: &[u8], pattern: &[u8]) -> usize {
    let place = match (from_utf8(s), from_utf8(pattern)) {
        (Ok(text), Ok(pattern)) => text.find(pattern),
        _ => s.windows(pattern.len()).position(|w| w == pattern),
    };
    place.unwrap_or(s.len())
}

/// `split` at LFLF and `join` by CRLFCRLF, and where each piece ends then; bytes that are not UTF-8 are put as the characters of their numbers.
pub fn joined(s: &[u8]) -> (Vec<u8>, Vec<usize>) {
    let text: Cow<str> = match from_utf8(s) {
        Ok(text) => text.into(),
        Err(_) => s.iter().map(|b| char::from(*b)).collect(),
    };
    let bytes = |piece: &str| match text {
        Cow::Borrowed(_) => piece.as_bytes().to_vec(),
        Cow::Owned(_) => piece.chars().map(|c| c as u8).collect(),
    };
    let pieces: Vec<_> = text.split("\n\n").map(bytes).collect();
    let ends = pieces.iter().scan(0, |next, piece| {
        let end = *next + piece.len();
        *next = end + 4;
        Some(end)
    });
    (pieces.join(&b"\r\n\r\n"[..]), ends.collect())
}
