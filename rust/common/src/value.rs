//! A header value as it is written: document 02, T-03.

use source::cpim::open_escape_header_value;

/// Document 01's white space.
#[rustfmt::skip]
pub const WHITE_SPACE: [char; 25] = [
    '\u{9}', '\u{a}', '\u{b}', '\u{c}', '\u{d}', '\u{20}', '\u{85}', '\u{a0}', '\u{1680}', '\u{2000}', '\u{2001}', '\u{2002}',
    '\u{2003}', '\u{2004}', '\u{2005}', '\u{2006}', '\u{2007}', '\u{2008}', '\u{2009}', '\u{200a}', '\u{2028}', '\u{2029}',
    '\u{202f}', '\u{205f}', '\u{3000}',
];

/// White space and not a control character.
pub fn is_plain_white(c: char) -> bool {
    c.is_whitespace() && !c.is_control()
}

/// Whether the first or last character of a value is such: the rule then decides how it is written, and not the source.
pub fn has_white_end(value: &str) -> bool {
    value.starts_with(is_plain_white) || value.ends_with(is_plain_white)
}

/// A first or last character.
fn end(c: char) -> String {
    if is_plain_white(c) {
        format!("\\u{:04x}", u32::from(c))
    } else {
        open_escape_header_value(c.encode_utf8(&mut [0; 4]))
    }
}

/// The first character, those between it and the last one, and the last one. Where there is but one character, it is the first.
pub fn value_text(value: &str) -> String {
    let mut between = value.chars();
    let [first, last] = [between.next(), between.next_back()].map(|c| c.map_or_else(String::new, end));
    format!("{first}{}{last}", open_escape_header_value(between.as_str()))
}
