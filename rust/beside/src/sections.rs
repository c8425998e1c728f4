//! Where the source cuts a text, which both readings share: into sections, and a section into lines.

pub const CRLFCRLF: &str = "\r\n\r\n";
pub const LFLF: &str = "\n\n";

pub fn separator(input: &str) -> &'static str {
    if input.contains(CRLFCRLF) {
        CRLFCRLF
    } else {
        LFLF
    }
}

/// The lines of a section that are not empty. Where they end in CRLF one comes first, so that a line alone is cut in the same way.
pub fn lines(section: &str) -> impl Iterator<Item = (&'static str, &str)> {
    let (end, first) = if section.contains("\r\n") { ("\r\n", "\r\n") } else { ("\n", "") };
    section.split(end).filter(|line| !line.is_empty()).map(move |line| (first, line))
}
