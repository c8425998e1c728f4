//! Reading a text into stores that are made for it, each as long as it has to be.

use crate::error::{CpimError, Refusal, MAX_BODY_SIZE, MAX_PARSE_SIZE};
use crate::message::{CpimMessage, MOST_HEAD};
use crate::raw::Reading;
use std::mem::MaybeUninit;

/// The head store that is lent first, on the stack: more than all but a few messages need.
const FIRST: usize = 24_576;
/// How many of a text's first bytes say which way it is read.
const LOOKED_AT: usize = 128;

/// Parses a CPIM message from a string.
pub fn parse_cpim(input: &str) -> Result<CpimMessage, CpimError> {
    parse(input, Reading::SOURCE)
}

/// Parses a CPIM message from a string, with header parameters where RFC 3862 puts them: the second reading.
///
/// A header line is the name up to the first colon; then parameters, from `;` to the first space, parted at `;`, each at its first `=`; that one space;
/// and the value, which is all that follows. Nothing is trimmed, and only U+0020 is a space. Of escapes `\'` is read, and `\u` takes four hexadecimal
/// digits, no plus sign. Sections, lines, content headers and body are read as by [`parse_cpim`].
///
/// [`CpimMessage::to_string`] writes parameters so, and what [`CpimMessage::comes_back_rfc`] says yes of comes back whole:
///
/// ```
/// use cpim::{parse_cpim_rfc, CpimHeader, CpimMessage};
///
/// let umbrella = CpimHeader::new("Black umbrella, wooden handle")?.with_param("depot", "north")?;
/// let mut notice = CpimMessage::new("text/plain", b"Found on line 4".to_vec())?.with_from("<im:north@depots.example>")?;
/// notice.add_header_obj("Subject", umbrella)?;
///
/// assert!(notice.comes_back_rfc());
/// let read = parse_cpim_rfc(&notice.to_string()?)?;
/// assert_eq!(read, notice);
/// assert_eq!(read.headers()["Subject"][0].params()["depot"], "north");
/// # Ok::<(), cpim::CpimError>(())
/// ```
///
/// Two refusals come by it alone: 27 where a parameter lacks `=`, and 28 where behind the colon neither a space nor a `;` comes first, or no space
/// comes at all. Each is a [`CpimError::ParseError`]; [`CpimError::number`] tells them apart:
///
/// ```
/// let text = |line| format!("Content-type: Message/CPIM\r\n\r\n{line}\r\n\r\nContent-type: text/plain\r\n\r\nHi");
/// let number = |line| cpim::parse_cpim_rfc(&text(line)).map_or_else(|e| e.number(), |_| 0);
/// assert_eq!([number("Subject:;depot=north Hi"), number("Subject:;depot Hi"), number("Subject:Hi")], [0, 27, 28]);
/// ```
pub fn parse_cpim_rfc(input: &str) -> Result<CpimMessage, CpimError> {
    parse(input, Reading::RFC)
}

fn parse(input: &str, reading: Reading) -> Result<CpimMessage, CpimError> {
    let text = input.as_bytes();
    let mut room = [MaybeUninit::uninit(); FIRST];
    // No text needs more than this: an entry takes 14 bytes of the head store more than of the text, where it has 3 or more (`;a=`, or `a:` and
    // a line end). A refused reading zeroes what is lent.
    let lent = FIRST.min(256 + 6 * text.len());
    match read(text, &mut room[..lent], reading) {
        Err(Refusal { number: 25, carried }) => read_again(text, carried, reading).map_err(CpimError::from),
        answer => answer.map_err(CpimError::from),
    }
}

/// By longer stores; 25 carries what the line needs that has no room.
#[cold]
fn read_again(text: &[u8], needed: u64, reading: Reading) -> Result<CpimMessage, Refusal> {
    let (mut len, mut needed) = (FIRST, needed);
    loop {
        // Each time the text is read from its start. Four times the length makes that three head stores at most.
        len = (4 * len).max(needed as usize).min(MOST_HEAD);
        match read(text, &mut Vec::with_capacity(len).spare_capacity_mut()[..len], reading) {
            Err(Refusal { number: 25, carried }) if len < MOST_HEAD => needed = carried,
            answer => return answer,
        }
    }
}

/// A text in a head store. A body under CRLFCRLF is copied from the text; one under LFLF is written by the reading.
fn read(text: &[u8], head: &mut [MaybeUninit<u8>], reading: Reading) -> Result<CpimMessage, Refusal> {
    if begins_with_lf(text) {
        // A text that is too long is refused before it is looked at.
        let room = if text.len() > MAX_PARSE_SIZE { 0 } else { MAX_BODY_SIZE.min(longest_body(text)) };
        return read_joined(text, head, reading, room);
    }
    let (answer, laid) = reading.parse_head_into(text, head);
    let record = answer.accepted()?.record;
    match answer.body_in(text) {
        Some(body) => Ok(CpimMessage::of(record, laid.to_vec(), body.to_vec())),
        None => read_joined(text, head, reading, record.bodylen),
    }
}

/// Whether a line ends in a bare LF, or a section in LFLF, before one ends in CRLFCRLF, as far as the first bytes show. That only says which way
/// is the faster one.
fn begins_with_lf(text: &[u8]) -> bool {
    let start = &text[..text.len().min(LOOKED_AT)];
    let line_ends = start.iter().enumerate().filter(|(_, b)| **b == b'\n').map(|(k, _)| text.split_at(k + 1));
    for (before, behind) in line_ends {
        if !before.ends_with(b"\r\n") || behind.starts_with(b"\n") {
            return true;
        }
        if behind.starts_with(b"\r\n") {
            return false;
        }
    }
    false
}

/// As many bytes as the body of a text has at most: each LFLF becomes CRLFCRLF, two bytes longer. Three LF in a row are counted as two LFLF.
fn longest_body(text: &[u8]) -> usize {
    // So many pairs at a time that they are counted in a byte, 16 side by side.
    const PAIRS: usize = 240;
    let behind = text.get(1..).unwrap_or_default();
    let counted = text.chunks(PAIRS).zip(behind.chunks(PAIRS)).map(|(a, b)| {
        let blank = a.iter().zip(b).map(|(a, b)| u8::from(*a == b'\n') & u8::from(*b == b'\n'));
        usize::from(blank.sum::<u8>())
    });
    text.len() + 2 * counted.sum::<usize>()
}

/// With a body store that has room for the body, or for the longest one, so that the text is judged once.
fn read_joined(
    text: &[u8],
    head: &mut [MaybeUninit<u8>],
    reading: Reading,
    room: usize,
) -> Result<CpimMessage, Refusal> {
    let (answer, laid, mut body) = reading.parse_into(text, head, room);
    let record = answer.accepted()?;
    body.shrink_to_fit();
    Ok(CpimMessage::of(record, laid.to_vec(), body))
}
