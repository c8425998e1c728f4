//! The functions that write to room which holds nothing yet: what is made for a message is not zeroed first.
//!
//! Each contract says what the first bytes of a store are afterwards, whatever they were before: for a reading `ReadInto` in
//! crates/format/specs/Lending.antt, of which `laid` speaks of all the bytes that are needed, the zeros behind the type among them. A function that
//! did not write them could not keep that for every store that it may be lent.

use super::{cpim_to_string, Answer, HeadAnswer, Reading, Record};
use std::mem::MaybeUninit;

impl Reading {
    /// [`parse_head`](super::parse_head), and what it wrote: the bytes of the head store that the message takes.
    pub(crate) fn parse_head_into<'a>(self, text: &[u8], head: &'a mut [MaybeUninit<u8>]) -> (HeadAnswer, &'a [u8]) {
        // SAFETY: as in raw.rs.
        let answer = unsafe { (self.parse_head)(text.as_ptr(), text.len(), head.as_mut_ptr().cast(), head.len()) };
        let need = if answer.number == 0 { answer.record.need() } else { 0 };
        // SAFETY: `laid` in `ReadInto`.
        (answer, unsafe { written(head, need) })
    }

    /// [`parse`](super::parse) with a body store of so many bytes, and what it wrote: the bytes of the head store that the message takes, and
    /// the body.
    pub(crate) fn parse_into<'a>(
        self,
        text: &[u8],
        head: &'a mut [MaybeUninit<u8>],
        room: usize,
    ) -> (Answer<Record>, &'a [u8], Vec<u8>) {
        let mut body = Vec::with_capacity(room);
        let (t, h, b) = (text, head, body.as_mut_ptr());
        // SAFETY: as in raw.rs.
        let answer = unsafe { (self.parse)(t.as_ptr(), t.len(), h.as_mut_ptr().cast(), h.len(), b, room) };
        let (need, len) =
            if answer.number == 0 { (answer.record.need(), answer.record.bodylen.min(room)) } else { (0, 0) };
        // SAFETY: `laid` and `stored` in `ReadInto`.
        unsafe {
            body.set_len(len);
            (answer, written(h, need), body)
        }
    }
}

/// # Safety
///
/// The first `len` bytes were written.
unsafe fn written(store: &[MaybeUninit<u8>], len: usize) -> &[u8] {
    let written = &store[..len];
    // SAFETY: as the caller says.
    unsafe { std::slice::from_raw_parts(written.as_ptr().cast(), len) }
}

/// [`to_string`](super::to_string) with room for so many bytes; the text where it has that room.
pub(crate) fn to_new_string(m: Record, head: &[u8], body: &[u8], room: usize) -> (Answer<usize>, String) {
    let mut out = Vec::with_capacity(room);
    let (h, b) = (head, body);
    // SAFETY: as in raw.rs.
    let answer = unsafe { cpim_to_string(m, h.as_ptr(), h.len(), b.as_ptr(), b.len(), out.as_mut_ptr(), room) };
    let len = if answer.number == 0 { answer.record.min(room) } else { 0 };
    // SAFETY: the text was written to the start (`Wrote` in crates/format/specs/Lending.antt), and it is UTF-8, whatever the body: proved as
    // `write-utf8` in crates/format/proofs/Texts/WriteText.antt. To test a text beyond ASCII once more would take as long as to write it.
    (answer, unsafe {
        out.set_len(len);
        String::from_utf8_unchecked(out)
    })
}
