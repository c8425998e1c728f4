//! The lookups, each answered by place in the store that is lent. Absent, and where nothing is held: `found` is false and the numbers are 0.

use super::{HeaderRecord, Numbers, Record};

/// A part of a store: whether there is one, where it begins, and its length.
#[repr(C)]
#[derive(Clone, Copy, Debug, Default, PartialEq, Eq)]
pub struct Part {
    pub found: bool,
    pub start: usize,
    pub length: usize,
}

impl Part {
    /// The part in the store that was lent.
    pub fn of(self, store: &[u8]) -> Option<&[u8]> {
        self.found.then(|| &store[self.start..][..self.length])
    }
}

/// An entry of a store: whether there is one, where its name begins, the length of the name and of the value right behind it.
#[repr(C)]
#[derive(Clone, Copy, Debug, Default, PartialEq, Eq)]
pub struct Pair {
    pub found: bool,
    pub start: usize,
    pub name: usize,
    pub value: usize,
}

impl Pair {
    /// Name and value in the store that was lent.
    pub fn of(self, store: &[u8]) -> Option<(&[u8], &[u8])> {
        self.found.then(|| store[self.start..][..self.name + self.value].split_at(self.name))
    }
}

/// A part of the text or of the buffer: in which of the two, where it begins, and its length. Where the text has no body: false, 0, 0.
#[repr(C)]
#[derive(Clone, Copy, Debug, PartialEq, Eq)]
pub struct BodyPlace {
    pub in_text: bool,
    pub start: usize,
    pub length: usize,
}

impl BodyPlace {
    /// The part of what was lent.
    pub fn of<'a>(self, text: &'a [u8], buffer: &'a [u8]) -> &'a [u8] {
        &(if self.in_text { text } else { buffer })[self.start..][..self.length]
    }
}

extern "C" {
    fn cpim_get_header(m: Record, head: *const u8, _: usize, name: *const u8, _: usize) -> Part;
    fn cpim_get_header_value(m: Record, head: *const u8, _: usize, name: *const u8, _: usize, n: usize) -> Part;
    fn cpim_get_param(m: Record, head: *const u8, _: usize, name: *const u8, _: usize, k: usize, n: usize) -> Pair;
    fn cpim_content_type(m: Record, head: *const u8, _: usize) -> Part;
    fn cpim_body(m: Record, head: *const u8, _: usize, body: *const u8, _: usize) -> Part;
    fn cpim_body_as_str(m: Record, head: *const u8, _: usize, body: *const u8, _: usize) -> bool;
    fn cpim_content_header(m: Record, head: *const u8, _: usize, n: usize) -> Pair;
    fn cpim_header_value(h: HeaderRecord, store: *const u8, _: usize) -> Part;
    fn cpim_header_param(h: HeaderRecord, store: *const u8, _: usize, n: usize) -> Pair;
    fn cpim_count_headers(m: Record, head: *const u8, _: usize) -> usize;
    fn cpim_count_params(m: Record, head: *const u8, _: usize) -> usize;
    fn cpim_count_contents(m: Record, head: *const u8, _: usize) -> usize;
    fn cpim_places(m: Record, head: *const u8, _: usize, out: *mut usize, _: usize) -> Numbers;
    fn cpim_address(value: *const u8, _: usize) -> Part;
    fn cpim_body_part(text: *const u8, _: usize, buffer: *const u8, _: usize, length: usize) -> BodyPlace;
}

// SAFETY of every call below: as in raw.rs.

/// The first value of a name, in `head`.
pub fn get_header(m: Record, head: &[u8], name: &[u8]) -> Part {
    unsafe { cpim_get_header(m, head.as_ptr(), head.len(), name.as_ptr(), name.len()) }
}

/// The n-th value of a name, in `head`; n counts from 0.
pub fn get_header_value(m: Record, head: &[u8], name: &[u8], n: usize) -> Part {
    unsafe { cpim_get_header_value(m, head.as_ptr(), head.len(), name.as_ptr(), name.len(), n) }
}

/// The n-th parameter of the k-th value of a name, in `head`.
pub fn get_param(m: Record, head: &[u8], name: &[u8], k: usize, n: usize) -> Pair {
    unsafe { cpim_get_param(m, head.as_ptr(), head.len(), name.as_ptr(), name.len(), k, n) }
}

/// The content type, in `head`.
pub fn content_type(m: Record, head: &[u8]) -> Part {
    unsafe { cpim_content_type(m, head.as_ptr(), head.len()) }
}

/// The body, in its own store.
pub fn body(m: Record, head: &[u8], body: &[u8]) -> Part {
    unsafe { cpim_body(m, head.as_ptr(), head.len(), body.as_ptr(), body.len()) }
}

/// Whether the body is UTF-8.
pub fn body_as_str(m: Record, head: &[u8], body: &[u8]) -> bool {
    unsafe { cpim_body_as_str(m, head.as_ptr(), head.len(), body.as_ptr(), body.len()) }
}

/// The n-th content header in map order, in `head`.
pub fn content_header(m: Record, head: &[u8], n: usize) -> Pair {
    unsafe { cpim_content_header(m, head.as_ptr(), head.len(), n) }
}

/// The value of a header alone, in its store.
pub fn header_value(h: HeaderRecord, store: &[u8]) -> Part {
    unsafe { cpim_header_value(h, store.as_ptr(), store.len()) }
}

/// The n-th parameter of a header alone, in its store.
pub fn header_param(h: HeaderRecord, store: &[u8], n: usize) -> Pair {
    unsafe { cpim_header_param(h, store.as_ptr(), store.len(), n) }
}

/// How many headers there are; 0 where nothing is held.
pub fn count_headers(m: Record, head: &[u8]) -> usize {
    unsafe { cpim_count_headers(m, head.as_ptr(), head.len()) }
}

/// How many parameters all headers have together.
pub fn count_params(m: Record, head: &[u8]) -> usize {
    unsafe { cpim_count_params(m, head.as_ptr(), head.len()) }
}

pub fn count_contents(m: Record, head: &[u8]) -> usize {
    unsafe { cpim_count_contents(m, head.as_ptr(), head.len()) }
}

/// Writes a row of four numbers to the start of `out` for each header in map order, behind it those of its parameters, then for each content
/// header: where the name begins in `head`, the length of the name, of the value right behind it, and how many parameters. 26 carries the
/// bytes needed, 8 for each number.
pub fn places(m: Record, head: &[u8], out: &mut [usize]) -> Numbers {
    unsafe { cpim_places(m, head.as_ptr(), head.len(), out.as_mut_ptr(), out.len()) }
}

/// The part of a value between its first `<` outside a quoted string and the next `>`, by the rule of [`address`](crate::address()). The value may be
/// any bytes.
pub fn address(value: &[u8]) -> Part {
    unsafe { cpim_address(value.as_ptr(), value.len()) }
}

/// The body of a text behind [`read_body`](super::read_body), by the length that it gave: a part of the text under CRLFCRLF, of the buffer under
/// LFLF. Empty, at the buffer's start, where that refuses by 1, 24, 2 or 23, and under LFLF where the length exceeds the buffer.
pub fn body_part(text: &[u8], buffer: &[u8], length: usize) -> BodyPlace {
    unsafe { cpim_body_part(text.as_ptr(), text.len(), buffer.as_ptr(), buffer.len(), length) }
}
