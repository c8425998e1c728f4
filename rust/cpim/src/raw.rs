//! The functions of crates/cpim as safe functions on slices, and their records (crates/cpim/cpim.h says the same in C). Each takes any
//! record and any bytes; where they hold no message the answer is 25 carrying 0. Nothing is allocated.

#![allow(unsafe_code)]

mod lookups;
mod unwritten;

pub use lookups::*;
pub(crate) use unwritten::*;

/// A message in its stores: the length of its type; how many headers and the bytes that they take in the head store; the same of
/// its content headers; the length of its body. The empty record (all 0) holds nothing.
#[repr(C)]
#[derive(Clone, Copy, Debug, Default, PartialEq, Eq)]
pub struct Record {
    pub typelen: usize,
    pub headers: usize,
    pub headerlen: usize,
    pub contents: usize,
    pub contentlen: usize,
    pub bodylen: usize,
}

impl Record {
    /// The bytes of the head store that the message takes. Reading its text may need more on the way, where a content header is given twice.
    pub fn need(&self) -> usize {
        self.headerlen.saturating_add(self.contentlen).saturating_add(256)
    }

    pub fn fields(&mut self) -> [&mut usize; 6] {
        let r = self;
        [&mut r.typelen, &mut r.headers, &mut r.headerlen, &mut r.contents, &mut r.contentlen, &mut r.bodylen]
    }
}

/// A header alone in its store: the length of its value, how many parameters, and the bytes that it takes.
#[repr(C)]
#[derive(Clone, Copy, Debug, Default, PartialEq, Eq)]
pub struct HeaderRecord {
    pub valuelen: usize,
    pub params: usize,
    pub size: usize,
}

impl HeaderRecord {
    pub fn fields(&mut self) -> [&mut usize; 3] {
        [&mut self.valuelen, &mut self.params, &mut self.size]
    }
}

/// The number of a refusal, 0 where there is none, and what it carries.
#[repr(C)]
#[derive(Clone, Copy, Debug, PartialEq, Eq)]
pub struct Numbers {
    pub number: u64,
    pub carried: u64,
}

/// The two numbers, and the record (or the length) handed back.
#[repr(C)]
#[derive(Clone, Copy, Debug, PartialEq, Eq)]
pub struct Answer<R> {
    pub number: u64,
    pub carried: u64,
    pub record: R,
}

/// What a reading gives that leaves the body where it stands: the two numbers, the record, and where that is.
#[repr(C)]
#[derive(Clone, Copy, Debug, PartialEq, Eq)]
pub struct HeadAnswer {
    pub number: u64,
    pub carried: u64,
    pub record: Record,
    /// Whether the body is a part of the text: its end, from `start` on. If not, [`read_body`] writes its `record.bodylen` bytes.
    pub in_text: bool,
    pub start: usize,
}

impl HeadAnswer {
    /// The body, where it is a part of the text that was read.
    pub fn body_in(self, text: &[u8]) -> Option<&[u8]> {
        self.in_text.then(|| &text[self.start..][..self.record.bodylen])
    }
}

/// The clause of demand 3, so for [`parse`], that fails first, from 1 to 7, 0 where none does, 9 where nothing is held; and for which entry.
#[repr(C)]
#[derive(Clone, Copy, Debug, PartialEq, Eq)]
pub struct Loss {
    pub clause: usize,
    pub entry: usize,
}

/// A call on a message and one text.
pub type One = fn(Record, &mut [u8], &[u8]) -> Answer<Record>;
/// A call on a message and two texts.
pub type Two = fn(Record, &mut [u8], &[u8], &[u8]) -> Answer<Record>;

// A slice crosses as its place and its length.
extern "C" {
    fn cpim_new(
        content_type: *const u8,
        _: usize,
        body: *const u8,
        _: usize,
        head: *mut u8,
        _: usize,
        store: *mut u8,
        _: usize,
    ) -> Answer<Record>;
    fn cpim_set_body(
        m: Record,
        head: *const u8,
        _: usize,
        store: *mut u8,
        _: usize,
        body: *const u8,
        _: usize,
    ) -> Answer<Record>;
    fn cpim_add_header_obj(
        m: Record,
        head: *mut u8,
        _: usize,
        name: *const u8,
        _: usize,
        h: HeaderRecord,
        store: *const u8,
        _: usize,
    ) -> Answer<Record>;
    fn cpim_header_new(value: *const u8, _: usize, store: *mut u8, _: usize) -> Answer<HeaderRecord>;
    fn cpim_header_with_param(
        h: HeaderRecord,
        store: *mut u8,
        _: usize,
        name: *const u8,
        _: usize,
        value: *const u8,
        _: usize,
    ) -> Answer<HeaderRecord>;
    fn cpim_parse(text: *const u8, _: usize, head: *mut u8, _: usize, body: *mut u8, _: usize) -> Answer<Record>;
    fn cpim_parse_rfc(text: *const u8, _: usize, head: *mut u8, _: usize, body: *mut u8, _: usize) -> Answer<Record>;
    fn cpim_parse_head(text: *const u8, _: usize, head: *mut u8, _: usize) -> HeadAnswer;
    fn cpim_parse_head_rfc(text: *const u8, _: usize, head: *mut u8, _: usize) -> HeadAnswer;
    fn cpim_read_body(text: *const u8, _: usize, buffer: *mut u8, _: usize) -> Answer<usize>;
    fn cpim_to_string(
        m: Record,
        head: *const u8,
        _: usize,
        body: *const u8,
        _: usize,
        out: *mut u8,
        _: usize,
    ) -> Answer<usize>;
    fn cpim_comes_back(m: Record, head: *const u8, _: usize, body: *const u8, _: usize) -> bool;
    fn cpim_comes_back_rfc(m: Record, head: *const u8, _: usize, body: *const u8, _: usize) -> bool;
    fn cpim_loss(m: Record, head: *const u8, _: usize, body: *const u8, _: usize) -> Loss;
    fn cpim_run(script: *const u8, _: usize, m: Record, head: *mut u8, _: usize, body: *mut u8, _: usize) -> Record;
}

// SAFETY of every call below: a slice is passed as its pointer and its length, what is lent to be written overlaps nothing else (the
// borrows say so), and the functions ask for nothing more.

/// Functions on a message and one or two texts.
macro_rules! calls {
    ($($(#[$doc:meta])* $name:ident $export:ident($($text:ident),*))*) => {
        extern "C" {
            $(fn $export(m: Record, head: *mut u8, _: usize, $($text: *const u8, _: usize),*) -> Answer<Record>;)*
        }
        $($(#[$doc])*
        pub fn $name(m: Record, head: &mut [u8], $($text: &[u8]),*) -> Answer<Record> {
            unsafe { $export(m, head.as_mut_ptr(), head.len(), $($text.as_ptr(), $text.len()),*) }
        })*
    };
}

calls! {
    /// Replaces every value of a name.
    set_header cpim_set_header(name, value)
    /// Appends a value to a name's.
    add_header cpim_add_header(name, value)
    add_content_header cpim_add_content_header(name, value)
    with_content_header cpim_with_content_header(name, value)
    with_from cpim_with_from(from)
    with_to cpim_with_to(to)
    with_datetime cpim_with_datetime(datetime)
    with_subject cpim_with_subject(subject)
    with_subject_lang cpim_with_subject_lang(subject, lang)
    with_cc cpim_with_cc(cc)
    with_ns cpim_with_ns(prefix, uri)
    with_require cpim_with_require(feature)
}

/// A message of a type and a body, in `head` and `store`.
pub fn new(content_type: &[u8], body: &[u8], head: &mut [u8], store: &mut [u8]) -> Answer<Record> {
    let (t, b, h, s) = (content_type, body, head, store);
    unsafe { cpim_new(t.as_ptr(), t.len(), b.as_ptr(), b.len(), h.as_mut_ptr(), h.len(), s.as_mut_ptr(), s.len()) }
}

pub fn set_body(m: Record, head: &[u8], store: &mut [u8], body: &[u8]) -> Answer<Record> {
    unsafe { cpim_set_body(m, head.as_ptr(), head.len(), store.as_mut_ptr(), store.len(), body.as_ptr(), body.len()) }
}

/// Appends a header that was built alone.
pub fn add_header_obj(m: Record, head: &mut [u8], name: &[u8], h: HeaderRecord, store: &[u8]) -> Answer<Record> {
    let (n, s) = (name, store);
    unsafe { cpim_add_header_obj(m, head.as_mut_ptr(), head.len(), n.as_ptr(), n.len(), h, s.as_ptr(), s.len()) }
}

pub fn header_new(value: &[u8], store: &mut [u8]) -> Answer<HeaderRecord> {
    unsafe { cpim_header_new(value.as_ptr(), value.len(), store.as_mut_ptr(), store.len()) }
}

pub fn header_with_param(h: HeaderRecord, store: &mut [u8], name: &[u8], value: &[u8]) -> Answer<HeaderRecord> {
    let (s, n, v) = (store, name, value);
    unsafe { cpim_header_with_param(h, s.as_mut_ptr(), s.len(), n.as_ptr(), n.len(), v.as_ptr(), v.len()) }
}

/// A way to read header lines, by its two functions: with a body store, and with the body left where it stands.
#[derive(Clone, Copy)]
pub(crate) struct Reading {
    parse: unsafe extern "C" fn(*const u8, usize, *mut u8, usize, *mut u8, usize) -> Answer<Record>,
    parse_head: unsafe extern "C" fn(*const u8, usize, *mut u8, usize) -> HeadAnswer,
}

impl Reading {
    /// The source's: parameters before the colon.
    pub(crate) const SOURCE: Self = Reading { parse: cpim_parse, parse_head: cpim_parse_head };
    /// The second one: parameters behind the colon, where RFC 3862 puts them.
    pub(crate) const RFC: Self = Reading { parse: cpim_parse_rfc, parse_head: cpim_parse_head_rfc };

    fn parse(self, text: &[u8], head: &mut [u8], body: &mut [u8]) -> Answer<Record> {
        let (t, h, b) = (text, head, body);
        unsafe { (self.parse)(t.as_ptr(), t.len(), h.as_mut_ptr(), h.len(), b.as_mut_ptr(), b.len()) }
    }

    fn parse_head(self, text: &[u8], head: &mut [u8]) -> HeadAnswer {
        unsafe { (self.parse_head)(text.as_ptr(), text.len(), head.as_mut_ptr(), head.len()) }
    }
}

/// `parse_cpim`. A refused reading leaves zeros in both stores.
pub fn parse(text: &[u8], head: &mut [u8], body: &mut [u8]) -> Answer<Record> {
    Reading::SOURCE.parse(text, head, body)
}

/// [`parse`] with parameters where RFC 3862 puts them: the second reading. Only how a header line is read differs; 27 and 28 come by it alone.
pub fn parse_rfc(text: &[u8], head: &mut [u8], body: &mut [u8]) -> Answer<Record> {
    Reading::RFC.parse(text, head, body)
}

/// `parse_cpim` without a body store: record and head store as [`parse`] leaves them, the body where it stands. The same refusals in the same
/// order, but never 26; a refused reading leaves zeros in the store.
pub fn parse_head(text: &[u8], head: &mut [u8]) -> HeadAnswer {
    Reading::SOURCE.parse_head(text, head)
}

/// The second reading without a body store: as [`parse_head`] is to [`parse`].
pub fn parse_head_rfc(text: &[u8], head: &mut [u8]) -> HeadAnswer {
    Reading::RFC.parse_head(text, head)
}

/// The length of a text's body; under LFLF the body is written to the buffer's start.
pub fn read_body(text: &[u8], buffer: &mut [u8]) -> Answer<usize> {
    unsafe { cpim_read_body(text.as_ptr(), text.len(), buffer.as_mut_ptr(), buffer.len()) }
}

/// Writes the message's text to the start of `out` and gives its length. White space at an end of a header value is written as `\u` and four
/// hexadecimal digits, control characters as everywhere.
pub fn to_string(m: Record, head: &[u8], body: &[u8], out: &mut [u8]) -> Answer<usize> {
    let (h, b) = (head, body);
    unsafe { cpim_to_string(m, h.as_ptr(), h.len(), b.as_ptr(), b.len(), out.as_mut_ptr(), out.len()) }
}

/// Whether reading its text by [`parse`], with room for it, gives the message held.
pub fn comes_back(m: Record, head: &[u8], body: &[u8]) -> bool {
    unsafe { cpim_comes_back(m, head.as_ptr(), head.len(), body.as_ptr(), body.len()) }
}

/// The same by [`parse_rfc`].
pub fn comes_back_rfc(m: Record, head: &[u8], body: &[u8]) -> bool {
    unsafe { cpim_comes_back_rfc(m, head.as_ptr(), head.len(), body.as_ptr(), body.len()) }
}

/// Where [`comes_back`] says no: the clause that fails first, and for which entry.
pub fn loss(m: Record, head: &[u8], body: &[u8]) -> Loss {
    unsafe { cpim_loss(m, head.as_ptr(), head.len(), body.as_ptr(), body.len()) }
}

/// A script of changing calls (crates/calls_script/specs/Script.antt), run one behind another.
pub fn run(script: &[u8], m: Record, head: &mut [u8], body: &mut [u8]) -> Record {
    let (s, h, b) = (script, head, body);
    unsafe { cpim_run(s.as_ptr(), s.len(), m, h.as_mut_ptr(), h.len(), b.as_mut_ptr(), b.len()) }
}

/// Bytes of a store that are UTF-8, as a name, a value and a type that is held is.
pub(crate) fn text(bytes: &[u8]) -> &str {
    if bytes.is_ascii() {
        // SAFETY: ASCII is UTF-8. To find that takes a third of the time of the test for UTF-8.
        unsafe { std::str::from_utf8_unchecked(bytes) }
    } else {
        std::str::from_utf8(bytes).expect("what is held is UTF-8")
    }
}
