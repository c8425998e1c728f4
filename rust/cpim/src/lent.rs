//! Messages and headers in stores that the caller lends: nothing is allocated, no byte is copied that need not be. Texts and arguments are
//! any bytes.
//!
//! A head store takes 256 bytes, and 16 and its name and value for each header, parameter and content header; never more than 250,016. A
//! store that is too short is refused by 25 (26 for a body store or an output) carrying the bytes needed, and nothing is changed; a refused
//! reading alone leaves zeros.
//!
//! ```
//! use cpim::lent::Message;
//!
//! let (mut head, mut body, mut out) = ([0; 600], [0; 100], [0; 600]);
//! let text = b"Content-type: Message/CPIM\r\n\r\nFrom: <im:a@b>\r\n\r\nContent-type: text/plain\r\n\r\nHi";
//! let mut m = Message::parse(text, &mut head, &mut body)?;
//! m.set_header(b"Subject", b"Umbrella")?;
//! assert_eq!(m.get_header("From"), Some("<im:a@b>"));
//! let len = m.write(&mut out)?;
//! assert!(out[..len].ends_with(b"Subject: Umbrella\r\n\r\nContent-type: text/plain\r\n\r\nHi"));
//!
//! let refused = Message::parse(text, &mut [0; 255], &mut []).err().unwrap();
//! assert_eq!(refused.to_string(), "25: head or header store too short (256 bytes needed)");
//! # Ok::<(), cpim::Refusal>(())
//! ```
//!
//! The body of a text with CRLFCRLF is a part of it, so [`Message::parse_in_place`] leaves it there: no byte of it is copied. One with LFLF is
//! written to a buffer, since its blank lines become CRLFCRLF.
//!
//! ```
//! # use cpim::lent::Message;
//! let (mut head, mut buffer) = ([0; 600], [0; 100]);
//! let text = b"Content-type: Message/CPIM\r\n\r\nFrom: <im:a@b>\r\n\r\nContent-type: text/plain\r\n\r\nHi";
//! let mut m = Message::parse_in_place(text, &mut head, &mut buffer)?;
//! assert_eq!(m.body().as_ptr(), text[text.len() - 2..].as_ptr());
//! m.set_header(b"Subject", b"Umbrella")?;
//! assert_eq!((m.get_header("Subject"), m.body_as_str()), (Some("Umbrella"), Some("Hi")));
//! # Ok::<(), cpim::Refusal>(())
//! ```
//!
//! Parameters are written behind the colon, as RFC 3862 has them, and the second reading ([`parse_cpim_rfc`](crate::parse_cpim_rfc) tells of it)
//! finds them there. [`Message::parse_rfc`] and [`Message::parse_in_place_rfc`] read so.
//!
//! ```
//! use cpim::lent::{Header, Message};
//!
//! let (mut head, mut body, mut store, mut out) = ([0; 600], [0; 100], [0; 100], [0; 600]);
//! let mut umbrella = Header::new(b"Black umbrella", &mut store)?;
//! umbrella.with_param(b"depot", b"north")?;
//! let mut m = Message::new(b"text/plain", b"Found on line 4", &mut head, &mut body)?;
//! m.add_header_obj(b"Subject", &umbrella)?;
//! assert_eq!((m.comes_back(), m.comes_back_rfc()), (false, true));
//! let len = m.write(&mut out)?;
//! assert!(out[..len].starts_with(b"Content-type: Message/CPIM\r\n\r\nSubject:;depot=north Black umbrella\r\n"));
//!
//! let m = Message::parse_rfc(&out[..len], &mut head, &mut body)?;
//! assert_eq!((m.get_header("Subject"), m.nth_param("Subject", 0, 0)), (Some("Black umbrella"), Some(("depot", "north"))));
//! # Ok::<(), cpim::Refusal>(())
//! ```

pub use crate::address::address;
pub use crate::places::{Entries, Entry, Places, MOST};
pub use crate::raw::{HeaderRecord, Record};

use crate::error::Refusal;
use crate::loss::Loss;
use crate::raw::{self, text, HeadAnswer, Pair};
use std::fmt;

/// A message in lent stores. Its body stands in a store that may be written, or, where `B` is `&[u8]`, as it was found by
/// [`parse_in_place`](Message::parse_in_place) or [`parse_in_place_rfc`](Message::parse_in_place_rfc).
pub struct Message<'a, B = &'a mut [u8]> {
    record: Record,
    head: &'a mut [u8],
    body: B,
}

/// The changing calls on one or two texts.
macro_rules! changing {
    ($($name:ident($($text:ident),*))*) => {
        $(pub fn $name(&mut self, $($text: &[u8]),*) -> Result<(), Refusal> {
            self.record = raw::$name(self.record, self.head, $($text),*).accepted()?;
            Ok(())
        })*
    };
}

impl<'a> Message<'a> {
    /// Reads a text. A refused reading leaves zeros in both stores.
    pub fn parse(text: &[u8], head: &'a mut [u8], body: &'a mut [u8]) -> Result<Self, Refusal> {
        let record = raw::parse(text, head, body).accepted()?;
        Ok(Message { record, head, body })
    }

    /// Reads a text by the second reading: as [`parse`](Message::parse), with parameters where RFC 3862 puts them.
    pub fn parse_rfc(text: &[u8], head: &'a mut [u8], body: &'a mut [u8]) -> Result<Self, Refusal> {
        let record = raw::parse_rfc(text, head, body).accepted()?;
        Ok(Message { record, head, body })
    }

    /// A message of a type and a body, which is copied into its store.
    pub fn new(content_type: &[u8], body: &[u8], head: &'a mut [u8], store: &'a mut [u8]) -> Result<Self, Refusal> {
        let record = raw::new(content_type, body, head, store).accepted()?;
        Ok(Message { record, head, body: store })
    }

    /// What stores hold by a record that [`record`](Self::record) gave before. They are judged in full: 25 carrying 0 where they hold nothing.
    pub fn held(record: Record, head: &'a mut [u8], body: &'a mut [u8]) -> Result<Self, Refusal> {
        judged(record, head, body)?;
        Ok(Message { record, head, body })
    }

    pub fn set_body(&mut self, body: &[u8]) -> Result<(), Refusal> {
        self.record = raw::set_body(self.record, self.head, self.body, body).accepted()?;
        Ok(())
    }

    /// Runs a script of changing calls (crates/calls_script/specs/Script.antt) up to its first place where no whole call stands.
    pub fn run(&mut self, script: &[u8]) {
        self.record = raw::run(script, self.record, self.head, self.body);
    }
}

impl<'a, 'b> Message<'a, &'b [u8]> {
    /// Reads a text and leaves the body in it. Where the text has LFLF for its separator, the body is written to the buffer's start, and 26 carries
    /// its length where the buffer is too short; [`parse`](Message::parse) is the faster call for such a text, since it judges it once. A refused
    /// reading leaves zeros in the head store.
    pub fn parse_in_place(text: &'b [u8], head: &'a mut [u8], buffer: &'b mut [u8]) -> Result<Self, Refusal> {
        Self::in_place(raw::parse_head, text, head, buffer)
    }

    /// Reads a text by the second reading and leaves the body in it: as [`parse_in_place`](Message::parse_in_place), with parameters where RFC 3862
    /// puts them.
    ///
    /// ```
    /// # use cpim::lent::Message;
    /// let (mut head, mut buffer) = ([0; 600], [0; 100]);
    /// let text = b"Content-type: Message/CPIM\r\n\r\nSubject:;depot=north Umbrella\r\n\r\nContent-type: text/plain\r\n\r\nHi";
    /// let m = Message::parse_in_place_rfc(text, &mut head, &mut buffer)?;
    /// assert_eq!((m.nth_param("Subject", 0, 0), m.body_in_place()), (Some(("depot", "north")), &text[text.len() - 2..]));
    /// # Ok::<(), cpim::Refusal>(())
    /// ```
    pub fn parse_in_place_rfc(text: &'b [u8], head: &'a mut [u8], buffer: &'b mut [u8]) -> Result<Self, Refusal> {
        Self::in_place(raw::parse_head_rfc, text, head, buffer)
    }

    fn in_place(
        parse_head: fn(&[u8], &mut [u8]) -> HeadAnswer,
        text: &'b [u8],
        head: &'a mut [u8],
        buffer: &'b mut [u8],
    ) -> Result<Self, Refusal> {
        let answer = parse_head(text, head).accepted()?;
        let body = match answer.body_in(text) {
            Some(body) => body,
            None => match raw::read_body(text, buffer).accepted() {
                Ok(len) => &buffer[..len],
                Err(refusal) => {
                    head.fill(0);
                    return Err(refusal);
                }
            },
        };
        Ok(Message { record: answer.record, head, body })
    }

    /// The body where it stands, for as long as the text and the buffer are lent: it outlives the message, and the head store may be used again.
    pub fn body_in_place(&self) -> &'b [u8] {
        &self.body[..self.record.bodylen]
    }

    /// As [`held`](Message::held), with a body that is not to be written.
    pub fn held_in_place(record: Record, head: &'a mut [u8], body: &'b [u8]) -> Result<Self, Refusal> {
        judged(record, head, body)?;
        Ok(Message { record, head, body })
    }
}

fn judged(record: Record, head: &[u8], body: &[u8]) -> Result<(), Refusal> {
    match raw::loss(record, head, body).clause {
        9 => Err(Refusal { number: 25, carried: 0 }),
        _ => Ok(()),
    }
}

impl<B: AsRef<[u8]>> Message<'_, B> {
    /// What to keep beside the stores.
    pub fn record(&self) -> Record {
        self.record
    }

    pub fn add_header_obj(&mut self, name: &[u8], header: &Header<'_>) -> Result<(), Refusal> {
        self.record = raw::add_header_obj(self.record, self.head, name, header.record, header.store).accepted()?;
        Ok(())
    }

    changing! {
        set_header(name, value)
        add_header(name, value)
        add_content_header(name, value)
        with_content_header(name, value)
        with_from(from)
        with_to(to)
        with_datetime(datetime)
        with_subject(subject)
        with_subject_lang(subject, lang)
        with_cc(cc)
        with_ns(prefix, uri)
        with_require(feature)
    }

    /// Writes the message's text to the start of `out` and gives its length. Where `out` is too short, 26 carries that length. The ends of header values
    /// are written as by [`CpimMessage::to_string`](crate::CpimMessage::to_string).
    pub fn write(&self, out: &mut [u8]) -> Result<usize, Refusal> {
        raw::to_string(self.record, self.head, self.body.as_ref(), out).accepted()
    }

    /// Whether reading the message's text by [`parse`](Message::parse) gives this very message.
    pub fn comes_back(&self) -> bool {
        raw::comes_back(self.record, self.head, self.body.as_ref())
    }

    /// Whether reading the message's text by [`parse_rfc`](Message::parse_rfc) gives this very message: see
    /// [`CpimMessage::comes_back_rfc`](crate::CpimMessage::comes_back_rfc).
    pub fn comes_back_rfc(&self) -> bool {
        raw::comes_back_rfc(self.record, self.head, self.body.as_ref())
    }

    /// What is lost first where [`comes_back`](Self::comes_back) says no.
    pub fn loss(&self) -> Option<Loss<'_>> {
        Loss::of(self.record, self.head, self.body.as_ref())
    }

    pub fn content_type(&self) -> &str {
        text(raw::content_type(self.record, self.head).of(self.head).expect("the type of what is held"))
    }

    pub fn body(&self) -> &[u8] {
        let body = self.body.as_ref();
        raw::body(self.record, self.head, body).of(body).expect("the body of what is held")
    }

    /// The body as a text, if it is one.
    pub fn body_as_str(&self) -> Option<&str> {
        raw::body_as_str(self.record, self.head, self.body.as_ref()).then(|| text(self.body()))
    }

    /// Where its headers and content headers stand; `rows` of [`MOST`] numbers are always enough. 26 carries the bytes needed, 8 for
    /// each number.
    pub fn places<'b>(&'b self, rows: &'b mut [usize]) -> Result<Places<'b>, Refusal> {
        Places::find(self.record, self.head, rows)
    }

    /// The first value of a name. Each lookup judges what is held anew: for more than a few see [`places`](Self::places).
    pub fn get_header(&self, name: &str) -> Option<&str> {
        raw::get_header(self.record, self.head, name.as_bytes()).of(self.head).map(text)
    }

    /// The address in the first value of a name, by the rule of [`address`].
    ///
    /// ```
    /// # use cpim::lent::Message;
    /// let (mut head, mut body) = ([0; 600], [0; 100]);
    /// let mut m = Message::new(b"text/plain", b"Found on line 4", &mut head, &mut body)?;
    /// m.with_from(br#""Lost < Found" <im:lost@depot>"#)?;
    /// assert_eq!((m.address("From"), m.address("To")), (Some("im:lost@depot"), None));
    /// # Ok::<(), cpim::Refusal>(())
    /// ```
    pub fn address(&self, name: &str) -> Option<&str> {
        self.get_header(name).and_then(address)
    }

    /// The n-th value of a name, counting from 0.
    pub fn nth_header(&self, name: &str, n: usize) -> Option<&str> {
        raw::get_header_value(self.record, self.head, name.as_bytes(), n).of(self.head).map(text)
    }

    /// Name and value of the n-th parameter of the k-th value of a name.
    pub fn nth_param(&self, name: &str, k: usize, n: usize) -> Option<(&str, &str)> {
        texts(raw::get_param(self.record, self.head, name.as_bytes(), k, n), self.head)
    }

    /// Name and value of the n-th content header.
    pub fn nth_content_header(&self, n: usize) -> Option<(&str, &str)> {
        texts(raw::content_header(self.record, self.head, n), self.head)
    }
}

/// Name and value of an entry that was found.
fn texts(pair: Pair, store: &[u8]) -> Option<(&str, &str)> {
    pair.of(store).map(|(name, value)| (text(name), text(value)))
}

/// A header alone in a lent store, which takes 16 bytes and its value, and 16 and name and value for each parameter.
pub struct Header<'a> {
    record: HeaderRecord,
    store: &'a mut [u8],
}

impl<'a> Header<'a> {
    pub fn new(value: &[u8], store: &'a mut [u8]) -> Result<Self, Refusal> {
        let record = raw::header_new(value, store).accepted()?;
        Ok(Header { record, store })
    }

    pub fn with_param(&mut self, name: &[u8], value: &[u8]) -> Result<(), Refusal> {
        self.record = raw::header_with_param(self.record, self.store, name, value).accepted()?;
        Ok(())
    }

    pub fn value(&self) -> &str {
        text(raw::header_value(self.record, self.store).of(self.store).expect("a header"))
    }

    /// Names and values of its parameters in map order.
    pub fn params(&self) -> impl Iterator<Item = (&str, &str)> {
        (0..self.record.params).filter_map(|n| texts(raw::header_param(self.record, self.store, n), self.store))
    }
}

/// The body of a text without a store for it: a part of the text, or, where the text has LFLF for its separator, the start of the buffer, to
/// which it is written.
pub fn body_of<'a>(text: &'a [u8], buffer: &'a mut [u8]) -> Result<&'a [u8], Refusal> {
    let len = raw::read_body(text, buffer).accepted()?;
    Ok(raw::body_part(text, buffer, len).of(text, buffer))
}

impl<B> fmt::Debug for Message<'_, B> {
    fn fmt(&self, f: &mut fmt::Formatter<'_>) -> fmt::Result {
        f.debug_struct("Message").field("record", &self.record).finish_non_exhaustive()
    }
}

impl fmt::Debug for Header<'_> {
    fn fmt(&self, f: &mut fmt::Formatter<'_>) -> fmt::Result {
        f.debug_struct("Header").field("record", &self.record).finish_non_exhaustive()
    }
}
