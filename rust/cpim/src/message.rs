//! A message in stores of its own: what a call answers and does is the proved functions', and where the entries stand too.

use crate::address::address;
use crate::error::{CpimError, Refusal};
use crate::header::{pairs, CpimHeader};
use crate::loss::Loss;
use crate::places::{rows_of, Places};
use crate::raw::{self, text, Answer, Part, Record};
use crate::text::SmolStr;
use std::collections::BTreeMap;
use std::fmt;
use std::sync::OnceLock;

/// The head store that a new message starts with: room for some headers.
const FIRST_HEAD: usize = 512;
/// No message needs more.
pub(crate) const MOST_HEAD: usize = 250_016;

/// A CPIM message containing headers and content.
///
/// CPIM messages are used for instant messaging interoperability and include end-to-end metadata (From, To, DateTime, Subject, etc.) along with
/// the message content.
pub struct CpimMessage {
    record: Record,
    /// The message is in its first `record.need()` bytes, the rest is room.
    head: Vec<u8>,
    /// The body and nothing else.
    body: Vec<u8>,
    views: Views,
}

/// What is made at its first use, and dropped by a change.
#[derive(Default)]
struct Views {
    rows: OnceLock<Vec<usize>>,
    content_type: OnceLock<Part>,
    headers: OnceLock<BTreeMap<SmolStr, Vec<CpimHeader>>>,
    contents: OnceLock<BTreeMap<SmolStr, SmolStr>>,
}

impl CpimMessage {
    /// Creates a new CPIM message with the given content type and body.
    pub fn new(content_type: &str, body: Vec<u8>) -> Result<Self, CpimError> {
        let mut head = vec![0; FIRST_HEAD];
        let record = raw::new(content_type.as_bytes(), &[], &mut head, &mut []).accepted()?;
        let mut m = CpimMessage::of(record, head, Vec::new());
        m.set_body(body)?;
        Ok(m)
    }

    /// Returns message headers.
    pub fn headers(&self) -> &BTreeMap<SmolStr, Vec<CpimHeader>> {
        self.views.headers.get_or_init(|| {
            let mut map = BTreeMap::<SmolStr, Vec<CpimHeader>>::new();
            for entry in self.places().headers() {
                let header = CpimHeader::of(entry);
                match map.get_mut(entry.name()) {
                    Some(values) => values.push(header),
                    None => drop(map.insert(SmolStr::new(entry.name()), vec![header])),
                }
            }
            map
        })
    }

    /// Returns the message content type.
    pub fn content_type(&self) -> &str {
        let place = self.views.content_type.get_or_init(|| raw::content_type(self.record, &self.head));
        text(place.of(&self.head).expect("the type of what is held"))
    }

    /// Returns content headers.
    pub fn content_headers(&self) -> &BTreeMap<SmolStr, SmolStr> {
        self.views.contents.get_or_init(|| pairs(self.places().content_headers().map(|e| (e.name(), e.value()))))
    }

    /// Returns the message body bytes.
    pub fn body(&self) -> &[u8] {
        &self.body
    }

    /// Replaces the message body.
    pub fn set_body(&mut self, body: Vec<u8>) -> Result<(), CpimError> {
        // Asked of the message without its body, and without a body store: 26 says that nothing but room is missing. The vector itself then is
        // the store, for the body of a message is the first `bodylen` bytes of whatever store is lent.
        let bare = Record { bodylen: 0, ..self.record };
        match raw::set_body(bare, &self.head, &mut [], &body).accepted() {
            Ok(_) | Err(Refusal { number: 26, .. }) => {
                self.record.bodylen = body.len();
                self.body = body;
                Ok(())
            }
            Err(refusal) => Err(refusal.into()),
        }
    }

    /// Sets the From header.
    pub fn with_from(self, from: &str) -> Result<Self, CpimError> {
        self.with(raw::with_from, from)
    }

    /// Sets the To header.
    pub fn with_to(self, to: &str) -> Result<Self, CpimError> {
        self.with(raw::with_to, to)
    }

    /// Sets the DateTime header.
    pub fn with_datetime(self, datetime: &str) -> Result<Self, CpimError> {
        self.with(raw::with_datetime, datetime)
    }

    /// Sets the Subject header.
    pub fn with_subject(self, subject: &str) -> Result<Self, CpimError> {
        self.with(raw::with_subject, subject)
    }

    /// Sets the Subject header with a language tag.
    pub fn with_subject_lang(self, subject: &str, lang: &str) -> Result<Self, CpimError> {
        self.with_two(raw::with_subject_lang, subject, lang)
    }

    /// Adds a cc (courtesy copy) recipient.
    pub fn with_cc(self, cc: &str) -> Result<Self, CpimError> {
        self.with(raw::with_cc, cc)
    }

    /// Adds a namespace declaration.
    pub fn with_ns(self, prefix: &str, uri: &str) -> Result<Self, CpimError> {
        self.with_two(raw::with_ns, prefix, uri)
    }

    /// Adds a Require header.
    pub fn with_require(self, feature: &str) -> Result<Self, CpimError> {
        self.with(raw::with_require, feature)
    }

    /// Adds a content header (e.g., Content-ID, Content-Disposition).
    pub fn with_content_header(self, name: &str, value: &str) -> Result<Self, CpimError> {
        self.with_two(raw::with_content_header, name, value)
    }

    /// Adds a content header (e.g., Content-ID, Content-Disposition).
    pub fn add_content_header(&mut self, name: &str, value: &str) -> Result<(), CpimError> {
        self.change(|m, head| raw::add_content_header(m, head, name.as_bytes(), value.as_bytes()))
    }

    /// Sets a header, replacing any existing values.
    pub fn set_header(&mut self, name: &str, value: &str) -> Result<(), CpimError> {
        self.change(|m, head| raw::set_header(m, head, name.as_bytes(), value.as_bytes()))
    }

    /// Adds a header value (allows multiple values for the same header).
    pub fn add_header(&mut self, name: &str, value: &str) -> Result<(), CpimError> {
        self.change(|m, head| raw::add_header(m, head, name.as_bytes(), value.as_bytes()))
    }

    /// Adds a header object.
    pub fn add_header_obj(&mut self, name: &str, header: CpimHeader) -> Result<(), CpimError> {
        self.change(|m, head| raw::add_header_obj(m, head, name.as_bytes(), header.record(), header.store()))
    }

    /// Gets the first value of a header.
    pub fn get_header(&self, name: &str) -> Option<&str> {
        self.places().first(name).map(|e| e.value())
    }

    /// Gets the address in the first value of a header, by the rule of [`address`](crate::address()).
    ///
    /// None where there is no such header, or no address in its first value:
    ///
    /// ```
    /// let mut m = cpim::CpimMessage::new("text/plain", b"Found on line 4".to_vec())?.with_from(r#""Lost < Found" <im:lost@depot>"#)?;
    /// m.add_header("cc", "North depot")?;
    /// m.add_header("cc", "<im:north@depots.example>")?;
    /// assert_eq!(m.address("From"), Some("im:lost@depot"));
    /// assert_eq!((m.address("cc"), m.address("To")), (None, None));
    /// # Ok::<(), cpim::CpimError>(())
    /// ```
    pub fn address(&self, name: &str) -> Option<&str> {
        self.get_header(name).and_then(address)
    }

    /// Gets all values of a header.
    pub fn get_header_values(&self, name: &str) -> Vec<&str> {
        self.places().named(name).map(|e| e.value()).collect()
    }

    /// Gets the message body as a UTF-8 string slice, if valid.
    ///
    /// This is the preferred method as it avoids cloning the body.
    pub fn body_as_str(&self) -> Result<&str, std::str::Utf8Error> {
        std::str::from_utf8(&self.body)
    }

    /// Gets the message body as a UTF-8 String, if valid.
    ///
    /// Note: This clones the body. Prefer `body_as_str()` when possible.
    pub fn body_as_string(&self) -> Option<String> {
        self.body_as_str().ok().map(str::to_owned)
    }

    /// Formats the CPIM message as a string.
    ///
    /// Where the first or last character of a header value is white space and not a control character, it is written as `\u` and four hexadecimal
    /// digits, so that it comes back:
    ///
    /// ```
    /// let m = cpim::CpimMessage::new("text/plain", b"Found on line 4".to_vec())?.with_subject("Black umbrella\u{a0}")?;
    /// let text = m.to_string()?;
    /// assert!(text.contains("\r\nSubject: Black umbrella\\u00a0\r\n"));
    /// assert!(m.comes_back());
    /// assert_eq!(cpim::parse_cpim(&text)?.get_header("Subject"), Some("Black umbrella\u{a0}"));
    /// # Ok::<(), cpim::CpimError>(())
    /// ```
    pub fn to_string(&self) -> Result<String, CpimError> {
        // A header or content header is written in fewer bytes than it is stored in, unless much of it is escaped; the rest is 50 bytes, the
        // type and the body, unless that is not UTF-8. Where more is needed, 26 says how much.
        let m = self.record;
        let mut room = 50 + m.typelen + m.headerlen + m.contentlen + m.bodylen;
        loop {
            let (answer, text) = raw::to_new_string(m, &self.head, &self.body, room);
            match answer.accepted() {
                Ok(_) => return Ok(text),
                Err(Refusal { number: 26, carried }) if carried as usize > room => room = carried as usize,
                Err(refusal) => return Err(refusal.into()),
            }
        }
    }

    /// Whether reading the message's text by [`parse_cpim`](crate::parse_cpim) gives this very message. Proved: yes exactly when it does. The ends of
    /// header values play no part in it.
    pub fn comes_back(&self) -> bool {
        raw::comes_back(self.record, &self.head, &self.body)
    }

    /// Whether reading the message's text by [`parse_cpim_rfc`](crate::parse_cpim_rfc) gives this very message. Proved: yes exactly when it does.
    ///
    /// Parameters come back where none of their names and values holds a space (U+0020), and header names whatever their ends are. All else is asked
    /// for as by [`comes_back`](Self::comes_back), so yes there is yes here:
    ///
    /// ```
    /// use cpim::{parse_cpim_rfc, CpimHeader, CpimMessage};
    ///
    /// let notice = |depot| {
    ///     let umbrella = CpimHeader::new("Black umbrella")?.with_param("depot", depot)?;
    ///     let mut m = CpimMessage::new("text/plain", b"Found on line 4".to_vec())?;
    ///     m.add_header_obj("Subject", umbrella)?;
    ///     Ok::<_, cpim::CpimError>(m)
    /// };
    /// assert!(notice("north")?.comes_back_rfc());
    ///
    /// // Parameters end at the first space.
    /// let two_words = notice("north yard")?;
    /// assert!(!two_words.comes_back_rfc());
    /// assert_eq!(parse_cpim_rfc(&two_words.to_string()?)?.get_header("Subject"), Some("yard Black umbrella"));
    /// # Ok::<(), cpim::CpimError>(())
    /// ```
    pub fn comes_back_rfc(&self) -> bool {
        raw::comes_back_rfc(self.record, &self.head, &self.body)
    }

    /// What is lost first where [`comes_back`](Self::comes_back) says no.
    pub fn loss(&self) -> Option<Loss<'_>> {
        Loss::of(self.record, &self.head, &self.body)
    }

    /// What record and stores hold; the body has its store to itself.
    pub(crate) fn of(record: Record, head: Vec<u8>, body: Vec<u8>) -> Self {
        CpimMessage { record, head, body, views: Views::default() }
    }

    fn places(&self) -> Places<'_> {
        let rows = self.views.rows.get_or_init(|| rows_of(self.record, &self.head));
        Places::known(self.record, &self.head, rows)
    }

    /// A changing call; the head store grows as far as the call asks for, at least to the double.
    fn change(&mut self, call: impl Fn(Record, &mut [u8]) -> Answer<Record>) -> Result<(), CpimError> {
        loop {
            let room = self.head.len();
            match call(self.record, &mut self.head).accepted() {
                Ok(record) => {
                    self.record = record;
                    self.views = Views::default();
                    return Ok(());
                }
                Err(Refusal { number: 25, carried }) if carried as usize > room => {
                    self.head.resize((2 * room).min(MOST_HEAD).max(carried as usize), 0);
                }
                Err(refusal) => return Err(refusal.into()),
            }
        }
    }

    fn with(mut self, call: raw::One, value: &str) -> Result<Self, CpimError> {
        self.change(|m, head| call(m, head, value.as_bytes()))?;
        Ok(self)
    }

    fn with_two(mut self, call: raw::Two, first: &str, second: &str) -> Result<Self, CpimError> {
        self.change(|m, head| call(m, head, first.as_bytes(), second.as_bytes()))?;
        Ok(self)
    }

    fn held(&self) -> &[u8] {
        &self.head[..self.record.need()]
    }
}

impl Clone for CpimMessage {
    fn clone(&self) -> Self {
        CpimMessage::of(self.record, self.held().to_vec(), self.body.clone())
    }
}

/// The bytes are a function of the message.
impl PartialEq for CpimMessage {
    fn eq(&self, other: &Self) -> bool {
        self.record == other.record && self.held() == other.held() && self.body == other.body
    }
}

impl fmt::Debug for CpimMessage {
    fn fmt(&self, f: &mut fmt::Formatter<'_>) -> fmt::Result {
        f.debug_struct("CpimMessage")
            .field("headers", self.headers())
            .field("content_type", &self.content_type())
            .field("content_headers", self.content_headers())
            .field("body", &self.body)
            .finish()
    }
}

/// The text of [`to_string`](CpimMessage::to_string).
impl fmt::Display for CpimMessage {
    fn fmt(&self, f: &mut fmt::Formatter<'_>) -> fmt::Result {
        f.write_str(&self.to_string().map_err(|_| fmt::Error)?)
    }
}
