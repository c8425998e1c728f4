//! The body of a text whose separator is LFLF, by every call that reads one: the sections from the fourth, joined by CRLFCRLF. What is due comes from
//! `split` and `join` of the standard library, and the source has to read the same.

use beside::layout::{layout, record};
use beside::manner::MANNERS;
use beside::refusals::{number, Refusal};
use beside::sections::{CRLFCRLF, LFLF};
use beside::store::Store;
use cpim::raw::{self, Answer, BodyPlace, HeadAnswer, Record};
use cpim::CpimError;
use source::cpim::{parse_cpim, CpimMessage};

/// Three sections that both readings read alike, each with LFLF behind it. Of three LF in a row the first two are the separator, so a body may begin
/// with LF.
const START: &str = "Content-type: Message/CPIM\n\nSubject: Hi\nTo: a\n\nContent-type: text/plain\nContent-ID: 7\n\n";
const MOST_BODY: usize = 10_485_760;
/// Room to spare in a head store.
const HEAD: usize = 400;

/// A store, and 64 bytes behind it that are watched too, full of bytes that are not 0 and in no body here: one that is written or zeroed shows.
fn store(len: usize) -> Store {
    let mut store = Store::new(len);
    store.put(0, &b"0123456789".repeat(len / 10 + 8)[..len + 64]);
    store
}

/// The start of a text. The first 200 bytes of a longer one are ASCII.
fn shown(text: &str) -> String {
    format!("{} bytes: {:?}", text.len(), &text[..text.len().min(200)])
}

/// A text and what has to be read of it.
struct Case {
    text: String,
    body: String,
    in_text: bool,
    source: Result<CpimMessage, Refusal>,
}

impl Case {
    fn new(text: String, body: String, in_text: bool) -> Self {
        assert_eq!(text.contains(CRLFCRLF), in_text, "the separator of {}", shown(&text));
        let source = parse_cpim(&text).map_err(number);
        let due = if body.len() > MOST_BODY { Err((23, body.len() as u64)) } else { Ok(body.as_bytes()) };
        assert!(source.as_ref().map(CpimMessage::body).map_err(|e| *e) == due, "by the source, {}", shown(&text));
        Case { text, body, in_text, source }
    }

    /// A text whose sections from the fourth on are these.
    fn joined(start: &str, sections: &str) -> Self {
        let body = sections.split(LFLF).collect::<Vec<_>>().join(CRLFCRLF);
        Case::new([start, sections].concat(), body, false)
    }

    /// What is answered with this much room for the body. 23 comes before 26, and both carry the whole length.
    fn due(&self, room: usize) -> Answer<Record> {
        let refused = |number| Answer { number, carried: self.body.len() as u64, record: Record::default() };
        match &self.source {
            Err(_) => refused(23),
            Ok(_) if room < self.body.len() => refused(26),
            Ok(m) => Answer { number: 0, carried: 0, record: record(m) },
        }
    }

    /// Where the body stands behind an answer of this number.
    fn place(&self, number: u64) -> BodyPlace {
        let length = if number == 0 { self.body.len() } else { 0 };
        let in_text = number == 0 && self.in_text;
        BodyPlace { in_text, start: if in_text { self.text.len() - length } else { 0 }, length }
    }

    /// Every call, with each of these lengths for the body store and the buffer.
    fn check(&self, rooms: impl IntoIterator<Item = usize>) {
        self.read_by_the_crate();
        self.read_head();
        for room in rooms {
            self.read(room);
            self.read_body(room);
        }
    }

    /// `cpim_parse` and `cpim_parse_rfc`. Refused, both stores are zeros.
    fn read(&self, room: usize) {
        let due = self.due(room);
        for manner in MANNERS {
            let with = format!("{manner:?}, a body store of {room} bytes, {}", shown(&self.text));
            let (mut head, mut body) = (store(HEAD), store(room));
            assert_eq!(manner.read(self.text.as_bytes(), head.lent(HEAD), body.lent(room)), due, "{with}");
            match due.number {
                0 => body.must(self.body.as_bytes()),
                _ => body.must_be_zero(room),
            }
            assert_eq!(body.differences(room), None, "the body store, {with}");
            self.head_holds(head, due.number, &with);
        }
    }

    /// `parse_cpim` and `parse_cpim_rfc` of the gateway's crate, which makes its own stores.
    fn read_by_the_crate(&self) {
        let due = self.due(usize::MAX);
        for parse in [cpim::parse_cpim, cpim::parse_cpim_rfc] {
            let with = format!("by the gateway's crate, {}", shown(&self.text));
            match parse(&self.text) {
                Ok(m) => {
                    let there = self.source.as_ref().expect(&with);
                    assert!(m.body() == self.body.as_bytes(), "{with}");
                    assert_eq!(m.content_type(), there.content_type(), "{with}");
                    assert_eq!(m.to_string().expect(&with), there.to_string().expect(&with), "{with}");
                }
                Err(CpimError::BodyTooLarge { actual, .. }) => {
                    assert_eq!((due.number, due.carried), (23, actual as u64), "{with}");
                }
                Err(other) => panic!("{other}, {with}"),
            }
        }
    }

    /// `cpim_parse_head` and `cpim_parse_head_rfc`, by which 26 never comes.
    fn read_head(&self) {
        let Answer { number, carried, record } = self.due(usize::MAX);
        let BodyPlace { in_text, start, .. } = self.place(number);
        for manner in MANNERS {
            let with = format!("{manner:?}, the body left in its place, {}", shown(&self.text));
            let mut head = store(HEAD);
            let got = manner.read_head(self.text.as_bytes(), head.lent(HEAD));
            assert_eq!(got, HeadAnswer { number, carried, record, in_text, start }, "{with}");
            self.head_holds(head, number, &with);
        }
    }

    /// The message, and behind it anything; refused, zeros.
    fn head_holds(&self, mut head: Store, number: u64, with: &str) {
        match &self.source {
            Ok(m) if number == 0 => {
                let message = layout(m);
                head.must(&message);
                head.free(message.len(), HEAD);
            }
            _ => head.must_be_zero(HEAD),
        }
        assert_eq!(head.differences(HEAD), None, "the head store, {with}");
    }

    /// `cpim_read_body` and `cpim_body_part`. Under CRLFCRLF the buffer is not used, and refused it is as it was, whatever would have fitted.
    fn read_body(&self, room: usize) {
        let with = format!("a buffer of {room} bytes, {}", shown(&self.text));
        let (text, mut buffer) = (self.text.as_bytes(), store(room));
        let Answer { number, carried, .. } = self.due(if self.in_text { usize::MAX } else { room });
        let place = self.place(number);
        let got = raw::read_body(text, buffer.lent(room));
        assert_eq!(got, Answer { number, carried, record: place.length }, "{with}");
        if number == 0 && !self.in_text {
            buffer.must(self.body.as_bytes());
        }
        assert_eq!(buffer.differences(room), None, "the buffer, {with}");
        let part = raw::body_part(text, buffer.bytes(room), self.body.len());
        assert_eq!(part, place, "the second call, {with}");
        assert!(number != 0 || part.of(text, buffer.bytes(room)) == self.body.as_bytes(), "its part, {with}");
    }
}

/// Wherever the room ends, in a section or in CRLFCRLF, 26 carries the whole length.
#[test]
fn sections_joined() {
    for (sections, body, len) in [
        ("", "", 0),
        ("a", "a", 1),
        ("\n", "\n", 1),
        ("a\nb", "a\nb", 3),
        ("a\n\nb", "a\r\n\r\nb", 6),
        ("a\n\n", "a\r\n\r\n", 5),
        ("\n\nb", "\r\n\r\nb", 5),
        ("\n\n", "\r\n\r\n", 4),
        // Of three the first two are the separator.
        ("\n\n\n", "\r\n\r\n\n", 5),
        ("a\n\n\nb", "a\r\n\r\n\nb", 7),
        ("\n\n\n\n", "\r\n\r\n\r\n\r\n", 8),
        ("aaa\n\nbb\n\nc", "aaa\r\n\r\nbb\r\n\r\nc", 14),
        ("ü\n\n€", "ü\r\n\r\n€", 9),
    ] {
        let case = Case::joined(START, sections);
        assert_eq!((case.body.as_str(), case.body.len()), (body, len));
        case.check(0..=len + 1);
    }
}

#[test]
fn every_short_body() {
    for len in 0..=12 {
        for bits in 0..1 << len {
            let sections: String = (0..len).map(|k| if bits >> k & 1 == 0 { '\n' } else { 'a' }).collect();
            let case = Case::joined(START, &sections);
            let len = case.body.len();
            case.check([len + 1, len, len.saturating_sub(1), len / 2]);
        }
    }
}

/// Up to more bytes than the blocks have in which they are searched and copied.
#[test]
fn sections_of_any_length() {
    for a in (0..=130).map(|len| "a".repeat(len)) {
        for sections in [format!("{a}\n\nb"), format!("b\n\n{a}"), format!("{a}\n{a}\n\n\n{a}\n")] {
            let case = Case::joined(START, &sections);
            let len = case.body.len();
            case.check([len, len + 1, len - 1, len / 2, a.len() + 2]);
        }
    }
}

/// The limit is for the joined body, which is longer than what stands in the text.
#[test]
fn the_longest_body() {
    let (half, line) = ("a".repeat(MOST_BODY / 2 - 4) + LFLF, "a".repeat(60) + LFLF);
    for sections in [half.repeat(2), line.repeat(MOST_BODY / 64)] {
        let longest = Case::joined(START, &sections);
        assert_eq!((longest.due(10_485_760).number, longest.due(10_485_759).carried), (0, 10_485_760));
        longest.check([10_485_760, 10_485_759]);
        let longer = Case::joined(START, &(sections + "b"));
        assert_eq!((longer.due(10_485_760).number, longer.due(10_485_761).carried), (23, 10_485_761));
        longer.check([10_485_761, 10_485_760, 0]);
    }
}

/// CRLF ends lines in every section, CRLFCRLF stands nowhere, and CR may end a section.
#[test]
fn crlf_within_sections() {
    let start = "Content-type: Message/CPIM\r\na: b\n\nSubject: Hi\r\nTo: a\n\nContent-type: text/plain\r\nb: c\n\n";
    for (sections, len) in
        [("a\r\nb", 4), ("a\r\nb\n\nc\r\nd", 12), ("\r\n\nb", 6), ("a\n\n\r\n", 7), ("\r\n\n\r\n", 7), ("a\n\r\nb", 5)]
    {
        let case = Case::joined(start, sections);
        assert_eq!(case.body.len(), len);
        case.check(0..=len + 1);
    }
}

/// Where CRLFCRLF is the separator, LFLF stays what it is: the body is the end of the text.
#[test]
fn lflf_in_a_crlf_body() {
    for body in ["a\n\nb", "\n\n", "\n\n\n", "a\n\nb\r\n\r\nc\n\n", "\r\n\r\n\n\n"] {
        let case = Case::new(START.replace('\n', "\r\n") + body, body.to_string(), true);
        case.check(0..=body.len() + 1);
    }
}

/// The gateway's crate goes by the line ends in the first 128 bytes, to take the faster way. What is read does not depend on it.
#[test]
fn the_first_section_of_any_length() {
    let (first, others) = START.split_once(LFLF).expect("a first section");
    for len in [0, 1, 64, 1_000].into_iter().chain(120 - first.len()..132 - first.len()) {
        for line_end in ["\n", "\r\n"] {
            let longer = [first, line_end, &"a".repeat(len)].concat();
            for body in ["", "a\n\nb", "\n\n\n\n\n"] {
                let case = Case::joined(&[longer.as_str(), LFLF, others].concat(), body);
                let len = case.body.len();
                case.check([len, len + 1, len.saturating_sub(1)]);
            }
        }
        // CRLFCRLF behind LFLF, which is then a part of the first section.
        for first in [[first, LFLF, &"a".repeat(len)].concat(), [first, "\r\n", &"a".repeat(len)].concat()] {
            let start = [first.as_str(), CRLFCRLF, &others.replace('\n', "\r\n")].concat();
            Case::new(start + "a\n\nb", "a\n\nb".to_string(), true).check(3..=5);
        }
    }
}
