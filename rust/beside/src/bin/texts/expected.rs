//! What a reading must answer, reckoned from the source, or from the request where the second reading departs from it: the answer with room for
//! everything, and the room needed at each line.

use beside::layout::{need, need_alone};
use beside::manner::Manner;
use beside::refusals::{text, Refusal};
use beside::rfc::Named;
use beside::sections::{lines, separator, CRLFCRLF, LFLF};
use cpim::raw::BodyPlace;
use source::cpim::CpimMessage;
use std::collections::BTreeMap;

pub const MOST_TEXT: usize = 20_971_520;
pub const MOST_BODY: usize = 10_485_760;

pub struct Reading {
    pub manner: Manner,
    /// What the source answers, or the request; 1 and 24 come before it.
    pub answer: Result<CpimMessage, Refusal>,
    /// What each header line is read as, up to the first that is refused.
    pub lines: Vec<Result<Named, Refusal>>,
    /// The room needed at the start and after each line that needs more than all before; none where no line is read.
    pub peaks: Vec<usize>,
    /// The body without a store; `joined` where it is written to the buffer.
    pub body: Result<Vec<u8>, Refusal>,
    pub joined: bool,
}

impl Reading {
    pub fn of(manner: Manner, bytes: &[u8]) -> Self {
        let refused =
            |e| Reading { manner, answer: Err(e), lines: Vec::new(), peaks: Vec::new(), body: Err(e), joined: false };
        if bytes.len() > MOST_TEXT {
            return refused((1, bytes.len() as u64));
        }
        let input = match text(bytes) {
            Ok(input) => input,
            Err(e) => return refused(e),
        };
        let separator = separator(input);
        let answer = manner.parse(input);
        let sections: Vec<&str> = input.splitn(4, separator).collect();
        let [_, headers, contents, rest] = sections[..] else { return refused(answer.unwrap_err()) };
        let body = rest.split(separator).collect::<Vec<_>>().join(CRLFCRLF).into_bytes();
        let (mut lines, mut peaks) = (Vec::new(), Vec::new());
        if answer.as_ref().err() != Some(&(3, 0)) {
            let mut room = Room { need: 256, peaks: vec![256], headers: Vec::new(), contents: BTreeMap::new() };
            let stopped = room.lines(manner, headers, contents).err();
            room.agrees(&answer, stopped, &body);
            (lines, peaks) = (room.headers, room.peaks);
        }
        let body = if body.len() > MOST_BODY { Err((23, body.len() as u64)) } else { Ok(body) };
        Reading { manner, answer, lines, peaks, body, joined: separator == LFLF }
    }

    /// What must be answered with stores of these lengths.
    pub fn with(&self, head: usize, body: usize) -> Result<&CpimMessage, Refusal> {
        if let Some(peak) = self.peaks.iter().find(|peak| **peak > head) {
            return Err((25, *peak as u64));
        }
        let m = self.answer.as_ref().map_err(|e| *e)?;
        if m.body().len() > body {
            return Err((26, m.body().len() as u64));
        }
        Ok(m)
    }

    /// What the body without a store must be.
    pub fn body_with(&self, buffer: usize) -> Result<&[u8], Refusal> {
        let body = self.body.as_ref().map_err(|e| *e)?;
        if self.joined && body.len() > buffer {
            return Err((26, body.len() as u64));
        }
        Ok(body)
    }

    /// What the second call must give for a text with a buffer and a length: whether it stands in the text, where, and its bytes.
    pub fn part<'a>(&'a self, text: &[u8], buffer: &'a [u8], length: usize) -> (BodyPlace, &'a [u8]) {
        let (in_text, part) = match &self.body {
            Err(_) => (false, &[][..]),
            Ok(body) if !self.joined => (true, &body[..]),
            Ok(_) => (false, buffer.get(..length).unwrap_or_default()),
        };
        let start = if in_text { text.len() - part.len() } else { 0 };
        (BodyPlace { in_text, start, length: part.len() }, part)
    }
}

/// The room that the lines need, each read by itself.
struct Room {
    need: usize,
    peaks: Vec<usize>,
    headers: Vec<Result<Named, Refusal>>,
    contents: BTreeMap<String, usize>,
}

impl Room {
    fn lines(&mut self, manner: Manner, headers: &str, contents: &str) -> Result<(), Refusal> {
        for (first, line) in lines(headers) {
            let read = manner.header_line(first, line);
            self.headers.push(read.clone());
            let (name, header) = read?;
            if self.headers.len() > 50 {
                return Err((20, 51));
            }
            self.grow(name.len() + need_alone(&header), 0);
        }
        for (first, line) in lines(contents) {
            let m = Manner::Source.parse(&format!("message/cpim{CRLFCRLF}{CRLFCRLF}{first}{line}{CRLFCRLF}"))?;
            let Some(name) = m.content_headers().keys().next() else { continue };
            if self.contents.len() == 20 {
                return Err((22, 21));
            }
            let more = need(&m) - 256;
            let less = self.contents.insert(name.to_string(), more);
            self.grow(more, less.unwrap_or(0));
        }
        Ok(())
    }

    fn grow(&mut self, more: usize, less: usize) {
        self.need = self.need + more - less;
        if self.need > *self.peaks.last().unwrap() {
            self.peaks.push(self.need);
        }
    }

    /// The lines one by one come to what is made of the whole text.
    fn agrees(&self, answer: &Result<CpimMessage, Refusal>, stopped: Option<Refusal>, body: &[u8]) {
        match answer {
            Ok(m) => {
                assert!(stopped.is_none() && need(m) == self.need && m.body() == body, "lines of an accepted text")
            }
            Err((23, n)) => assert!(stopped.is_none() && *n == body.len() as u64, "lines of a text with a long body"),
            Err(e) => assert_eq!(stopped, Some(*e), "the line that is refused"),
        }
    }
}
