//! The two readings of a header line: what each makes of a text, and the functions that read so.

use crate::refusals::{number, Refusal};
use crate::rfc::{self, Named};
use crate::sections::CRLFCRLF;
use cpim::raw::{self, Answer, HeadAnswer, Record};
use source::cpim::{parse_cpim, CpimMessage};

#[derive(Clone, Copy, Debug, PartialEq)]
pub enum Manner {
    /// The source's reading.
    Source,
    /// The second one, of document 02's T-01.
    Rfc,
}

use Manner::{Rfc, Source};

pub const MANNERS: [Manner; 2] = [Source, Rfc];

impl Manner {
    /// What is read of a text with room for everything.
    pub fn parse(self, input: &str) -> Result<CpimMessage, Refusal> {
        match self {
            Source => parse_cpim(input).map_err(number),
            Rfc => rfc::parse(input),
        }
    }

    /// What is read of a header line, behind what comes first in its section.
    pub fn header_line(self, first: &str, line: &str) -> Result<Named, Refusal> {
        if self == Rfc {
            return rfc::header_line(line);
        }
        let m = self.parse(&format!("message/cpim{CRLFCRLF}{first}{line}{CRLFCRLF}{CRLFCRLF}"))?;
        let (name, headers) = m.headers().iter().next().expect("a header");
        Ok((name.to_string(), headers[0].clone()))
    }

    /// The function that reads so.
    pub fn read(self, text: &[u8], head: &mut [u8], body: &mut [u8]) -> Answer<Record> {
        [raw::parse, raw::parse_rfc][self as usize](text, head, body)
    }

    /// The one that leaves the body in its place.
    pub fn read_head(self, text: &[u8], head: &mut [u8]) -> HeadAnswer {
        [raw::parse_head, raw::parse_head_rfc][self as usize](text, head)
    }

    /// The one that says whether a message held comes back.
    pub fn says_back(self, m: Record, head: &[u8], body: &[u8]) -> bool {
        [raw::comes_back, raw::comes_back_rfc][self as usize](m, head, body)
    }
}
