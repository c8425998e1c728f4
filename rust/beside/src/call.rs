//! A call with its arguments, and what document 01 makes of the source's answer to it.

use crate::layout::{need, need_alone};
use crate::refusals::{number, text, Refusal, NOTHING_HELD};
use source::cpim::{CpimHeader, CpimMessage};

/// The functions in the order of `BY_CALLS`.
#[derive(Clone, Copy, Debug, PartialEq)]
pub enum Function {
    New,
    SetBody,
    SetHeader,
    AddHeader,
    AddContent,
    AddObj,
    From,
    To,
    DateTime,
    Subject,
    Cc,
    Require,
    SubjectLang,
    Ns,
    WithContent,
    HeaderNew,
    WithParam,
}

use Function::*;

/// A function and its arguments: a name, value or body, and the second one where there is one. `New` takes type and body.
#[derive(Clone)]
pub struct Call {
    pub function: Function,
    pub first: Vec<u8>,
    pub second: Vec<u8>,
}

/// The lengths of the stores lent to a call.
#[derive(Clone, Copy, Debug, Default)]
pub struct Lengths {
    pub head: usize,
    pub body: usize,
    pub header: usize,
}

impl Call {
    /// Whether it works on a header alone.
    pub fn on_header(&self) -> bool {
        matches!(self.function, HeaderNew | WithParam)
    }

    /// Whether a message is handed in.
    pub fn on_message(&self) -> bool {
        !self.on_header() && self.function != New
    }

    /// Whether the body store is lent.
    pub fn takes_body(&self) -> bool {
        matches!(self.function, New | SetBody)
    }

    /// What the call makes of a message (and of a header, where it takes one) with room for everything.
    pub fn message(&self, m: Option<&CpimMessage>, h: Option<&CpimHeader>) -> Result<CpimMessage, Refusal> {
        let (first, second) = (&self.first, &self.second);
        if self.function == New {
            return CpimMessage::new(text(first)?, second.clone()).map_err(number);
        }
        let mut m = m.ok_or(NOTHING_HELD)?.clone();
        if self.function == SetBody {
            return m.set_body(first.clone()).map_err(number).map(|()| m);
        }
        if self.function == AddObj {
            let h = h.ok_or(NOTHING_HELD)?.clone();
            return m.add_header_obj(text(first)?, h).map_err(number).map(|()| m);
        }
        let (a, b) = (text(first)?, text(second)?);
        match self.function {
            SetHeader => m.set_header(a, b).map(|()| m),
            AddHeader => m.add_header(a, b).map(|()| m),
            AddContent => m.add_content_header(a, b).map(|()| m),
            From => m.with_from(a),
            To => m.with_to(a),
            DateTime => m.with_datetime(a),
            Subject => m.with_subject(a),
            Cc => m.with_cc(a),
            Require => m.with_require(a),
            SubjectLang => m.with_subject_lang(a, b),
            Ns => m.with_ns(a, b),
            WithContent => m.with_content_header(a, b),
            New | SetBody | AddObj | HeaderNew | WithParam => unreachable!(),
        }
        .map_err(number)
    }

    /// What the call makes of a header alone, with room for everything.
    pub fn header(&self, h: Option<&CpimHeader>) -> Result<CpimHeader, Refusal> {
        if self.function == HeaderNew {
            return CpimHeader::new(text(&self.first)?).map_err(number);
        }
        let h = h.ok_or(NOTHING_HELD)?.clone();
        h.with_param(text(&self.first)?, text(&self.second)?).map_err(number)
    }

    /// 25 and 26, which come last.
    pub fn room(&self, m: &CpimMessage, lengths: Lengths) -> Result<(), Refusal> {
        if need(m) > lengths.head {
            return Err((25, need(m) as u64));
        }
        if self.takes_body() && m.body().len() > lengths.body {
            return Err((26, m.body().len() as u64));
        }
        Ok(())
    }

    pub fn header_room(&self, h: &CpimHeader, lengths: Lengths) -> Result<(), Refusal> {
        if need_alone(h) > lengths.header {
            return Err((25, need_alone(h) as u64));
        }
        Ok(())
    }
}

impl std::fmt::Debug for Call {
    fn fmt(&self, f: &mut std::fmt::Formatter<'_>) -> std::fmt::Result {
        let shown = |s: &[u8]| match s.get(..2048) {
            Some(start) => format!("\"{}\"... ({} bytes)", start[..64].escape_ascii(), s.len()),
            None => format!("\"{}\"", s.escape_ascii()),
        };
        write!(f, "{:?} {} {}", self.function, shown(&self.first), shown(&self.second))
    }
}
