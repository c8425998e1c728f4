//! What is refused: the source's errors, and the numbers of document 01's table.

use crate::raw::{Answer, HeadAnswer, Numbers};
use std::fmt;

pub(crate) const MAX_HEADER_NAME_LENGTH: usize = 128;
pub(crate) const MAX_HEADER_VALUE_LENGTH: usize = 1024;
pub(crate) const MAX_PARAM_NAME_LENGTH: usize = 64;
pub(crate) const MAX_PARAM_VALUE_LENGTH: usize = 256;
pub(crate) const MAX_HEADERS: usize = 50;
pub(crate) const MAX_PARAMS_PER_HEADER: usize = 10;
pub(crate) const MAX_CONTENT_HEADERS: usize = 20;
pub(crate) const MAX_BODY_SIZE: usize = 10 * 1024 * 1024;
pub(crate) const MAX_PARSE_SIZE: usize = 20 * 1024 * 1024;
pub(crate) const MAX_CONTENT_TYPE_LENGTH: usize = 256;

/// A refusal by its number in document 01's table, or one of 27 and 28, which come by the second reading alone
/// ([`parse_cpim_rfc`](crate::parse_cpim_rfc)); and what it carries: a length or count for 1, 7, 10, 13, 15, 18, 20 to 23, the bytes needed for 25
/// (0 where nothing valid is held) and 26, else 0.
#[derive(Debug, Clone, Copy, PartialEq, Eq)]
pub struct Refusal {
    pub number: u64,
    pub carried: u64,
}

impl fmt::Display for Refusal {
    fn fmt(&self, f: &mut fmt::Formatter<'_>) -> fmt::Result {
        let Refusal { number, carried } = *self;
        write!(f, "{number}: ")?;
        let mut too = |what: &str, max: usize, unit: &str| write!(f, "{what} ({max}{unit} at most, {carried} given)");
        match number {
            1 => too("text too long", MAX_PARSE_SIZE, " bytes"),
            2 => f.write_str("text of fewer than 4 sections"),
            3 => f.write_str("no message/cpim in the first section"),
            4 => f.write_str("header line without a colon"),
            5 => f.write_str("bad escape in a header value"),
            6 => f.write_str("header name empty"),
            7 => too("header name too long", MAX_HEADER_NAME_LENGTH, " bytes"),
            8 => f.write_str("ASCII control character in a header name"),
            9 => f.write_str("one of : ; = \\ \" in a header name"),
            10 => too("header value too long", MAX_HEADER_VALUE_LENGTH, " bytes"),
            11 => f.write_str("ASCII control character in a content header's value"),
            12 => f.write_str("parameter name empty"),
            13 => too("parameter name too long", MAX_PARAM_NAME_LENGTH, " bytes"),
            14 => f.write_str("ASCII control character or one of ; = \\ \" in a parameter name"),
            15 => too("parameter value too long", MAX_PARAM_VALUE_LENGTH, " bytes"),
            16 => f.write_str("ASCII control character or one of ; \\ \" in a parameter value"),
            17 => f.write_str("content type empty"),
            18 => too("content type too long", MAX_CONTENT_TYPE_LENGTH, " bytes"),
            19 => f.write_str("ASCII control character in the content type"),
            20 => too("too many headers", MAX_HEADERS, ""),
            21 => too("too many parameters", MAX_PARAMS_PER_HEADER, ""),
            22 => too("too many content headers", MAX_CONTENT_HEADERS, ""),
            23 => too("body too long", MAX_BODY_SIZE, " bytes"),
            24 => f.write_str("text or argument not UTF-8"),
            25 if carried == 0 => f.write_str("no message or header is held"),
            25 => write!(f, "head or header store too short ({carried} bytes needed)"),
            26 => write!(f, "body store or output too short ({carried} bytes needed)"),
            27 => f.write_str("parameter without ="),
            28 => f.write_str("no space behind the colon of a header line, or neither a space nor ; right behind it"),
            _ => f.write_str("a number that is not in the table"),
        }
    }
}

impl std::error::Error for Refusal {}

impl<R> Answer<R> {
    /// What is handed back, or the refusal.
    pub fn accepted(self) -> Result<R, Refusal> {
        match self.number {
            0 => Ok(self.record),
            number => Err(Refusal { number, carried: self.carried }),
        }
    }
}

impl HeadAnswer {
    /// Itself, or the refusal.
    pub fn accepted(self) -> Result<Self, Refusal> {
        Answer { number: self.number, carried: self.carried, record: self }.accepted()
    }
}

impl Numbers {
    pub fn accepted(self) -> Result<(), Refusal> {
        Answer { number: self.number, carried: self.carried, record: () }.accepted()
    }
}

/// The errors of the source.
#[derive(Debug, Clone, PartialEq, Eq)]
pub enum CpimError {
    HeaderNameTooLong { max: usize, actual: usize },
    HeaderValueTooLong { max: usize, actual: usize },
    ParamNameTooLong { max: usize, actual: usize },
    ParamValueTooLong { max: usize, actual: usize },
    ContentTypeTooLong { max: usize, actual: usize },
    TooManyHeaders { max: usize, actual: usize },
    TooManyParams { max: usize, actual: usize },
    TooManyContentHeaders { max: usize, actual: usize },
    BodyTooLarge { max: usize, actual: usize },
    InputTooLarge { max: usize, actual: usize },
    InvalidHeaderName(String),
    InvalidHeaderValue(String),
    InvalidParamName(String),
    InvalidParamValue(String),
    InvalidContentType(String),
    ParseError(String),
}

const SECTIONS: &str = "missing required cpim sections";
const MIME: &str = "missing message/cpim MIME header";
const COLON: &str = "missing ':'";
const ESCAPE: &str = "invalid escape sequence";
const EMPTY: &str = "empty name";
const EMPTY_TYPE: &str = "empty content type";
const CONTROL: &str = "contains control characters";
const INVALID: &str = "contains invalid characters";

impl From<Refusal> for CpimError {
    /// The source has no error for 24 to 28: they become a `ParseError` in the refusal's own words. No call of
    /// [`CpimMessage`](crate::CpimMessage) gives 24 to 26, and 27 and 28 come of [`parse_cpim_rfc`](crate::parse_cpim_rfc) alone.
    fn from(refusal: Refusal) -> Self {
        use CpimError::*;
        let actual = usize::try_from(refusal.carried).unwrap_or(usize::MAX);
        match refusal.number {
            1 => InputTooLarge { max: MAX_PARSE_SIZE, actual },
            2 => ParseError(SECTIONS.into()),
            3 => ParseError(MIME.into()),
            4 => ParseError(COLON.into()),
            5 => ParseError(ESCAPE.into()),
            6 => InvalidHeaderName(EMPTY.into()),
            7 => HeaderNameTooLong { max: MAX_HEADER_NAME_LENGTH, actual },
            8 => InvalidHeaderName(CONTROL.into()),
            9 => InvalidHeaderName(INVALID.into()),
            10 => HeaderValueTooLong { max: MAX_HEADER_VALUE_LENGTH, actual },
            11 => InvalidHeaderValue(CONTROL.into()),
            12 => InvalidParamName(EMPTY.into()),
            13 => ParamNameTooLong { max: MAX_PARAM_NAME_LENGTH, actual },
            14 => InvalidParamName(INVALID.into()),
            15 => ParamValueTooLong { max: MAX_PARAM_VALUE_LENGTH, actual },
            16 => InvalidParamValue(INVALID.into()),
            17 => InvalidContentType(EMPTY_TYPE.into()),
            18 => ContentTypeTooLong { max: MAX_CONTENT_TYPE_LENGTH, actual },
            19 => InvalidContentType(CONTROL.into()),
            20 => TooManyHeaders { max: MAX_HEADERS, actual },
            21 => TooManyParams { max: MAX_PARAMS_PER_HEADER, actual },
            22 => TooManyContentHeaders { max: MAX_CONTENT_HEADERS, actual },
            23 => BodyTooLarge { max: MAX_BODY_SIZE, actual },
            _ => ParseError(refusal.to_string()),
        }
    }
}

/// The refusal, one of 24 to 28, whose own words these are.
fn in_own_words(why: &str) -> Option<Refusal> {
    let number = why.split(':').next()?.parse().ok().filter(|n| (24..=28).contains(n))?;
    let carried = why.rsplit('(').next()?.split(' ').next()?.parse().unwrap_or(0);
    let refusal = Refusal { number, carried };
    (refusal.to_string() == why).then_some(refusal)
}

impl CpimError {
    /// The number in document 01's table, 27 or 28; 0 for an error in words that this crate does not use.
    pub fn number(&self) -> u64 {
        use CpimError::*;
        let by_words = |words: &str, known: &[(&str, u64)]| known.iter().find(|(w, _)| *w == words).map_or(0, |k| k.1);
        match self {
            InputTooLarge { .. } => 1,
            ParseError(why) => match in_own_words(why) {
                Some(refusal) => refusal.number,
                None => by_words(why, &[(SECTIONS, 2), (MIME, 3), (COLON, 4), (ESCAPE, 5)]),
            },
            InvalidHeaderName(why) => by_words(why, &[(EMPTY, 6), (CONTROL, 8), (INVALID, 9)]),
            HeaderNameTooLong { .. } => 7,
            HeaderValueTooLong { .. } => 10,
            InvalidHeaderValue(why) => by_words(why, &[(CONTROL, 11)]),
            InvalidParamName(why) => by_words(why, &[(EMPTY, 12), (INVALID, 14)]),
            ParamNameTooLong { .. } => 13,
            ParamValueTooLong { .. } => 15,
            InvalidParamValue(why) => by_words(why, &[(INVALID, 16)]),
            InvalidContentType(why) => by_words(why, &[(EMPTY_TYPE, 17), (CONTROL, 19)]),
            ContentTypeTooLong { .. } => 18,
            TooManyHeaders { .. } => 20,
            TooManyParams { .. } => 21,
            TooManyContentHeaders { .. } => 22,
            BodyTooLarge { .. } => 23,
        }
    }

    /// What the refusal carries: the actual length or count, the bytes needed for 25 and 26, else 0.
    pub fn carried(&self) -> u64 {
        match self {
            CpimError::ParseError(why) => in_own_words(why).map_or(0, |refusal| refusal.carried),
            _ => self.limit().map_or(0, |(_, _, actual)| actual as u64),
        }
    }

    /// Both numbers; printed, it says the rule in plain words.
    pub fn refusal(&self) -> Refusal {
        Refusal { number: self.number(), carried: self.carried() }
    }

    /// What is beyond its limit, the limit, and how much there is.
    fn limit(&self) -> Option<(&'static str, usize, usize)> {
        use CpimError::*;
        let (what, max, actual) = match self {
            HeaderNameTooLong { max, actual } => ("header name too long", max, actual),
            HeaderValueTooLong { max, actual } => ("header value too long", max, actual),
            ParamNameTooLong { max, actual } => ("param name too long", max, actual),
            ParamValueTooLong { max, actual } => ("param value too long", max, actual),
            ContentTypeTooLong { max, actual } => ("content type too long", max, actual),
            TooManyHeaders { max, actual } => ("too many headers", max, actual),
            TooManyParams { max, actual } => ("too many params", max, actual),
            TooManyContentHeaders { max, actual } => ("too many content headers", max, actual),
            BodyTooLarge { max, actual } => ("body too large", max, actual),
            InputTooLarge { max, actual } => ("input too large", max, actual),
            _ => return None,
        };
        Some((what, *max, *actual))
    }
}

impl fmt::Display for CpimError {
    fn fmt(&self, f: &mut fmt::Formatter<'_>) -> fmt::Result {
        use CpimError::*;
        if let Some((what, max, actual)) = self.limit() {
            return write!(f, "{what} (max {max}, got {actual})");
        }
        match self {
            InvalidHeaderName(name) => write!(f, "invalid header name: {name}"),
            InvalidHeaderValue(value) => write!(f, "invalid header value: {value}"),
            InvalidParamName(name) => write!(f, "invalid param name: {name}"),
            InvalidParamValue(value) => write!(f, "invalid param value: {value}"),
            InvalidContentType(value) => write!(f, "invalid content type: {value}"),
            ParseError(msg) => write!(f, "parse error: {msg}"),
            _ => Ok(()),
        }
    }
}

impl std::error::Error for CpimError {}

#[test]
fn every_refusal_is_kept() {
    let carrying = [1, 7, 10, 13, 15, 18, 20, 21, 22, 23, 25, 26];
    for number in 1..=28 {
        let carried = if carrying.contains(&number) { 4_711 } else { 0 };
        assert_eq!(CpimError::from(Refusal { number, carried }).refusal(), Refusal { number, carried });
    }
    let nothing_held = Refusal { number: 25, carried: 0 };
    assert_eq!(CpimError::from(nothing_held).refusal(), nothing_held);
}
