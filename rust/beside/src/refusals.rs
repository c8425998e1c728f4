//! The refusals of document 01: what the source's errors are there.

use source::cpim::CpimError;
use std::str::from_utf8;

/// The number of a refusal, and the number that it carries.
pub type Refusal = (u64, u64);

pub const NOTHING_HELD: Refusal = (25, 0);

/// How many answers there are by number: accepted, document 01's 1 to 26, and 27 and 28 of document 02's T-01.
pub const ANSWERS: usize = 29;

/// The table of document 01.
pub fn number(e: CpimError) -> Refusal {
    use CpimError::*;
    let carrying = |number, actual: usize| (number, actual as u64);
    match e {
        InputTooLarge { actual, .. } => carrying(1, actual),
        ParseError(why) if why == "missing required cpim sections" => (2, 0),
        ParseError(why) if why == "missing message/cpim MIME header" => (3, 0),
        ParseError(why) if why == "missing ':'" => (4, 0),
        ParseError(why) if why == "invalid escape sequence" => (5, 0),
        InvalidHeaderName(why) if why == "empty name" => (6, 0),
        HeaderNameTooLong { actual, .. } => carrying(7, actual),
        InvalidHeaderName(why) if why == "contains control characters" => (8, 0),
        InvalidHeaderName(why) if why == "contains invalid characters" => (9, 0),
        HeaderValueTooLong { actual, .. } => carrying(10, actual),
        InvalidHeaderValue(_) => (11, 0),
        InvalidParamName(why) if why == "empty name" => (12, 0),
        ParamNameTooLong { actual, .. } => carrying(13, actual),
        InvalidParamName(_) => (14, 0),
        ParamValueTooLong { actual, .. } => carrying(15, actual),
        InvalidParamValue(_) => (16, 0),
        InvalidContentType(why) if why == "empty content type" => (17, 0),
        ContentTypeTooLong { actual, .. } => carrying(18, actual),
        InvalidContentType(_) => (19, 0),
        TooManyHeaders { actual, .. } => carrying(20, actual),
        TooManyParams { actual, .. } => carrying(21, actual),
        TooManyContentHeaders { actual, .. } => carrying(22, actual),
        BodyTooLarge { actual, .. } => carrying(23, actual),
        e => panic!("no number for {e}"),
    }
}

pub fn text(s: &[u8]) -> Result<&str, Refusal> {
    from_utf8(s).map_err(|_| (24, 0))
}
