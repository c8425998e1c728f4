//! The second reading by the words of document 02, T-01. The source does not have it: a header line is read here as the request says, and all else,
//! sections, lines, the content part, validators and counts, is the source's own.

use crate::refusals::{number, Refusal};
use crate::sections::{lines, separator};
use source::cpim::{open_unescape_header_value, parse_cpim, CpimHeader, CpimMessage};

/// A header and its name.
pub type Named = (String, CpimHeader);

/// "A header line is the name up to the first colon, untrimmed, then parameters, one space, and the value, untrimmed."
pub fn header_line(line: &str) -> Result<Named, Refusal> {
    let (name, right) = line.split_once(':').ok_or((4, 0))?;
    let header = CpimHeader::new("").expect("an empty value");
    bare().add_header_obj(name, header.clone()).map_err(number)?;
    // "28, after the name's checks, if the byte after the colon is neither space nor `;` or no space follows the colon".
    if !right.starts_with([' ', ';']) {
        return Err((28, 0));
    }
    let (params, value) = right.split_once(' ').ok_or((28, 0))?;
    // "Parameters run from `;` to the first space and are parted at `;`": nothing stands before the first.
    let params = params.split(';').skip(1).try_fold(header, with_param)?;
    let value = unescape(value).ok_or((5, 0))?;
    let header = CpimHeader::new(&value).map_err(number)?;
    let header = params.params().iter().try_fold(header, |h, (name, value)| h.with_param(name, value));
    Ok((name.to_string(), header.expect("parameters that were accepted before")))
}

/// "27, next and ahead of 12 for each parameter in turn, if it lacks `=`"; parted "each at its first `=`, untrimmed".
fn with_param(header: CpimHeader, param: &str) -> Result<CpimHeader, Refusal> {
    let (name, value) = param.split_once('=').ok_or((27, 0))?;
    header.with_param(name, value).map_err(number)
}

/// "Escapes follow the RFC: `\'` is read, a plus sign is not." All others are the source's.
fn unescape(value: &str) -> Option<String> {
    let mut source = String::with_capacity(value.len());
    let mut chars = value.chars();
    while let Some(c) = chars.next() {
        let escaped = if c == '\\' { chars.next() } else { None };
        match escaped {
            Some('\'') => source.push('\''),
            Some('u') if chars.as_str().starts_with('+') => return None,
            _ => source.extend([Some(c), escaped].into_iter().flatten()),
        }
    }
    open_unescape_header_value(&source)
}

/// Without a header.
fn bare() -> CpimMessage {
    CpimMessage::new("text/plain", Vec::new()).expect("a message")
}

/// The whole text, with room for everything.
pub fn parse(input: &str) -> Result<CpimMessage, Refusal> {
    let separator = separator(input);
    let sections: Vec<&str> = input.splitn(3, separator).collect();
    let [first, headers, rest] = sections[..] else { return parse_cpim(input).map_err(number) };
    // What the source makes of the text without its header lines. It is as long, so that 1 is judged by the length of all.
    let first = format!("{first}{}", " ".repeat(headers.len()));
    let others = parse_cpim(&[&first, "", rest].join(separator)).map_err(number);
    let mut m = match &others {
        Err((1..=3, _)) => return others,
        Err(_) => bare(),
        Ok(m) => m.clone(),
    };
    for (_, line) in lines(headers) {
        let (name, header) = header_line(line)?;
        m.add_header_obj(&name, header).map_err(number)?;
    }
    others.map(|_| m)
}
