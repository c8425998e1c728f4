//! Where the entries of a message or of a header alone stand, by crates/format/specs/Layout.antt: reckoned from what the source holds.

use cpim::raw::{Pair, Part};
use source::cpim::{CpimHeader, CpimMessage};

/// A header, parameter or content header, and where its name begins.
pub struct Spot<'a> {
    pub name: &'a [u8],
    pub value: &'a [u8],
    start: usize,
    pub params: Vec<Spot<'a>>,
}

impl<'a> Spot<'a> {
    /// The entry at a place, which is then the one behind it and its parameters.
    fn at(place: &mut usize, name: &'a str, value: &'a str, header: Option<&'a CpimHeader>) -> Self {
        let start = *place + 16;
        *place = start + name.len() + value.len();
        let params = header.map_or_else(Vec::new, |h| params(place, h));
        Spot { name: name.as_bytes(), value: value.as_bytes(), start, params }
    }

    pub fn pair(&self) -> Pair {
        Pair { found: true, start: self.start, name: self.name.len(), value: self.value.len() }
    }

    pub fn part(&self) -> Part {
        Part { found: true, start: self.start + self.name.len(), length: self.value.len() }
    }

    /// Its row and those of its parameters.
    fn rows(&self) -> Vec<usize> {
        let mut rows = vec![self.start, self.name.len(), self.value.len(), self.params.len()];
        rows.extend(rows_of(&self.params));
        rows
    }
}

fn params<'a>(place: &mut usize, h: &'a CpimHeader) -> Vec<Spot<'a>> {
    h.params().iter().map(|(n, v)| Spot::at(place, n, v, None)).collect()
}

/// The headers, then the content headers.
pub fn spots(m: &CpimMessage) -> [Vec<Spot<'_>>; 2] {
    let mut place = 256;
    let headers = m.headers().iter().flat_map(|(n, hs)| hs.iter().map(move |h| (n, h)));
    let headers = headers.map(|(n, h)| Spot::at(&mut place, n, h.value(), Some(h))).collect();
    let contents = m.content_headers().iter().map(|(n, v)| Spot::at(&mut place, n, v, None)).collect();
    [headers, contents]
}

/// The parameters of a header alone.
pub fn spots_alone(h: &CpimHeader) -> Vec<Spot<'_>> {
    params(&mut (16 + h.value().len()), h)
}

pub fn rows_of(spots: &[Spot<'_>]) -> Vec<usize> {
    spots.iter().flat_map(Spot::rows).collect()
}
