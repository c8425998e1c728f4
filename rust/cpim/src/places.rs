//! The entries of a message by the rows that `raw::places` gives: four numbers each (the start of the name, the length of the name, of the value
//! behind it, and how many parameters), behind each header the rows of its parameters.

use crate::error::{Refusal, MAX_CONTENT_HEADERS, MAX_HEADERS, MAX_PARAMS_PER_HEADER};
use crate::raw::{places, text, Numbers, Record};
use std::mem::size_of;
use std::ops::Range;

/// How many numbers a row has.
const ROW: usize = 4;
/// As many numbers as the rows of any message take.
pub const MOST: usize = ROW * (MAX_HEADERS * (1 + MAX_PARAMS_PER_HEADER) + MAX_CONTENT_HEADERS);

/// The rows of a message that is held, in as many numbers as they take.
pub(crate) fn rows_of(m: Record, head: &[u8]) -> Vec<usize> {
    // As many as there are where no header has a parameter.
    let mut rows = vec![0; ROW * (m.headers + m.contents)];
    loop {
        match places(m, head, &mut rows) {
            Numbers { number: 26, carried } => rows.resize(carried as usize / size_of::<usize>(), 0),
            Numbers { number: 0, .. } => return rows,
            refused => unreachable!("places in what is held: {refused:?}"),
        }
    }
}

/// A header, parameter or content header where it stands.
#[derive(Debug, Clone, Copy)]
pub struct Entry<'a> {
    store: &'a [u8],
    /// Its row, and behind it those of its parameters.
    rows: &'a [usize],
}

impl<'a> Entry<'a> {
    fn name_bytes(self) -> &'a [u8] {
        &self.store[self.name_at()]
    }

    /// Where its name stands in the store.
    pub(crate) fn name_at(self) -> Range<usize> {
        self.rows[0]..self.rows[0] + self.rows[1]
    }

    pub fn name(self) -> &'a str {
        text(self.name_bytes())
    }

    pub fn value(self) -> &'a str {
        text(&self.store[self.name_at().end..][..self.rows[2]])
    }

    /// Its parameters in map order.
    pub fn params(self) -> Entries<'a> {
        Entries { store: self.store, rows: &self.rows[ROW..], left: self.rows[3] }
    }
}

/// Entries one behind another.
#[derive(Debug, Clone)]
pub struct Entries<'a> {
    store: &'a [u8],
    rows: &'a [usize],
    left: usize,
}

impl<'a> Iterator for Entries<'a> {
    type Item = Entry<'a>;

    fn next(&mut self) -> Option<Entry<'a>> {
        self.left = self.left.checked_sub(1)?;
        let (rows, rest) = self.rows.split_at(ROW * (1 + self.rows[3]));
        self.rows = rest;
        Some(Entry { store: self.store, rows })
    }

    fn size_hint(&self) -> (usize, Option<usize>) {
        (self.left, Some(self.left))
    }
}

/// The headers and content headers of a message where they stand.
#[derive(Debug, Clone, Copy)]
pub struct Places<'a> {
    record: Record,
    head: &'a [u8],
    rows: &'a [usize],
}

impl<'a> Places<'a> {
    /// Finds them; 26 carries the bytes that `out` has to have, never more than [`MOST`] numbers take.
    pub(crate) fn find(record: Record, head: &'a [u8], out: &'a mut [usize]) -> Result<Self, Refusal> {
        places(record, head, out).accepted()?;
        Ok(Places { record, head, rows: out })
    }

    /// By rows that were found before.
    pub(crate) fn known(record: Record, head: &'a [u8], rows: &'a [usize]) -> Self {
        Places { record, head, rows }
    }

    /// In map order: by the bytes of their names, those of one name as they were added.
    pub fn headers(self) -> Entries<'a> {
        Entries { store: self.head, rows: self.rows, left: self.record.headers }
    }

    pub fn content_headers(self) -> Entries<'a> {
        let mut all = Entries { left: self.record.headers + self.record.contents, ..self.headers() };
        if self.record.headers > 0 {
            all.nth(self.record.headers - 1);
        }
        all
    }

    /// The headers of a name.
    pub fn named<'n>(self, name: &'n str) -> impl Iterator<Item = Entry<'a>> + 'n
    where
        'a: 'n,
    {
        self.headers().filter(move |e| e.name_bytes() == name.as_bytes())
    }

    /// The first header of a name.
    pub fn first(self, name: &str) -> Option<Entry<'a>> {
        let mut rows = self.rows;
        for _ in 0..self.record.headers {
            let &[start, len, _, params, ..] = rows else { return None };
            if len == name.len() && self.head.get(start..start + len)? == name.as_bytes() {
                return Some(Entry { store: self.head, rows });
            }
            rows = rows.get(ROW * (1 + params)..)?;
        }
        None
    }
}
