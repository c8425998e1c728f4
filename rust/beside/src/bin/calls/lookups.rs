//! The lookups beside the source: each place is the layout's, what stands there is what the source has, and absent is all zeros.

use beside::address::{address, Addresses};
use beside::exports::BY_LOOKUPS;
use beside::spots::{rows_of, spots, spots_alone, Spot};
use cpim::raw::{self, HeaderRecord, Numbers, Pair, Part, Record};
use source::cpim::{CpimHeader, CpimMessage};
use std::fmt::Debug;

/// What is lent, and the message that it holds: by the head store alone, and with the body store.
pub struct Lent<'a> {
    pub record: Record,
    pub head: &'a [u8],
    pub body: &'a [u8],
    pub message: Option<&'a CpimMessage>,
    pub whole: Option<&'a CpimMessage>,
}

pub struct LentAlone<'a> {
    pub record: HeaderRecord,
    pub store: &'a [u8],
    pub header: Option<&'a CpimHeader>,
}

/// How many answers each function of `BY_LOOKUPS` gave, and how many of all were places that were found; the addresses in values that are held.
#[derive(Clone, Default)]
pub struct Looked {
    pub answers: [u64; BY_LOOKUPS.len()],
    pub found: u64,
    pub addresses: Addresses,
}

/// What differs, as it is here and as it must be.
type Compared = Result<(), [String; 3]>;

/// As many as there are, and beyond the end.
fn and_beyond(count: usize) -> impl Iterator<Item = usize> {
    (0..count).chain([count, usize::MAX])
}

fn alike<T: PartialEq + Debug>(function: &str, asked: &dyn Debug, here: T, there: T) -> Compared {
    if here == there {
        return Ok(());
    }
    Err([format!("cpim_{function} of {asked:?}"), format!("{here:?}"), format!("{there:?}")])
}

impl Looked {
    pub fn add(&mut self, other: &Looked) {
        self.answers.iter_mut().zip(other.answers).for_each(|(a, b)| *a += b);
        self.found += other.found;
        self.addresses.add(&other.addresses);
    }

    pub fn all(&self) -> u64 {
        self.answers.iter().sum()
    }

    fn same<T: PartialEq + Debug>(&mut self, function: &str, asked: &dyn Debug, here: T, there: T) -> Compared {
        self.answers[BY_LOOKUPS.iter().position(|f| *f == function).expect("a lookup")] += 1;
        alike(function, asked, here, there)
    }

    fn part(&mut self, function: &str, asked: &dyn Debug, here: Part, there: Part) -> Compared {
        self.found += u64::from(there.found);
        self.same(function, asked, here, there)
    }

    /// A value by its place, and the bytes there.
    fn value(&mut self, function: &str, asked: &dyn Debug, store: &[u8], here: Part, there: Option<&Spot>) -> Compared {
        self.part(function, asked, here, there.map_or_else(Part::default, Spot::part))?;
        alike(function, asked, here.of(store), there.map(|spot| spot.value))
    }

    /// Name and value by their place, and the bytes there.
    fn pair(&mut self, function: &str, asked: &dyn Debug, store: &[u8], here: Pair, there: Option<&Spot>) -> Compared {
        self.found += u64::from(there.is_some());
        self.same(function, asked, here, there.map_or_else(Pair::default, Spot::pair))?;
        alike(function, asked, here.of(store), there.map(|spot| (spot.name, spot.value)))
    }

    /// By the request's words.
    pub fn address(&mut self, value: &[u8]) -> Compared {
        let there = address(value).map_or_else(Part::default, |(start, length)| Part { found: true, start, length });
        self.part("address", &value.escape_ascii().to_string(), raw::address(value), there)
    }

    /// One name: every value of it, every parameter of each, and what is beyond their ends.
    fn name(&mut self, l: &Lent, headers: &[Spot], name: &[u8]) -> Compared {
        let (r, head, asked) = (l.record, l.head, name.escape_ascii().to_string());
        let values: Vec<&Spot> = headers.iter().filter(|spot| spot.name == name).collect();
        self.value("get_header", &asked, head, raw::get_header(r, head, name), values.first().copied())?;
        for k in and_beyond(values.len()) {
            let value = values.get(k).copied();
            if let Some(spot) = value {
                self.addresses.count(spot.value);
                self.address(spot.value)?;
            }
            self.value("get_header_value", &(&asked, k), head, raw::get_header_value(r, head, name, k), value)?;
            let params = value.map_or(&[][..], |spot| &spot.params);
            for n in (0..params.len()).chain([params.len()]) {
                self.pair("get_param", &(&asked, k, n), head, raw::get_param(r, head, name, k, n), params.get(n))?;
            }
        }
        Ok(())
    }

    /// The rows in some more room than they need, and in one number less: 26 carries bytes, 8 for each number.
    fn places(&mut self, l: &Lent, entries: &[Vec<Spot>; 2]) -> Compared {
        let rows: Vec<usize> = entries.iter().flat_map(|spots| rows_of(spots)).collect();
        let need = rows.len();
        for room in [Some(need + 3), need.checked_sub(1)].into_iter().flatten() {
            let (mut here, mut there) = (vec![7; room], vec![7; room]);
            let (number, carried) = match l.message {
                None => (25, 0),
                Some(_) if room < need => (26, 8 * need as u64),
                Some(_) => (0, 0),
            };
            if number == 0 {
                there[..need].copy_from_slice(&rows);
            }
            let answer = raw::places(l.record, l.head, &mut here);
            self.same("places", &room, (answer, here), (Numbers { number, carried }, there))?;
        }
        Ok(())
    }

    pub fn names(&mut self, l: &Lent, names: &[&[u8]]) -> Compared {
        let [headers, _] = l.message.map(spots).unwrap_or_default();
        names.iter().try_for_each(|name| self.name(l, &headers, name))
    }

    /// All that is asked for by number, or without one.
    pub fn others(&mut self, l: &Lent) -> Compared {
        let (r, head, body) = (l.record, l.head, l.body);
        let entries = l.message.map(spots).unwrap_or_default();
        let [headers, contents] = &entries;
        self.places(l, &entries)?;
        for n in and_beyond(contents.len()) {
            self.pair("content_header", &n, head, raw::content_header(r, head, n), contents.get(n))?;
        }
        let params = headers.iter().map(|spot| spot.params.len()).sum();
        self.same("count_headers", &"all", raw::count_headers(r, head), headers.len())?;
        self.same("count_params", &"all", raw::count_params(r, head), params)?;
        self.same("count_contents", &"all", raw::count_contents(r, head), contents.len())?;
        let from_start = |s: &[u8]| Part { found: true, start: 0, length: s.len() };
        let content_type = l.message.map_or_else(Part::default, |m| from_start(m.content_type().as_bytes()));
        self.part("content_type", &"it", raw::content_type(r, head), content_type)?;
        let place = l.whole.map_or_else(Part::default, |m| from_start(m.body()));
        self.part("body", &"it", raw::body(r, head, body), place)?;
        let as_str = l.whole.is_some_and(|m| m.body_as_str().is_ok());
        self.same("body_as_str", &"it", raw::body_as_str(r, head, body), as_str)
    }

    pub fn alone(&mut self, l: &LentAlone) -> Compared {
        let (r, store) = (l.record, l.store);
        let value = |h: &CpimHeader| Part { found: true, start: 16, length: h.value().len() };
        let here = raw::header_value(r, store);
        self.part("header_value", &"it", here, l.header.map_or_else(Part::default, value))?;
        alike("header_value", &"it", here.of(store), l.header.map(|h| h.value().as_bytes()))?;
        let params = l.header.map_or_else(Vec::new, spots_alone);
        for n in and_beyond(params.len()) {
            self.pair("header_param", &n, store, raw::header_param(r, store, n), params.get(n))?;
        }
        Ok(())
    }
}
