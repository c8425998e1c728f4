//! A message of the source in lent stores by crates/format/specs/Layout.antt: what its bytes must be, and what bytes hold.

use cpim::raw::{HeaderRecord, Record};
use source::cpim::{CpimHeader, CpimMessage};

/// The bytes of an entry: its numbers, name, value and parameters.
fn put_entry(out: &mut Vec<u8>, name: &[u8], value: &[u8], params: &[(&[u8], &[u8])]) {
    let tail: usize = params.iter().map(|(n, v)| 16 + n.len() + v.len()).sum();
    let two = |n: usize| [(n % 256) as u8, (n / 256) as u8];
    out.push(name.len() as u8);
    out.extend(two(value.len()));
    out.push(params.len() as u8);
    out.extend(two(tail));
    out.extend([0; 10]);
    out.extend(name);
    out.extend(value);
    for (n, v) in params {
        put_entry(out, n, v, &[]);
    }
}

fn params(h: &CpimHeader) -> Vec<(&[u8], &[u8])> {
    h.params().iter().map(|(n, v)| (n.as_bytes(), v.as_bytes())).collect()
}

fn params_need(h: &CpimHeader) -> usize {
    h.params().iter().map(|(n, v)| 16 + n.len() + v.len()).sum()
}

/// The room that a header alone needs.
pub fn need_alone(h: &CpimHeader) -> usize {
    16 + h.value().len() + params_need(h)
}

fn headers_need(m: &CpimMessage) -> usize {
    m.headers().iter().map(|(n, hs)| hs.iter().map(|h| n.len() + need_alone(h)).sum::<usize>()).sum()
}

fn contents_need(m: &CpimMessage) -> usize {
    m.content_headers().iter().map(|(n, v)| 16 + n.len() + v.len()).sum()
}

/// The room that a message needs in the head store.
pub fn need(m: &CpimMessage) -> usize {
    256 + headers_need(m) + contents_need(m)
}

pub fn layout(m: &CpimMessage) -> Vec<u8> {
    let mut out = m.content_type().as_bytes().to_vec();
    out.resize(256, 0);
    for (name, headers) in m.headers() {
        for h in headers {
            put_entry(&mut out, name.as_bytes(), h.value().as_bytes(), &params(h));
        }
    }
    for (name, value) in m.content_headers() {
        put_entry(&mut out, name.as_bytes(), value.as_bytes(), &[]);
    }
    out
}

pub fn record(m: &CpimMessage) -> Record {
    Record {
        typelen: m.content_type().len(),
        headers: m.headers().values().map(Vec::len).sum(),
        headerlen: headers_need(m),
        contents: m.content_headers().len(),
        contentlen: contents_need(m),
        bodylen: m.body().len(),
    }
}

pub fn layout_alone(h: &CpimHeader) -> Vec<u8> {
    let mut out = vec![0; 16];
    out.extend(h.value().as_bytes());
    for (n, v) in params(h) {
        put_entry(&mut out, n, v, &[]);
    }
    out
}

pub fn record_alone(h: &CpimHeader) -> HeaderRecord {
    HeaderRecord { valuelen: h.value().len(), params: h.params().len(), size: need_alone(h) }
}

type Entry<'a> = (&'a [u8], &'a [u8], Vec<(&'a [u8], &'a [u8])>);

/// What stands in a head store by its record's numbers.
#[derive(Debug)]
pub struct Decoded<'a> {
    pub content_type: &'a [u8],
    pub headers: Vec<Entry<'a>>,
    pub contents: Vec<Entry<'a>>,
}

fn split(s: &[u8], at: usize) -> Option<(&[u8], &[u8])> {
    (at <= s.len()).then(|| s.split_at(at))
}

/// The first entry of `s`, and what lies behind it.
fn entry(s: &[u8]) -> Option<(Entry<'_>, &[u8])> {
    let (fixed, rest) = split(s, 16)?;
    let two = |at: usize| fixed[at] as usize + 256 * fixed[at + 1] as usize;
    if fixed[6..].iter().any(|b| *b != 0) {
        return None;
    }
    let (name, rest) = split(rest, fixed[0] as usize)?;
    let (value, rest) = split(rest, two(1))?;
    let (tail, rest) = split(rest, two(4))?;
    Some(((name, value, plain(tail, fixed[3] as usize)?), rest))
}

/// Exactly `count` entries in `s`.
fn entries(mut s: &[u8], count: usize) -> Option<Vec<Entry<'_>>> {
    let mut all = Vec::new();
    for _ in 0..count {
        let (e, rest) = entry(s)?;
        all.push(e);
        s = rest;
    }
    s.is_empty().then_some(all)
}

/// Exactly `count` entries without parameters in `s`.
fn plain(s: &[u8], count: usize) -> Option<Vec<(&[u8], &[u8])>> {
    if count == 0 {
        return s.is_empty().then(Vec::new);
    }
    entries(s, count)?.into_iter().map(|(n, v, ps)| ps.is_empty().then_some((n, v))).collect()
}

/// By the numbers alone: no validator, no order of names is asked for.
pub fn decode(r: Record, head: &[u8]) -> Option<Decoded<'_>> {
    let (first, rest) = split(head, 256)?;
    let (content_type, padding) = split(first, r.typelen)?;
    if padding.iter().any(|b| *b != 0) {
        return None;
    }
    let (headers, rest) = split(rest, r.headerlen)?;
    let (contents, _) = split(rest, r.contentlen)?;
    let contents = entries(contents, r.contents)?;
    if contents.iter().any(|(_, _, ps)| !ps.is_empty()) {
        return None;
    }
    Some(Decoded { content_type, headers: entries(headers, r.headers)?, contents })
}

impl Decoded<'_> {
    /// Whether this is the message, but for its body.
    pub fn is(&self, m: &CpimMessage) -> bool {
        let headers = m.headers().iter().flat_map(|(n, hs)| hs.iter().map(|h| (n.as_bytes(), h)));
        let contents = m.content_headers().iter().map(|(n, v)| (n.as_bytes(), v.as_bytes()));
        self.content_type == m.content_type().as_bytes()
            && headers.map(|(n, h)| (n, h.value().as_bytes(), params(h))).eq(self.headers.iter().cloned())
            && contents.eq(self.contents.iter().map(|(n, v, _)| (*n, *v)))
    }

    /// The message built by the source's own calls; none where they refuse a part of it.
    fn built(&self, body: Vec<u8>) -> Option<CpimMessage> {
        let mut m = CpimMessage::new(text(self.content_type)?, body).ok()?;
        for (name, value, params) in &self.headers {
            m.add_header_obj(text(name)?, built_alone(value, params)?).ok()?;
        }
        for (name, value, _) in &self.contents {
            m.add_content_header(text(name)?, text(value)?).ok()?;
        }
        Some(m)
    }
}

fn text(s: &[u8]) -> Option<&str> {
    std::str::from_utf8(s).ok()
}

fn built_alone(value: &[u8], params: &[(&[u8], &[u8])]) -> Option<CpimHeader> {
    let mut h = CpimHeader::new(text(value)?).ok()?;
    for (name, value) in params {
        h = h.with_param(text(name)?, text(value)?).ok()?;
    }
    Some(h)
}

/// The message that record and stores hold, if they hold one: it is built again from what stands there, and its record and bytes
/// have to be the same (names out of order or given twice come out otherwise). Where no body store is lent its bytes are free.
pub fn held(r: Record, head: &[u8], body: Option<&[u8]>) -> Option<CpimMessage> {
    let body = match body {
        Some(store) => store.get(..r.bodylen)?.to_vec(),
        None if r.bodylen <= 10_485_760 => vec![0; r.bodylen],
        None => return None,
    };
    let m = decode(r, head)?.built(body)?;
    (record(&m) == r && head.starts_with(&layout(&m))).then_some(m)
}

/// The header that a record and a header store hold, if they hold one.
pub fn held_alone(r: HeaderRecord, store: &[u8]) -> Option<CpimHeader> {
    let (all, _) = split(store, r.size)?;
    let (_, rest) = split(all, 16)?;
    let (value, rest) = split(rest, r.valuelen)?;
    let h = built_alone(value, &plain(rest, r.params)?)?;
    (record_alone(&h) == r && store.starts_with(&layout_alone(&h))).then_some(h)
}
