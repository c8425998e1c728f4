//! A header with its parameters.

use crate::error::{CpimError, Refusal};
use crate::places::Entry;
use crate::raw::{self, text, Answer, HeaderRecord};
use crate::text::SmolStr;
use std::collections::BTreeMap;
use std::fmt;
use std::sync::OnceLock;

/// A CPIM message header with optional parameters.
#[derive(Clone)]
pub struct CpimHeader {
    record: HeaderRecord,
    store: Vec<u8>,
    /// Made at its first use.
    params: OnceLock<BTreeMap<SmolStr, SmolStr>>,
}

/// Calls with a store that grows as far as the call asks for.
fn growing(store: &mut Vec<u8>, call: impl Fn(&mut [u8]) -> Answer<HeaderRecord>) -> Result<HeaderRecord, CpimError> {
    loop {
        match call(store).accepted() {
            Err(Refusal { number: 25, carried }) if carried as usize > store.len() => store.resize(carried as usize, 0),
            answer => return answer.map_err(CpimError::from),
        }
    }
}

impl CpimHeader {
    /// Creates a new CPIM header with the given value.
    pub fn new(value: &str) -> Result<Self, CpimError> {
        let mut store = Vec::new();
        let record = growing(&mut store, |store| raw::header_new(value.as_bytes(), store))?;
        Ok(CpimHeader { record, store, params: OnceLock::new() })
    }

    /// Adds a parameter to the header.
    pub fn with_param(mut self, name: &str, value: &str) -> Result<Self, CpimError> {
        let (record, n, v) = (self.record, name.as_bytes(), value.as_bytes());
        self.record = growing(&mut self.store, |store| raw::header_with_param(record, store, n, v))?;
        self.params.take();
        Ok(self)
    }

    /// Returns the header value.
    pub fn value(&self) -> &str {
        text(raw::header_value(self.record, &self.store).of(&self.store).expect("a header"))
    }

    /// Returns the header parameters.
    pub fn params(&self) -> &BTreeMap<SmolStr, SmolStr> {
        self.params.get_or_init(|| {
            let nth = |n| raw::header_param(self.record, &self.store, n).of(&self.store);
            pairs((0..self.record.params).filter_map(nth).map(|(name, value)| (text(name), text(value))))
        })
    }

    pub(crate) fn record(&self) -> HeaderRecord {
        self.record
    }

    pub(crate) fn store(&self) -> &[u8] {
        &self.store
    }

    /// A header of a message by itself, built by the calls that build any; each part of it has passed them before.
    pub(crate) fn of(entry: Entry<'_>) -> Self {
        let params = || entry.params().map(|p| (p.name().as_bytes(), p.value().as_bytes()));
        let value = entry.value().as_bytes();
        let mut store = vec![0; 16 + value.len() + params().map(|(n, v)| 16 + n.len() + v.len()).sum::<usize>()];
        let mut record = raw::header_new(value, &mut store).accepted().expect("the value of a header");
        for (name, value) in params() {
            record = raw::header_with_param(record, &mut store, name, value).accepted().expect("a parameter");
        }
        CpimHeader { record, store, params: OnceLock::new() }
    }

    fn held(&self) -> &[u8] {
        &self.store[..self.record.size]
    }
}

/// The map of names and values.
pub(crate) fn pairs<'a>(entries: impl Iterator<Item = (&'a str, &'a str)>) -> BTreeMap<SmolStr, SmolStr> {
    entries.map(|(name, value)| (SmolStr::new(name), SmolStr::new(value))).collect()
}

/// The bytes are a function of value and parameters.
impl PartialEq for CpimHeader {
    fn eq(&self, other: &Self) -> bool {
        self.record == other.record && self.held() == other.held()
    }
}

impl fmt::Debug for CpimHeader {
    fn fmt(&self, f: &mut fmt::Formatter<'_>) -> fmt::Result {
        f.debug_struct("CpimHeader").field("value", &self.value()).field("params", self.params()).finish()
    }
}
