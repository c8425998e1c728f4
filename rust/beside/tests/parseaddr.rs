//! Values with names before their addresses. Python's email.utils.parseaddr, which knows nothing of this project, says what the address is in those of
//! parseaddr/values.tsv (parseaddr/values.py says how they were made), or of another such file that the variable PARSEADDR_VALUES names.

#[path = "../../cpim/tests/values/addresses.rs"]
mod addresses;

use addresses::ADDRESSES;
use beside::address::{address, address_of};
use std::env;
use std::fs::read_to_string;

/// What stands in the names, within quotes, of one value in ten at least.
const IN_QUOTES: [char; 3] = ['<', '>', '\\'];

#[test]
fn values_that_parseaddr_reads() {
    let stored = concat!(env!("CARGO_MANIFEST_DIR"), "/parseaddr/values.tsv");
    let path = env::var("PARSEADDR_VALUES").unwrap_or_else(|_| stored.to_string());
    let file = read_to_string(&path).unwrap_or_else(|e| panic!("{path}: {e}"));
    let (mut values, mut quoted) = (0, [0; IN_QUOTES.len()]);
    for line in file.lines().filter(|line| !line.starts_with('#')) {
        let (value, found) = line.split_once('\t').unwrap_or_else(|| panic!("{path}: no tab in {line}"));
        assert_eq!((address_of(value), cpim::address(value)), (Some(found), Some(found)), "{value}");
        let (name, _) = value.rsplit_once('<').expect("the sign before the address");
        IN_QUOTES.iter().zip(&mut quoted).for_each(|(c, n)| *n += u64::from(name.contains(*c)));
        values += 1;
    }
    assert!(values >= 100, "{path}: too few values, {values}");
    for (c, n) in IN_QUOTES.iter().zip(quoted) {
        assert!(10 * n >= values, "{path}: too few values with {c} in quotes, {n} of {values}");
    }
}

/// What the request's words make of values that are not well formed, and of bytes that are no characters.
#[test]
fn values_of_the_request() {
    for (value, found) in ADDRESSES {
        assert_eq!(address_of(value), found, "{value}");
    }
    assert_eq!(address(b"\"\xFF<\\\xFE\" \xFD <\xFC\xFB>\xFA"), Some((10, 2)));
}
