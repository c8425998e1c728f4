//! Which program compares which of the functions that crates/cpim exports, by their names behind `cpim_`.

use std::process::exit;

pub const BY_CALLS: &[&str] = &[
    "new",
    "set_body",
    "set_header",
    "add_header",
    "add_content_header",
    "add_header_obj",
    "with_from",
    "with_to",
    "with_datetime",
    "with_subject",
    "with_cc",
    "with_require",
    "with_subject_lang",
    "with_ns",
    "with_content_header",
    "header_new",
    "header_with_param",
];
/// What `calls` compares behind each call or each list of calls.
pub const BY_LISTS: &[&str] = &["comes_back", "comes_back_rfc", "loss", "run"];
/// What `calls` looks up behind each call, and on damaged stores.
pub const BY_LOOKUPS: &[&str] = &[
    "get_header",
    "get_header_value",
    "get_param",
    "content_type",
    "body",
    "body_as_str",
    "content_header",
    "header_value",
    "header_param",
    "count_headers",
    "count_params",
    "count_contents",
    "places",
    "address",
];
pub const BY_TEXTS: &[&str] = &[
    "parse",
    "parse_head",
    "read_body",
    "body_part",
    "to_string",
    "comes_back",
    "parse_rfc",
    "parse_head_rfc",
    "comes_back_rfc",
];

const SOURCES: [&str; 2] = [
    include_str!(concat!(env!("CARGO_MANIFEST_DIR"), "/../../crates/cpim/src/lib.rt")),
    include_str!(concat!(env!("CARGO_MANIFEST_DIR"), "/../../crates/cpim/src/lookups.rt")),
];

/// Ends the program with a failure where one of its own functions was not called, or a function stands in no list.
pub fn all_compared(own: &[&str], calls: impl Fn(usize) -> u64) {
    let idle = (0..own.len()).find(|k| calls(*k) == 0).map(|k| own[k]);
    let lists = [BY_CALLS, BY_LISTS, BY_LOOKUPS, BY_TEXTS];
    let mut exports = SOURCES.iter().flat_map(|source| common::exports(source, "cpim_"));
    let forgotten = exports.find(|name| !lists.iter().any(|list| list.contains(name)));
    if let Some(name) = idle.or(forgotten) {
        eprintln!("cpim_{name} is not compared");
        exit(1);
    }
}
