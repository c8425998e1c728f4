//! What the programs that compare with Rust have in common.

mod anew;
mod clock;
mod document;
mod machine;
pub mod measure;
mod random;
mod value;
mod words;
mod work;

pub use anew::{is_one_run, run, runs, runs_where, told};
pub use clock::median;
pub use document::{load, range, store, with_load};
pub use machine::machine;
pub use random::Random;
pub use value::{has_white_end, is_plain_white, value_text, WHITE_SPACE};
pub use words::words;
pub use work::in_parts;

/// With a comma behind every three digits.
pub fn grouped(n: u64) -> String {
    if n < 1_000 {
        return n.to_string();
    }
    format!("{},{:03}", grouped(n / 1_000), n % 1_000)
}

/// The names, behind their prefix, of the C functions that a crate's source exports.
pub fn exports<'a>(source: &'a str, prefix: &'a str) -> impl Iterator<Item = &'a str> {
    let names = source.lines().filter_map(|line| line.strip_prefix("pub extern \"C\" fn ")?.split(['(', '<']).next());
    names.map(move |name| name.strip_prefix(prefix).unwrap_or(name))
}
