//! The leaves, proved in the crates that crates/leaf_exports names, as safe functions. Each tests what the function asks for.

pub use common::Random;

mod raw {
    extern "C" {
        pub fn leaves_is_utf8(s: *const u8, n: usize) -> bool;
        pub fn leaves_is_white(s: *const u8, n: usize) -> bool;
        pub fn leaves_is_control(s: *const u8, n: usize) -> bool;
        pub fn leaves_trim(out: *mut u8, m: usize, s: *const u8, n: usize) -> usize;
        pub fn leaves_replaced_len(s: *const u8, n: usize) -> usize;
        pub fn leaves_put_replaced(out: *mut u8, m: usize, s: *const u8, n: usize) -> usize;
        pub fn leaves_escaped_len(s: *const u8, n: usize) -> usize;
        pub fn leaves_escape(out: *mut u8, m: usize, s: *const u8, n: usize) -> usize;
        pub fn leaves_value_text_len(s: *const u8, n: usize) -> usize;
        pub fn leaves_put_value_text(out: *mut u8, m: usize, s: *const u8, n: usize) -> usize;
        pub fn leaves_reads(s: *const u8, n: usize) -> bool;
        pub fn leaves_unescaped_len(s: *const u8, n: usize) -> usize;
        pub fn leaves_unescape(out: *mut u8, m: usize, s: *const u8, n: usize) -> usize;
        pub fn leaves_find(text: *const u8, n: usize, pattern: *const u8, k: usize) -> usize;
        pub fn leaves_find_plain(text: *const u8, n: usize, pattern: *const u8, k: usize) -> usize;
        pub fn leaves_joined_len(rest: *const u8, n: usize) -> usize;
        pub fn leaves_join_body(out: *mut u8, m: usize, rest: *const u8, n: usize) -> usize;
        pub fn leaves_copy_at(dst: *mut u8, m: usize, at: usize, src: *const u8, n: usize);
        pub fn leaves_shift(s: *mut u8, n: usize, from: usize, to: usize, k: usize);
        pub fn leaves_zero_fill(s: *mut u8, n: usize);
        pub fn leaves_before(a: *const u8, n: usize, b: *const u8, m: usize) -> bool;
        pub fn leaves_same(a: *const u8, n: usize, b: *const u8, m: usize) -> bool;
        pub fn leaves_same_letters(a: *const u8, n: usize, b: *const u8, m: usize) -> bool;
        pub fn leaves_says(text: *const u8, n: usize, pattern: *const u8, k: usize) -> bool;
        pub fn leaves_find_byte(s: *const u8, n: usize, c: u8) -> usize;
    }
}

// SAFETY of every call below: a slice is passed as its pointer and its length, and what the function asks for is tested.

pub fn is_utf8(s: &[u8]) -> bool {
    unsafe { raw::leaves_is_utf8(s.as_ptr(), s.len()) }
}

pub fn is_white(s: &[u8]) -> bool {
    unsafe { raw::leaves_is_white(s.as_ptr(), s.len()) }
}

pub fn is_control(s: &[u8]) -> bool {
    unsafe { raw::leaves_is_control(s.as_ptr(), s.len()) }
}

/// Writes the trimmed text to the start of `out` and gives its length.
pub fn trim(out: &mut [u8], s: &[u8]) -> usize {
    assert!(s.len() <= out.len());
    unsafe { raw::leaves_trim(out.as_mut_ptr(), out.len(), s.as_ptr(), s.len()) }
}

pub fn replaced_len(s: &[u8]) -> usize {
    assert!(s.len() < 1 << 60);
    unsafe { raw::leaves_replaced_len(s.as_ptr(), s.len()) }
}

/// Writes `s` with its ill-formed subparts replaced to the start of `out` and gives the length.
pub fn put_replaced(out: &mut [u8], s: &[u8]) -> usize {
    assert!(replaced_len(s) <= out.len());
    unsafe { raw::leaves_put_replaced(out.as_mut_ptr(), out.len(), s.as_ptr(), s.len()) }
}

pub fn escaped_len(s: &[u8]) -> usize {
    assert!(s.len() < 1 << 60);
    unsafe { raw::leaves_escaped_len(s.as_ptr(), s.len()) }
}

/// Writes `s` escaped to the start of `out` and gives the length.
pub fn escape(out: &mut [u8], s: &[u8]) -> usize {
    assert!(escaped_len(s) <= out.len());
    unsafe { raw::leaves_escape(out.as_mut_ptr(), out.len(), s.as_ptr(), s.len()) }
}

/// The length of a header value as it is written, with the rule for its ends.
pub fn value_text_len(s: &[u8]) -> usize {
    assert!(s.len() < 1 << 60);
    unsafe { raw::leaves_value_text_len(s.as_ptr(), s.len()) }
}

/// Writes a header value so to the start of `out` and gives the length.
pub fn put_value_text(out: &mut [u8], s: &[u8]) -> usize {
    assert!(value_text_len(s) <= out.len());
    unsafe { raw::leaves_put_value_text(out.as_mut_ptr(), out.len(), s.as_ptr(), s.len()) }
}

/// Whether every escape of `s` can be read.
pub fn reads(s: &[u8]) -> bool {
    unsafe { raw::leaves_reads(s.as_ptr(), s.len()) }
}

/// The length of what `s` reads as; 0 where `s` has a bad escape.
pub fn unescaped_len(s: &[u8]) -> usize {
    unsafe { raw::leaves_unescaped_len(s.as_ptr(), s.len()) }
}

/// Writes what `s` reads as to the start of `out` and gives its length, or nothing where `s` has a bad escape. `s` is measured
/// once: every escape stands for a character, so that only an empty text reads as an empty one.
pub fn unescape(out: &mut [u8], s: &[u8]) -> Option<usize> {
    let len = unescaped_len(s);
    if len == 0 && !s.is_empty() {
        return None;
    }
    assert!(len <= out.len());
    Some(unsafe { raw::leaves_unescape(out.as_mut_ptr(), out.len(), s.as_ptr(), s.len()) })
}

pub fn find(text: &[u8], pattern: &[u8]) -> usize {
    assert!(!pattern.is_empty());
    unsafe { raw::leaves_find(text.as_ptr(), text.len(), pattern.as_ptr(), pattern.len()) }
}

pub fn find_plain(text: &[u8], pattern: &[u8]) -> usize {
    assert!(!pattern.is_empty());
    unsafe { raw::leaves_find_plain(text.as_ptr(), text.len(), pattern.as_ptr(), pattern.len()) }
}

/// The length of the pieces of `rest` between LFLF, joined by CRLFCRLF.
pub fn joined_len(rest: &[u8]) -> usize {
    assert!(rest.len() <= 20_971_520);
    unsafe { raw::leaves_joined_len(rest.as_ptr(), rest.len()) }
}

/// Writes these pieces, so joined, to the start of `out`, up to the first that does not fit with the CRLFCRLF ahead of it, and tells their length.
pub fn join_body(out: &mut [u8], rest: &[u8]) -> usize {
    assert!(rest.len() <= 20_971_520);
    unsafe { raw::leaves_join_body(out.as_mut_ptr(), out.len(), rest.as_ptr(), rest.len()) }
}

pub fn copy_at(dst: &mut [u8], at: usize, src: &[u8]) {
    assert!(at <= dst.len() && src.len() <= dst.len() - at);
    unsafe { raw::leaves_copy_at(dst.as_mut_ptr(), dst.len(), at, src.as_ptr(), src.len()) }
}

pub fn shift(s: &mut [u8], from: usize, to: usize, n: usize) {
    assert!(n <= s.len() && from <= s.len() - n && to <= s.len() - n);
    unsafe { raw::leaves_shift(s.as_mut_ptr(), s.len(), from, to, n) }
}

pub fn zero_fill(s: &mut [u8]) {
    unsafe { raw::leaves_zero_fill(s.as_mut_ptr(), s.len()) }
}

pub fn before(a: &[u8], b: &[u8]) -> bool {
    unsafe { raw::leaves_before(a.as_ptr(), a.len(), b.as_ptr(), b.len()) }
}

pub fn same(a: &[u8], b: &[u8]) -> bool {
    unsafe { raw::leaves_same(a.as_ptr(), a.len(), b.as_ptr(), b.len()) }
}

pub fn same_letters(a: &[u8], b: &[u8]) -> bool {
    unsafe { raw::leaves_same_letters(a.as_ptr(), a.len(), b.as_ptr(), b.len()) }
}

/// Whether `pattern`, in lower case, stands in `text`, whose letters are of any ASCII case.
pub fn says(text: &[u8], pattern: &[u8]) -> bool {
    unsafe { raw::leaves_says(text.as_ptr(), text.len(), pattern.as_ptr(), pattern.len()) }
}

pub fn find_byte(s: &[u8], c: u8) -> usize {
    unsafe { raw::leaves_find_byte(s.as_ptr(), s.len(), c) }
}
