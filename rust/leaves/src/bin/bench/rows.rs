//! What is measured.

use crate::texts::*;
use common::measure::{in_turn, rounds};
use leaves::*;
use source::cpim::{open_escape_header_value, open_unescape_header_value};
use std::str::from_utf8;

pub const SIZES: [usize; 6] = [20, 64, 200, 1_000, 20_000, 10_485_760];
pub const NAMES: [&str; 6] = ["20", "64", "200", "1,000", "20,000", "10,485,760"];
/// How many of them header values are measured with.
const VALUES: usize = 5;

/// Measures rows and prints each cell as a line: table, row, goal, size, and the nanoseconds of a call here and there.
pub struct Rows {
    rooms: [Vec<u8>; 2],
}

impl Rows {
    pub fn new() -> Self {
        let room = vec![1; 3 * SIZES[5] + 64];
        Rows { rooms: [room.clone(), room] }
    }

    /// A row: inputs of each size, so many different ones of the short sizes that all stay in the nearest cache.
    fn row<T>(
        &mut self,
        (table, what, goal): (&str, &str, Option<f64>),
        sizes: &[usize],
        make: impl Fn(&mut Random, usize) -> Option<T>,
        ours: impl Fn(&T, &mut [u8]) -> usize,
        theirs: impl Fn(&T, &mut [u8]) -> usize,
    ) {
        let mut random = Random::new(3862);
        for size in sizes {
            let inputs: Vec<T> = (0..(16_000 / size).clamp(1, 16)).filter_map(|_| make(&mut random, *size)).collect();
            if inputs.is_empty() {
                continue;
            }
            let [a, b] = &mut self.rooms;
            let [here, there] = in_turn([rounds(&inputs, a, &ours), rounds(&inputs, b, &theirs)])
                .map(|round| round.time.thread / inputs.len() as f64);
            println!("{table}\t{what}\t{}\t{size}\t{here}\t{there}", goal.unwrap_or(f64::MAX));
        }
    }

    pub fn all(&mut self) {
        self.utf8();
        self.search();
        self.values();
        self.bytes();
        self.bodies();
    }

    fn utf8(&mut self) {
        let texts: [(&str, f64, Maker); 6] = [
            ("ASCII", 1.2, ascii),
            ("one é in each 200 bytes", 1.0, sparse_200),
            ("one é in each 40 bytes", 1.0, sparse_40),
            ("German prose", 1.0, german),
            ("two-byte characters", 1.0, two_byte),
            ("three-byte characters", 1.0, three_byte),
        ];
        for (what, goal, make) in texts {
            let here = |s: &String, _: &mut [u8]| is_utf8(s.as_bytes()).into();
            let there = |s: &String, _: &mut [u8]| from_utf8(s.as_bytes()).is_ok().into();
            self.row(("UTF-8 beside `from_utf8`", what, Some(goal)), &SIZES, make, here, there);
        }
    }

    fn search(&mut self) {
        let texts: [(&str, &str, Maker); 5] = [
            ("CRLFCRLF, no CR", "\r\n\r\n", ascii),
            ("CRLFCRLF, CRLF every 76 bytes", "\r\n\r\n", crlf_lines),
            ("CRLFCRLF at the end, CRLF every 76 bytes", "\r\n\r\n", headers),
            ("CRLFCRLF, CR ab LF once in each 64 bytes", "\r\n\r\n", almost),
            ("LFLF, LF every 76 bytes", "\n\n", lf_lines),
        ];
        for (what, pattern, make) in texts {
            let here = |s: &String, _: &mut [u8]| find(s.as_bytes(), pattern.as_bytes());
            let there = |s: &String, _: &mut [u8]| s.find(pattern).unwrap_or(s.len());
            self.row(("Search beside `str::find`", what, Some(2.0)), &SIZES, make, here, there);
        }
    }

    fn values(&mut self) {
        let texts: [(&str, Maker); 3] = [
            ("nothing to trim", unspaced),
            ("three spaces at the ends", spaces_around),
            ("U+3000 at both ends", wide_spaces_around),
        ];
        for (what, make) in texts {
            let there = |s: &String, out: &mut [u8]| {
                let t = s.trim();
                out[..t.len()].copy_from_slice(t.as_bytes());
                t.len()
            };
            let table = "Trim beside `str::trim` and `copy_from_slice`";
            self.row((table, what, None), &SIZES[..VALUES], make, |s, out| trim(out, s.as_bytes()), there);
        }
        let texts: [(&str, Maker); 5] = [
            ("nothing escaped", ascii),
            ("nothing escaped, German prose", german),
            ("one quote in each 200 bytes", quotes_200),
            ("one quote in each 40 bytes", quotes_40),
            ("one quote in each 10 bytes", quotes_10),
        ];
        for (what, make) in texts {
            let table = "Escape beside the source's `escape_header_value`";
            let there = |s: &String, _: &mut [u8]| open_escape_header_value(s).len();
            self.row((table, what, None), &SIZES[..VALUES], make, |s, out| escape(out, s.as_bytes()), there);
        }
        for (what, make) in texts {
            let table = "Unescape beside the source's `unescape_header_value`";
            let make = |random: &mut Random, n: usize| make(random, n).map(|s| open_escape_header_value(&s));
            let here = |s: &String, out: &mut [u8]| unescape(out, s.as_bytes()).unwrap_or(0);
            let there = |s: &String, _: &mut [u8]| open_unescape_header_value(s).map_or(0, |t| t.len());
            self.row((table, what, None), &SIZES[..VALUES], make, here, there);
        }
    }

    fn bytes(&mut self) {
        let here = |s: &String, out: &mut [u8]| {
            copy_at(out, 0, s.as_bytes());
            0
        };
        let there = |s: &String, out: &mut [u8]| {
            out[..s.len()].copy_from_slice(s.as_bytes());
            0
        };
        let table = "Bytes beside `copy_from_slice`, `fill(0)` and `copy_within`";
        self.row((table, "copy", Some(1.3)), &SIZES, ascii, here, there);
        let here = |n: &usize, out: &mut [u8]| {
            zero_fill(&mut out[..*n]);
            0
        };
        let there = |n: &usize, out: &mut [u8]| {
            out[..*n].fill(0);
            0
        };
        self.row((table, "zero fill", None), &SIZES, |_, n| Some(n), here, there);
        for (what, from, to) in [("move right by 19", 0, 19), ("move left by 19", 19, 0)] {
            let here = |n: &usize, out: &mut [u8]| {
                shift(&mut out[..n + 19], from, to, *n);
                0
            };
            let there = |n: &usize, out: &mut [u8]| {
                out[..n + 19].copy_within(from..from + n, to);
                0
            };
            self.row((table, what, None), &SIZES[..VALUES], |_, n| Some(n), here, there);
        }
    }

    fn bodies(&mut self) {
        let table = "Bodies beside `split` and `join`, and `from_utf8_lossy` and `push_str`";
        let sizes = &SIZES[3..];
        let here = |s: &String, out: &mut [u8]| join_body(out, s.as_bytes());
        let there = |s: &String, _: &mut [u8]| s.split("\n\n").collect::<Vec<_>>().join("\r\n\r\n").len();
        self.row((table, "LFLF joined as CRLFCRLF, every 76 bytes", None), sizes, lf_blank_lines, here, there);
        let written = |s: &Vec<u8>, _: &mut [u8]| {
            let mut text = String::new();
            text.push_str(&String::from_utf8_lossy(s));
            text.len()
        };
        let bytes = |random: &mut Random, n: usize| ascii(random, n).map(String::into_bytes);
        self.row((table, "written, ASCII", None), sizes, bytes, |s, out| put_replaced(out, s), written);
        let prose = |random: &mut Random, n: usize| german(random, n).map(String::into_bytes);
        self.row((table, "written, German prose", None), sizes, prose, |s, out| put_replaced(out, s), written);
        let bad = |random: &mut Random, n: usize| {
            let mut s = ascii(random, n)?.into_bytes();
            s[n / 2] = 0xFF;
            Some(s)
        };
        self.row((table, "written, ASCII with one bad byte", None), sizes, bad, |s, out| put_replaced(out, s), written);
    }
}
