//! Damage to texts: bytes exchanged, left out and put in, cuts, parts doubled or moved.

use common::Random;

#[rustfmt::skip]
const PIECES: [&[u8]; 26] = [
    b":", b";", b"=", b"\\", b"\"", b" ", b"\t", b"\r", b"\n", b"\r\n", b"\n\n", b"\r\n\r\n", b"\0", b"\x7f", b"\xff", b"\xc2",
    b"\xe2\x80", b"\xed\xa0\x80", b"\xc2\xa0", b"\xc2\x85", b"\xe2\x80\x83", b"\xc4\xb0", b"\\u0041", b"Content-type: b", b"<", b"a",
];

pub fn damage(random: &mut Random, s: &mut Vec<u8>) {
    for _ in 0..1 + random.below(3) {
        if s.is_empty() {
            return;
        }
        let at = random.below(s.len());
        let to = (at + 1 + random.below(40)).min(s.len());
        match random.below(12) {
            0 => s[at] = random.byte(),
            1 => s[at] ^= 1 << random.below(8),
            2 => drop(s.remove(at)),
            3 => s.truncate(at),
            4 => drop(s.drain(at..to)),
            5 => {
                let part = s[at..to].to_vec();
                s.splice(at..at, part);
            }
            6 => {
                let (part, place) = (s[at..to].to_vec(), random.below(s.len()));
                s.splice(place..place, part);
            }
            7 => {
                // A line end of the other kind, where one stands next.
                if let Some(k) = s[at..].iter().position(|b| *b == b'\n') {
                    let k = at + k;
                    if k > 0 && s[k - 1] == b'\r' {
                        s.remove(k - 1);
                    } else {
                        s.insert(k, b'\r');
                    }
                }
            }
            8 => {
                let many = random.pick(&PIECES).repeat(1 + random.below(60));
                s.splice(at..at, many);
            }
            _ => {
                let piece = random.pick(&PIECES);
                s.splice(at..at, piece.iter().copied());
            }
        }
    }
}
