//! Which messages come back whole: by what each reading makes of the text that must be written; the condition for it; and what is lost first by the
//! source's own reading, by demand 3's condition in its order.

use crate::manner::Manner;
use cpim::raw::Loss;
use source::cpim::CpimMessage;

/// Whether the message is read back from its text.
pub fn comes_back(manner: Manner, m: &CpimMessage, text: &str) -> bool {
    manner.parse(text).is_ok_and(|k| k == *m)
}

fn clear(s: &str) -> bool {
    s.trim() == s
}

/// For each clause of demand 3's condition the first entry that fails it. No clause asks about the ends of header values: they are written so that
/// they come back.
fn clauses(m: &CpimMessage) -> [Option<usize>; 7] {
    let headers: Vec<_> = m.headers().iter().flat_map(|(n, hs)| hs.iter().map(move |h| (n.as_str(), h))).collect();
    let contents: Vec<_> = m.content_headers().iter().map(|(n, v)| (n.as_str(), v.as_str())).collect();
    let whole = |clear: bool| if clear { None } else { Some(0) };
    [
        whole(!headers.is_empty()),
        headers.iter().position(|(_, h)| !h.params().is_empty()),
        whole(std::str::from_utf8(m.body()).is_ok()),
        contents.iter().position(|(n, _)| n.eq_ignore_ascii_case("content-type")),
        headers.iter().position(|(n, _)| !clear(n)),
        contents.iter().position(|(n, v)| !clear(n) || !clear(v)),
        whole(clear(m.content_type())),
    ]
}

pub fn loss(m: &CpimMessage) -> Loss {
    let clauses = clauses(m);
    let first = clauses.iter().position(Option::is_some);
    first.map_or(Loss { clause: 0, entry: 0 }, |k| Loss { clause: k + 1, entry: clauses[k].unwrap() })
}

/// Whether a message meets the condition of a reading. That of the second is "the old test with three changes: parameters are allowed if no parameter
/// name or value holds U+0020, and header names and header values may have any ends" (document 02, T-01).
pub fn condition(manner: Manner, m: &CpimMessage) -> bool {
    let [has_header, no_param, body, not_type, _name_ends, content_ends, type_ends] = clauses(m);
    match manner {
        Manner::Source => loss(m).clause == 0,
        Manner::Rfc => {
            let params = || m.headers().values().flatten().flat_map(|h| h.params());
            let spaceless =
                no_param.is_none() || params().all(|(name, value)| !name.contains(' ') && !value.contains(' '));
            spaceless && [has_header, body, not_type, content_ends, type_ends].iter().all(Option::is_none)
        }
    }
}
