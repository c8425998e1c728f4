//! Small messages to be damaged, and the calls that are then tried on them.

use beside::call::{Call, Function, Function::*};

fn call(function: Function, first: &str, second: &str) -> Call {
    Call { function, first: first.into(), second: second.into() }
}

/// A message and a header alone, built by calls.
pub fn samples() -> [Vec<Call>; 3] {
    let long = "v".repeat(300);
    let whole = "t".repeat(256);
    [
        vec![
            call(New, "text/plain", "Hi"),
            call(From, "<im:a@b>", ""),
            call(HeaderNew, "Hallo", ""),
            call(WithParam, "lang", "de"),
            call(AddObj, "Subject", ""),
            call(Subject, "Hi", ""),
            call(AddContent, "Content-ID", "<1>"),
        ],
        vec![
            call(New, &whole, ""),
            call(HeaderNew, &long, ""),
            call(WithParam, "a", &"w".repeat(250)),
            call(WithParam, "ab", ""),
            call(WithParam, "é", "ü"),
            call(AddObj, "A", ""),
            call(AddHeader, "A", ""),
            call(AddHeader, "A", "\u{1f600}"),
            call(AddHeader, "é", "x"),
            call(AddContent, "Subject", "y"),
            call(AddContent, "z", ""),
        ],
        vec![call(New, "a", "body"), call(HeaderNew, "", "")],
    ]
}

/// One call of each kind, replacing and not.
pub fn battery() -> Vec<Call> {
    vec![
        call(SetBody, "xyz", ""),
        call(SetBody, "", ""),
        call(SetHeader, "From", "x"),
        call(SetHeader, "A", "again"),
        call(AddHeader, "Subject", "again"),
        call(AddHeader, "0", ""),
        call(AddContent, "Content-ID", "2"),
        call(AddContent, "zz", "3"),
        call(AddContent, "a:", "3"),
        call(AddObj, "To", ""),
        call(From, "y", ""),
        call(To, "y", ""),
        call(DateTime, "now", ""),
        call(Subject, "s", ""),
        call(SubjectLang, "s", "en"),
        call(Cc, "c", ""),
        call(Ns, "p", "u"),
        call(Require, "r", ""),
        call(WithContent, "z", "4"),
    ]
}

pub fn header_battery() -> Vec<Call> {
    vec![call(WithParam, "lang", "x"), call(WithParam, "b", "c"), call(WithParam, "", ""), call(AddObj, "To", "")]
}
