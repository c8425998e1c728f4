//! Header lines and what each reading makes of them: by the request's words and by the source's own reading, and by the functions in a whole text.

use beside::manner::Manner::{self, Rfc, Source};
use cpim::{parse_cpim, parse_cpim_rfc};

/// Name, value and parameters as `name=value` parted by `;`; or a refusal's number and what it carries.
type Line = Result<(String, String, String), (u64, u64)>;

fn read(name: &str, value: &str, params: &str) -> Line {
    Ok((name.into(), value.into(), params.into()))
}

/// A Subject.
fn subject(value: &str, params: &str) -> Line {
    read("Subject", value, params)
}

fn refused(number: u64) -> Line {
    Err((number, 0))
}

fn joined<'a>(params: impl Iterator<Item = (&'a str, &'a str)>) -> String {
    params.map(|(name, value)| format!("{name}={value}")).collect::<Vec<_>>().join(";")
}

/// By the words of the request, or by the source.
fn expected(manner: Manner, line: &str) -> Line {
    let (name, h) = manner.header_line("", line)?;
    Ok((name, h.value().to_string(), joined(h.params().iter().map(|(n, v)| (n.as_str(), v.as_str())))))
}

/// By the functions.
fn got(manner: Manner, line: &str) -> Line {
    let text = format!("Content-type: Message/CPIM\r\n\r\n{line}\r\n\r\nContent-type: text/plain\r\n\r\nHi");
    let parse = if manner == Rfc { parse_cpim_rfc } else { parse_cpim };
    let m = parse(&text).map_err(|e| (e.number(), e.carried()))?;
    let (name, headers) = m.headers().iter().next().expect("a header");
    let params = joined(headers[0].params().iter().map(|(n, v)| (n.as_str(), v.as_str())));
    Ok((name.to_string(), headers[0].value().to_string(), params))
}

/// A line, what the second reading makes of it, and what the source's does.
fn check(line: &str, second: Line, source: Line) {
    for (manner, line_read) in [(Rfc, second), (Source, source)] {
        assert_eq!(expected(manner, line), line_read, "{manner:?} by the words, {line:?}");
        assert_eq!(got(manner, line), line_read, "{manner:?} by the functions, {line:?}");
    }
}

#[test]
fn parameters_behind_the_colon() {
    let value = |v: &str| subject(v, "");
    check("Subject:;lang=en Hi", subject("Hi", "lang=en"), value(";lang=en Hi"));
    check("Subject:;a= Hi", subject("Hi", "a="), value(";a= Hi"));
    check("Subject:;a==b Hi", subject("Hi", "a==b"), value(";a==b Hi"));
    check("Subject:;a=b:c Hi", subject("Hi", "a=b:c"), value(";a=b:c Hi"));
    check("Subject:;a=1;b=2 Hi", subject("Hi", "a=1;b=2"), value(";a=1;b=2 Hi"));
    check("Subject:;a=1;a=2 Hi", subject("Hi", "a=2"), value(";a=1;a=2 Hi"));
    check("Subject:;a\t=b Hi", refused(14), value(";a\t=b Hi"));
    check(
        "Subject:;\u{a0}a\u{a0}=\u{2003} Hi",
        subject("Hi", "\u{a0}a\u{a0}=\u{2003}"),
        value(";\u{a0}a\u{a0}=\u{2003} Hi"),
    );
    check("Subject:;a=b c Hi", subject("c Hi", "a=b"), value(";a=b c Hi"));
    check("Subject: ;lang=en Hi", subject(";lang=en Hi", ""), value(";lang=en Hi"));
    check("Subject;lang=en: Hi", refused(9), subject("Hi", "lang=en"));
}

#[test]
fn nothing_is_trimmed() {
    check("Subject: Hi", subject("Hi", ""), subject("Hi", ""));
    check("Subject: ", subject("", ""), subject("", ""));
    check("Subject:  Hi ", subject(" Hi ", ""), subject("Hi", ""));
    check("Subject:;a=b  Hi", subject(" Hi", "a=b"), subject(";a=b  Hi", ""));
    check(" Subject : Hi", read(" Subject ", "Hi", ""), subject("Hi", ""));
    check("\u{a0}To\u{85}: \tHi\u{3000}", read("\u{a0}To\u{85}", "\tHi\u{3000}", ""), read("To", "Hi", ""));
}

#[test]
fn escapes() {
    check(r"Subject: \'x", subject("'x", ""), refused(5));
    check(r"Subject: 'x", subject("'x", ""), subject("'x", ""));
    check(r"Subject: \\'x", subject(r"\'x", ""), subject(r"\'x", ""));
    check(r"Subject: \u+041", refused(5), subject("A", ""));
    check(r"Subject: \\u+041", subject(r"\u+041", ""), subject(r"\u+041", ""));
    check(r"Subject: \u0041\u00E9", subject("Aé", ""), subject("Aé", ""));
    check(r"Subject: \u00\'1", refused(5), refused(5));
    for bad in [r"\ud800", r"\u12", r"\q", r"\", r"\u-041", r"\u 041"] {
        check(&format!("Subject: {bad}"), refused(5), refused(5));
    }
    check("Subject: \\\"\\b\\t\\n\\r\\u0020", subject("\"\u{8}\t\n\r ", ""), subject("\"\u{8}\t\n\r ", ""));
}

#[test]
fn the_space_behind_the_colon() {
    check("Subject:Hi", refused(28), subject("Hi", ""));
    check("Subject:", refused(28), subject("", ""));
    check("Subject:\tHi you", refused(28), subject("Hi you", ""));
    check("Subject:\u{a0}Hi you", refused(28), subject("Hi you", ""));
    check("Subject::;a=b Hi", refused(28), subject(":;a=b Hi", ""));
    check("Subject:;lang=en", refused(28), subject(";lang=en", ""));
    check("Subject:;lang=en\tHi", refused(28), subject(";lang=en\tHi", ""));
}

#[test]
fn parameters_that_are_refused() {
    for (params, number) in [
        (";", 27),
        (";a", 27),
        (";a=b;", 27),
        (";;a=b", 27),
        (";a b=c", 27),
        (";=b", 12),
        (";a\"=b", 14),
        (";a\\=b", 14),
        (";a=\"x\"", 16),
        (";a=\"x y\"", 16),
        (";a=x\\", 16),
        (";a=\u{7f}", 16),
    ] {
        check(
            &format!("Subject:{params} Hi"),
            refused(number),
            subject(&format!("{params} Hi"), "").and_then(unescaped),
        );
    }
    check(
        &format!("Subject:;{}=b Hi", "a".repeat(65)),
        Err((13, 65)),
        subject(&format!(";{}=b Hi", "a".repeat(65)), ""),
    );
    check(
        &format!("Subject:;a={} Hi", "b".repeat(257)),
        Err((15, 257)),
        subject(&format!(";a={} Hi", "b".repeat(257)), ""),
    );
    let ten: String = (0..10).map(|k| format!(";p{k}=v")).collect();
    let read = (0..10).map(|k| format!("p{k}=v")).collect::<Vec<_>>().join(";");
    check(&format!("Subject:{ten} Hi"), subject("Hi", &read), subject(&format!("{ten} Hi"), ""));
    for more in [";q=v", ";p0=v"] {
        check(&format!("Subject:{ten}{more} Hi"), Err((21, 11)), subject(&format!("{ten}{more} Hi"), ""));
    }
}

/// What the source makes of a value, which may hold a backslash.
fn unescaped((name, value, params): (String, String, String)) -> Line {
    let value = source::cpim::open_unescape_header_value(&value).ok_or((5, 0))?;
    Ok((name, value, params))
}

/// Two faults in one line: the first in the order of the checks is said.
#[test]
fn the_order_in_a_line() {
    let number = |line: &str| {
        let said = [expected(Rfc, line), got(Rfc, line)].map(|read| read.map_or_else(|e| e.0, |_| 0));
        assert_eq!(said[0], said[1], "{line:?}");
        said[0]
    };
    let long = "a".repeat(1_025);
    let eleven: String = (0..11).map(|k| format!(";p{k}=v")).collect();
    for (line, first) in [
        ("Subject", 4),
        (":x", 6),
        (&format!("{long}:x"), 7),
        ("a\tb:x", 8),
        ("=:x", 9),
        ("Subject:x;a", 28),
        ("Subject:;a", 28),
        ("Subject:;=b", 28),
        ("Subject:;a;=b Hi", 27),
        ("Subject:;=b;a Hi", 12),
        (&format!("Subject:;\"{long}=b Hi"), 13),
        ("Subject:;a\"=\" Hi", 14),
        (&format!("Subject:;a={long}\" Hi"), 15),
        ("Subject:;a=\";b Hi", 16),
        (&format!("Subject:{eleven};a Hi"), 21),
        (&format!("Subject:{eleven} \\q"), 21),
        ("Subject:;a \\q", 27),
        (&format!("Subject:;a=b \\q{long}"), 5),
        (&format!("Subject:;a=b {long}"), 10),
    ] {
        assert_eq!(number(line), first, "{line:?}");
    }
}
