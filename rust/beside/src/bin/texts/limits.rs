//! Every limit by itself: one below, at it and one above, in characters of one byte and of two; the largest message.

use crate::compared::Compared;
use std::iter::repeat_n;

/// Of exactly so many bytes.
fn of(c: char, len: usize) -> String {
    let mut s: String = repeat_n(c, len / c.len_utf8()).collect();
    s.extend(repeat_n('x', len - s.len()));
    s
}

/// A header line of a name, parameters and a value.
type Line = fn(&str, &str, &str) -> String;

/// With the parameters before the colon, where the source reads them.
fn before_colon(name: &str, params: &str, value: &str) -> String {
    format!("{name}{params}: {value}")
}

/// With the parameters behind it, where the second reading looks for them.
fn behind_colon(name: &str, params: &str, value: &str) -> String {
    format!("{name}:{params} {value}")
}

/// Lines of a header section and of a content section.
type Sections = (Vec<String>, Vec<String>);

/// Around the limits.
fn sections(line: Line) -> Vec<Sections> {
    let mut all = Vec::new();
    let mut header = |line: String| all.push((vec!["To: a".into(), line], vec!["x: y".into()]));
    for c in ['a', 'é'] {
        (127..=129).for_each(|n| header(line(&of(c, n), "", "a")));
        (1_023..=1_025).for_each(|n| header(line("From", "", &of(c, n))));
        (63..=65).for_each(|n| header(line("From", &format!(";{}=b", of(c, n)), "a")));
        (255..=257).for_each(|n| header(line("From", &format!(";p={}", of(c, n)), "a")));
    }
    for (escape, bytes) in [("\\n", 1), ("\\u0001", 1), ("\\u00e9", 2), ("\\u20ac", 3)] {
        (1_023..=1_026).for_each(|n| header(format!("From: {}{}", escape.repeat(n / bytes), "x".repeat(n % bytes))));
    }
    (1_023..=1_025).for_each(|n| header(format!("From: \\u0020{}\\u0020", " ".repeat(n - 2))));
    for n in 9..=11 {
        let params = |name: &dyn Fn(usize) -> usize| (0..n).map(|k| format!(";p{}=v{k}", name(k))).collect::<String>();
        header(line("From", &params(&|k| k), "a"));
        header(line("From", &params(&|k| n - k), "a"));
        header(line("From", &params(&|k| k % 10), "a"));
        header(line("From", &format!("{};p0={}", params(&|k| k), of('v', 257)), "a"));
    }
    let mut content = |lines: Vec<String>| all.push((vec!["To: a".into()], lines));
    for c in ['a', 'é'] {
        (127..=129).for_each(|n| content(vec![format!("{}: a", of(c, n))]));
        (1_023..=1_025).for_each(|n| content(vec![format!("x: {}", of(c, n))]));
        (255..=257).for_each(|n| content(vec![format!("Content-type: {}", of(c, n)), "x: y".into()]));
    }
    for n in 19..=21 {
        content((0..n).map(|k| format!("x{k}: {}", of('y', k))).collect());
        content((0..n).rev().map(|k| format!("x{k}: y")).collect());
        content((0..n).map(|k| format!("x{}: {}", k % 20, of('y', 30 - k))).collect());
        content((0..n).map(|k| format!("x{}: y", k % 7)).chain(["x1: z".into(), "Content-type: z".into()]).collect());
    }
    for n in 49..=51 {
        let lines = |name: &dyn Fn(usize) -> usize| (0..n).map(|k| format!("h{}: {k}", name(k))).collect::<Vec<_>>();
        for headers in [lines(&|k| k), lines(&|k| n - k), lines(&|k| k % 3)] {
            all.push((headers, vec!["x: y".into()]));
        }
    }
    // The need of a message may fall while it is read.
    for n in [2, 3, 20] {
        let shrinking = |m: usize| (0..m).map(move |k| format!("x{}: {}", k % 2, of('y', 1 + (m - k) * 50)));
        all.push((vec!["To: a".into()], shrinking(n).collect()));
    }
    all
}

/// Two faults in one line, where parameters are many: which one is said.
fn behind_many() -> Vec<Sections> {
    let mut all = Vec::new();
    for n in 9..=11 {
        let params: String = (0..n).map(|k| format!(";p{k}=v")).collect();
        for (more, value) in [(";p", "a"), (";=", "a"), (";p0=", "a"), (";a\"=", "a"), ("", "\\q")] {
            all.push((vec![behind_colon("From", &format!("{params}{more}"), value)], Vec::new()));
        }
    }
    for n in 49..=51 {
        let lines = (0..n).map(|k| behind_colon(&format!("h{}", k % 7), ";p=q;p=r", "a"));
        all.push((lines.chain(["To:".into()]).collect(), Vec::new()));
    }
    (1_023..=1_025).for_each(|n| all.push((vec![behind_colon("To", "", &"\\'".repeat(n))], Vec::new())));
    all
}

/// 50 headers of 10 parameters each and 20 content headers, all of the greatest lengths; of the given value.
fn largest(line: Line, value: String) -> Sections {
    let params: String = (0..10).map(|k| format!(";{k}{}={}", of('p', 63), of('é', 256))).collect();
    let name = |k: usize| format!("{:02}{}", k * 7 % 50, of('é', 126));
    let headers = (0..50).map(|k| line(&name(k), &params, &value)).collect();
    let contents = (0..20).map(|k| format!("{:02}{}: {}", k * 7 % 20, of('c', 126), of('v', 1_024)));
    (headers, contents.chain([format!("Content-type: {}", of('t', 256))]).collect())
}

pub fn texts(c: &mut Compared, part: usize, _: bool) {
    let mut all = sections(before_colon);
    all.extend(["x", "\\u0001", "\\n"].map(|c| largest(before_colon, c.repeat(1_024))));
    all.push(largest(before_colon, format!("\\u3000{}\\u2003", "\\u0001".repeat(1_018))));
    each(c, part, &all);
}

/// The same with the parameters behind the colons, where only the second reading comes to their limits.
pub fn behind_colons(c: &mut Compared, part: usize, _: bool) {
    let mut all = sections(behind_colon);
    all.extend(behind_many());
    all.extend(["\\'", " "].map(|c| largest(behind_colon, c.repeat(1_024))));
    each(c, part, &all);
}

fn each(c: &mut Compared, part: usize, all: &[Sections]) {
    let ends = [["\r\n\r\n", "\r\n"], ["\n\n", "\n"], ["\r\n\r\n", "\n"], ["\n\n", "\r\n"]];
    for (k, (headers, contents)) in all.iter().enumerate().skip(part).step_by(crate::PARTS) {
        for [separator, end] in ends {
            let text = ["message/cpim", &headers.join(end), &contents.join(end), "body"].join(separator);
            c.text(text.as_bytes(), k as u64);
        }
    }
}
