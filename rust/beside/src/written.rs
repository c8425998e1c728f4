//! The text that must be written for a message: what the source writes, or, where a header value has white space at an end, what document 02's T-03
//! says.

use common::{grouped, has_white_end, value_text};
use source::cpim::{open_escape_header_value, CpimMessage};
use std::process::exit;

/// A text, and whether the rule says it and not the source.
pub struct Written {
    pub text: String,
    pub by_rule: bool,
}

/// Document 01's "Writing", with header values as `value` writes them.
fn text(m: &CpimMessage, value: fn(&str) -> String) -> String {
    let mut text = String::from("Content-type: Message/CPIM\r\n\r\n");
    for (name, headers) in m.headers() {
        for h in headers {
            let params: String = h.params().iter().map(|(name, value)| format!(";{name}={value}")).collect();
            text += &format!("{name}:{params} {}\r\n", value(h.value()));
        }
    }
    text += &format!("\r\nContent-type: {}\r\n", m.content_type());
    for (name, value) in m.content_headers() {
        text += &format!("{name}: {value}\r\n");
    }
    text + "\r\n" + &String::from_utf8_lossy(m.body())
}

/// With the source's own values it must be what the source writes, and so it must with the rule's where no value has such an end.
pub fn written(m: &CpimMessage) -> Written {
    let source = m.to_string().expect("the text of a message");
    assert!(text(m, open_escape_header_value) == source, "all but the values is the source's: {m:?}");
    let text = text(m, value_text);
    let by_rule = m.headers().values().flatten().any(|h| has_white_end(h.value()));
    assert!(by_rule == (text != source), "the rule differs from the source just where a value has such an end: {m:?}");
    Written { text, by_rule }
}

/// How many texts were compared, and how many messages were read back whole: those that the source decides, and those that the rule does.
#[derive(Clone, Copy, Default)]
pub struct Texts {
    pub compared: [u64; 2],
    pub whole: [u64; 2],
}

impl Texts {
    pub fn compared(&mut self, due: &Written) {
        self.compared[usize::from(due.by_rule)] += 1;
    }

    pub fn read_back(&mut self, due: &Written, whole: bool) {
        self.whole[usize::from(due.by_rule)] += u64::from(whole);
    }

    pub fn add(&mut self, more: &Texts) {
        self.compared.iter_mut().zip(more.compared).for_each(|(a, b)| *a += b);
        self.whole.iter_mut().zip(more.whole).for_each(|(a, b)| *a += b);
    }

    /// Prints them, and ends the program with a failure where either side has fewer than so many texts, or none that came back.
    pub fn say(&self, least: u64) {
        let ([by_source, by_rule], [source_whole, rule_whole]) = (self.compared.map(grouped), self.whole.map(grouped));
        println!(
            "Texts compared with the source: {by_source}, with the rule for the ends of header values: {by_rule}; \
             messages read back whole: {source_whole} and {rule_whole}."
        );
        if self.compared.iter().any(|n| *n < least) || self.whole.contains(&0) {
            eprintln!("too few texts: at least {} of each", grouped(least));
            exit(1);
        }
    }
}
