//! The texts that are measured.

use common::Random;

pub const LARGE: usize = 10_485_760;
/// The lengths of a body by which it shows how a cost grows.
pub const SIZES: [usize; 5] = [1_024, 10_240, 102_400, 1_048_576, LARGE];

const ASCII: &str = "the and a of to in is on it was black umbrella with wooden handle left under seat line seven harbour counter depot found this \
    morning brown suitcase no label grey coat size forty two keys ring red ribbon please call before five";
const GERMAN: &str = "der die das und in zu den nicht von sie ist mit sich dem auf ein Schirm schwarz Griff aus Holz Koffer Tasche für über \
    Straße Fundbüro Schlüssel Rückgabe gehört möglich Tür";
const GREEK: &str =
    "η ομπρέλα είναι μαύρη με ξύλινη λαβή κάτω από το κάθισμα στη γραμμή επτά του λιμανιού σήμερα το πρωί παρακαλώ";

/// What a body is written in.
#[derive(Clone, Copy)]
pub enum Script {
    Ascii,
    German,
    Greek,
}

impl Script {
    fn words(self) -> Vec<&'static str> {
        let words = match self {
            Script::Ascii => ASCII,
            Script::German => GERMAN,
            Script::Greek => GREEK,
        };
        words.split_whitespace().collect()
    }
}

/// `n` bytes of words by chance.
fn prose(random: &mut Random, words: &[&str], n: usize) -> String {
    let mut text = String::with_capacity(n + 32);
    while text.len() < n {
        text.push_str(random.pick(words));
        text.push(' ');
    }
    let mut end = n;
    while !text.is_char_boundary(end) {
        end -= 1;
    }
    text.truncate(end);
    text.push_str(&"x".repeat(n - end));
    text
}

/// How many bytes a blank line takes once it is read: CRLFCRLF, also where the text has LFLF.
const BLANK: usize = 4;

/// A body that has `n` bytes once it is read: a blank line behind each `line` bytes.
pub fn blank_lines(script: Script, line_end: &str, line: usize, n: usize) -> String {
    let (mut random, words) = (Random::new(n as u64), script.words());
    let mut text = String::with_capacity(n);
    for from in (0..n).step_by(line + BLANK) {
        let len = n - from;
        if len < line + BLANK {
            text.push_str(&prose(&mut random, &words, len));
        } else {
            text.push_str(&prose(&mut random, &words, line));
            text.push_str(&line_end.repeat(2));
        }
    }
    text
}

/// A body that has `n` bytes once it is read, and a blank line every 76 of them.
fn body(script: Script, line_end: &str, n: usize) -> String {
    blank_lines(script, line_end, 76 - BLANK, n)
}

/// A text with such a body.
pub fn text(script: Script, line_end: &str, n: usize) -> String {
    with_body(line_end, &body(script, line_end, n))
}

/// A text with one header and this body.
pub fn with_body(line_end: &str, body: &str) -> String {
    behind("Content-type: Message/CPIM", line_end, body)
}

/// The same behind a first section.
pub fn behind(first: &str, line_end: &str, body: &str) -> String {
    [first, "From: <im:east@depots.example>", "Content-type: text/plain", body].join(&line_end.repeat(2))
}

/// A notice of 379 bytes with five headers.
pub const NOTICE: &str = "Content-type: Message/CPIM\r\n\r\n\
    From: East counter <im:east@depots.example>\r\n\
    To: North counter <im:north@depots.example>\r\n\
    DateTime: 2026-03-14T09:26:53Z\r\n\
    Subject: Black umbrella with a wooden handle\r\n\
    NS: depot <urn:example:depot>\r\n\r\n\
    Content-type: text/plain; charset=utf-8\r\n\
    Content-ID: <1234@depots.example>\r\n\r\n\
    Found under seat 14 of the 815 from the harbour. It hangs in the hall.";

/// The bytes of the notice before its body.
const BEFORE: usize = 309;

/// A notice of 315 bytes with four headers and no content header.
pub fn plain_notice() -> String {
    let less =
        NOTICE.replace("NS: depot <urn:example:depot>\r\n", "").replace("Content-ID: <1234@depots.example>\r\n", "");
    less + " B"
}

/// `n` bytes of ASCII words by chance, without a line end.
pub fn words(n: usize) -> String {
    prose(&mut Random::new(n as u64), &Script::Ascii.words(), n)
}

/// A notice of `n` bytes: its body has a blank line every 76 of them, or none.
pub fn notice(n: usize, blank_lines: bool) -> String {
    let n = n - BEFORE;
    let body = if blank_lines { body(Script::Ascii, "\r\n", n) } else { words(n) };
    NOTICE[..BEFORE].to_string() + &body
}

/// A notice with a line more at the end of its headers (section 1) or of its content headers (2).
pub fn with_line(notice: &str, section: usize, line: &str) -> String {
    let blank = "\r\n\r\n";
    let mut sections: Vec<&str> = notice.splitn(4, blank).collect();
    let longer = [sections[section], line].join("\r\n");
    sections[section] = &longer;
    sections.join(blank)
}

/// A text of `n` bytes in which so many headers take as much as their limit allows; the body has the rest.
pub fn filled(n: usize, headers: usize) -> String {
    let ends = ["Content-type: Message/CPIM\r\n\r\n", "\r\nContent-type: text/plain\r\n\r\n"];
    let room = n - ends[0].len() - ends[1].len();
    let (mut random, words) = (Random::new(n as u64), Script::Ascii.words());
    let value = (room / headers - "Header-00: \r\n".len()).min(1_024);
    let lines: String =
        (0..headers).map(|k| format!("Header-{k:02}: {}\r\n", prose(&mut random, &words, value))).collect();
    let text = [ends[0], &lines, ends[1]].concat();
    let rest = n - text.len();
    text + &body(Script::Ascii, "\r\n", rest)
}

/// 50 headers with ten parameters each: names, value, and parameters.
pub struct Many {
    pub names: Vec<String>,
    pub value: &'static str,
    pub params: Vec<(String, String)>,
}

pub fn many() -> Many {
    Many {
        names: (0..50).map(|k| format!("Header-{k:02}")).collect(),
        value: "Black umbrella with a wooden handle",
        params: (0..10).map(|k| (format!("param{k}"), format!("value{k}"))).collect(),
    }
}

impl Many {
    /// As it is read: parameters stand before the colon.
    pub fn text(&self) -> String {
        let params: String = self.params.iter().map(|(name, value)| format!(";{name}={value}")).collect();
        let lines: String = self.names.iter().map(|name| format!("{name}{params}: {}\r\n", self.value)).collect();
        format!("Content-type: Message/CPIM\r\n\r\n{lines}\r\nContent-type: text/plain\r\n\r\nHi")
    }
}
