//! Texts as partners write them by RFC 3862, and what the second reading has to say of each.

use crate::compared::Compared;
use beside::manner::Manner::Rfc;

const FIRST: &str = "Content-type: Message/CPIM\r\n\r\n";
const REST: &str = "\r\n\r\nContent-type: text/plain; charset=utf-8\r\n\r\nIt hangs in the hall.";

/// Header lines, and the refusal of a text that has them, 0 where it is accepted.
const LINES: [(&str, u64); 14] = [
    ("From: East counter <im:east@depots.example>\r\nTo: North counter <im:north@depots.example>\r\nDateTime: 2026-03-14T09:26:53Z", 0),
    ("Subject: An umbrella\r\nSubject:;lang=fr Un parapluie\r\nSubject:;lang=de;depot=north Ein Schirm", 0),
    ("NS: depot <urn:example:depot>\r\nRequire: depot.Shelf\r\ndepot.Shelf: 14", 0),
    // An apostrophe as the RFC lets it be escaped, and raw; a number and no plus sign.
    ("Subject: The driver\\'s umbrella", 0),
    ("Subject: The driver's umbrella\\u002e", 0),
    ("Subject: The driver\\u+027s umbrella", 5),
    // A quoted string for a value; its quotes are taken as they are.
    ("From: \"East, counter 4\" <im:east@depots.example>", 0),
    // A quoted string for a parameter's value, also one with a space or a semicolon in it.
    ("Subject:;depot=\"north\" Umbrella", 16),
    ("Subject:;depot=\"north yard\" Umbrella", 16),
    ("Subject:;depot=\"north;yard\" Umbrella", 16),
    ("Subject:;depot=\"\" Umbrella", 16),
    // No space behind the colon; more than one.
    ("Subject:Umbrella", 28),
    ("Subject:   Umbrella", 0),
    // Parameters where the source reads them.
    ("Subject;lang=en: Umbrella", 9),
];

/// Texts without the outer section, which partners leave to what carries the message.
const WITHOUT_FIRST: [(&str, u64); 3] = [
    ("From: <im:east@depots.example>\r\n\r\nContent-type: text/plain\r\n\r\nIt hangs in the hall.", 2),
    ("From: <im:east@depots.example>\r\n\r\nContent-type: text/plain\r\n\r\nIt hangs\r\n\r\nin the hall.", 3),
    // The first section need only have the words somewhere: the content headers are then read as header lines.
    ("Subject: message/cpim\r\n\r\nContent-type: text/plain\r\n\r\nIt hangs\r\n\r\nin the hall.", 0),
];

pub fn texts(c: &mut Compared, part: usize, _: bool) {
    let whole = LINES.map(|(lines, number)| (format!("{FIRST}{lines}{REST}"), number));
    let without_first = WITHOUT_FIRST.map(|(text, number)| (text.to_string(), number));
    let all = whole.into_iter().chain(without_first);
    for (k, (text, number)) in all.enumerate().skip(part).step_by(crate::PARTS) {
        for text in [text.replace('\r', ""), text] {
            assert_eq!(Rfc.parse(&text).map_or_else(|e| e.0, |_| 0), number, "{text}");
            c.text(text.as_bytes(), k as u64);
        }
    }
}
