//! Header values with white space at their ends: how they are written, and that they come back.

use cpim::lent::Message;
use cpim::{parse_cpim, raw, CpimHeader, CpimMessage, Loss, Refusal};

fn notice(value: &str) -> CpimMessage {
    CpimMessage::new("text/plain", b"Found on line 4".to_vec()).unwrap().with_subject(value).unwrap()
}

/// The text of such a notice, with the value as it is written.
fn text(value: &str) -> String {
    format!("Content-type: Message/CPIM\r\n\r\nSubject: {value}\r\n\r\nContent-type: text/plain\r\n\r\nFound on line 4")
}

fn written_as(value: &str, written: &str) {
    let m = notice(value);
    assert_eq!(m.to_string().unwrap(), text(written));
    assert_eq!(format!("{m}"), text(written));
    assert_eq!((m.comes_back(), m.loss()), (true, None), "{value:?}");
    assert_eq!(parse_cpim(&text(written)), Ok(m), "{value:?}");
}

#[test]
fn white_space_at_the_ends_comes_back() {
    let white = (0..0x10000).filter_map(char::from_u32).filter(|c| c.is_whitespace());
    let (controls, plain): (Vec<char>, Vec<char>) = white.partition(|c| c.is_control());
    assert_eq!((controls.len(), plain.len()), (6, 19));
    for c in plain {
        let e = format!("\\u{:04x}", u32::from(c));
        written_as(&format!("{c}"), &e);
        written_as(&format!("{c}{c}"), &format!("{e}{e}"));
        written_as(&format!("{c}{c}{c}"), &format!("{e}{c}{e}"));
        written_as(&format!("{c}x"), &format!("{e}x"));
        written_as(&format!("x{c}"), &format!("x{e}"));
        written_as(&format!("x{c}y"), &format!("x{c}y"));
        written_as(&format!("{c}\t"), &format!("{e}\\t"));
        written_as(&format!("\\{c}"), &format!("\\\\{e}"));
    }
    for (value, written) in [
        ("", ""),
        ("\t", "\\t"),
        ("\r\n", "\\r\\n"),
        ("\u{b}x\u{c}", "\\u000bx\\u000c"),
        ("\u{85}", "\\u0085"),
        ("\u{85} ", "\\u0085\\u0020"),
        ("\u{200b}x\u{feff}", "\u{200b}x\u{feff}"),
        (" \" ", "\\u0020\\\"\\u0020"),
    ] {
        written_as(value, written);
    }
}

#[test]
fn a_parameter_before_such_an_end() {
    let mut m = notice("a");
    let umbrella = CpimHeader::new("Black\u{a0}").unwrap().with_param("depot", "north").unwrap();
    m.add_header_obj("Umbrella", umbrella).unwrap();
    assert_eq!(m.loss(), Some(Loss::Parameter { header: 1, name: "Umbrella" }));
    let text = m.to_string().unwrap();
    assert!(text.contains("\r\nUmbrella:;depot=north Black\\u00a0\r\n"));
    assert_eq!(parse_cpim(&text).unwrap().get_header("Umbrella"), Some(";depot=north Black\u{a0}"));
}

#[test]
fn only_header_values_have_the_rule() {
    let m = notice("a").with_content_header("Content-ID", "7 ").unwrap();
    assert!(m.to_string().unwrap().contains("\r\nContent-ID: 7 \r\n"));
    assert_eq!(m.loss(), Some(Loss::ContentHeader { content_header: 0, name: "Content-ID" }));
}

#[test]
fn the_room_that_they_need() {
    let (mut head, mut body) = ([0; 2_000], [0; 100]);
    for (len, more) in [(1, 5), (2, 10), (1_023, 10), (1_024, 10)] {
        let value = " ".repeat(len);
        let mut m = Message::new(b"text/plain", b"Found on line 4", &mut head, &mut body).unwrap();
        m.with_subject(value.as_bytes()).unwrap();
        let need = text(&value).len() + more;
        let mut out = vec![7; need + 1];
        assert_eq!(m.write(&mut []), Err(Refusal { number: 26, carried: need as u64 }));
        assert_eq!(m.write(&mut out[..need - 1]), Err(Refusal { number: 26, carried: need as u64 }));
        assert!(out.iter().all(|b| *b == 7), "a refused call writes nothing");
        for room in [need, need + 1] {
            assert_eq!(m.write(&mut out[..room]), Ok(need));
            assert_eq!(out[need], 7);
            assert_eq!(out[..need], *notice(&value).to_string().unwrap().as_bytes());
        }
    }
    let mut m = Message::new(b"text/plain", b"", &mut head, &mut body).unwrap();
    assert_eq!(m.with_subject(" ".repeat(1_025).as_bytes()), Err(Refusal { number: 10, carried: 1_025 }));
}

#[test]
fn a_store_whose_value_is_not_utf8() {
    let (mut head, mut body) = ([0; 400], [0; 100]);
    let mut m = Message::new(b"text/plain", b"Hi", &mut head, &mut body).unwrap();
    m.with_subject("x\u{a0}".as_bytes()).unwrap();
    let record = m.record();
    let end = record.need();
    let mut out = [7; 200];
    for (at, byte) in [(end - 1, 0xFF), (end - 1, b'x'), (end - 2, 0xE3), (end - 3, 0xA0)] {
        let before = std::mem::replace(&mut head[at], byte);
        let got = raw::to_string(record, &head, &body, &mut out);
        assert_eq!((got.number, got.carried, got.record, out), (25, 0, 0, [7; 200]));
        head[at] = before;
    }
    assert_eq!(raw::to_string(record, &head, &body, &mut out).number, 0);
}
