//! The second reading, with parameters where RFC 3862 puts them: the umbrella's depot comes back.

use cpim::lent::{Header, Message};
use cpim::{parse_cpim, parse_cpim_rfc, CpimError, CpimHeader, CpimMessage, Loss, Refusal};

/// A notice whose header has these parameters.
fn notice(name: &str, params: &[(&str, &str)]) -> CpimMessage {
    let header = CpimHeader::new("Black umbrella").unwrap();
    let header = params.iter().fold(header, |h, (name, value)| h.with_param(name, value).unwrap());
    let mut m = CpimMessage::new("text/plain", b"Handle of wood.".to_vec()).unwrap();
    m.add_header_obj(name, header).unwrap();
    m
}

fn text(line: &str) -> String {
    format!("Content-type: Message/CPIM\r\n\r\n{line}\r\n\r\nContent-type: text/plain\r\n\r\nHandle of wood.")
}

/// Whether a notice is read back from its text by the source's reading and by the second one, as both messages say.
fn back(m: &CpimMessage) -> [bool; 2] {
    let text = m.to_string().unwrap();
    let read = [parse_cpim(&text), parse_cpim_rfc(&text)].map(|read| read.as_ref() == Ok(m));
    assert_eq!([m.comes_back(), m.comes_back_rfc()], read, "{text:?}");
    read
}

#[test]
fn what_comes_back() {
    let north = notice("Subject", &[("depot", "north")]);
    assert_eq!(north.to_string().unwrap(), text("Subject:;depot=north Black umbrella"));
    assert_eq!((back(&north), north.loss()), ([false, true], Some(Loss::Parameter { header: 0, name: "Subject" })));
    let ten: Vec<String> = (0..10).map(|k| format!("p{k}")).collect();
    let ten: Vec<(&str, &str)> = ten.iter().map(|name| (name.as_str(), "a=b:c")).collect();
    assert_eq!(back(&notice("Subject", &ten)), [false, true]);
    assert_eq!(back(&notice("Subject", &[])), [true, true]);

    // A space in a parameter is what is lost; other white space, and white space in front of a name, is not.
    assert_eq!(back(&notice("Subject", &[("depot", "north yard")])), [false, false]);
    assert_eq!(back(&notice("Subject", &[("the depot", "north")])), [false, false]);
    assert_eq!(back(&notice("Subject", &[("depot", " ")])), [false, false]);
    assert_eq!(back(&notice("Subject", &[("depot", "north\u{a0}yard\u{2003}")])), [false, true]);
    assert_eq!(back(&notice(" Subject\u{a0}", &[])), [false, true]);
    for value in [" ", "  Hi  ", "\u{a0}", "\t", "", "; a=b", "'\\'\"", "\u{85}x\u{3000}"] {
        let m = CpimMessage::new("text/plain", Vec::new()).unwrap().with_subject(value).unwrap();
        assert_eq!(back(&m), [true, true], "{value:?}");
    }
    // All else is asked for by both.
    assert_eq!(back(&CpimMessage::new("text/plain", Vec::new()).unwrap()), [false, false]);
    assert_eq!(back(&notice("Subject", &[]).with_content_header("a", "b ").unwrap()), [false, false]);
    assert_eq!(back(&notice("Subject", &[]).with_content_header("CONTENT-type", "b").unwrap()), [false, false]);
    let mut ill = notice("Subject", &[]);
    ill.set_body(vec![0xFF]).unwrap();
    assert_eq!(back(&ill), [false, false]);
}

#[test]
fn what_is_refused() {
    let refused = |line: &str| parse_cpim_rfc(&text(line)).unwrap_err();
    let (equals, space) = (refused("Subject:;depot Hi"), refused("Subject:Hi"));
    assert_eq!((equals.number(), equals.carried(), space.number(), space.carried()), (27, 0, 28, 0));
    assert_eq!(equals.refusal().to_string(), "27: parameter without =");
    let words = "28: no space behind the colon of a header line, or neither a space nor ; right behind it";
    assert_eq!((space.refusal().to_string(), space.to_string()), (words.into(), format!("parse error: {words}")));
    assert!(matches!(space, CpimError::ParseError(_)));
    assert_eq!(refused("Subject;lang=en: Hi"), CpimError::InvalidHeaderName("contains invalid characters".into()));
    assert_eq!(
        refused("Subject:;depot=\"north\" Hi"),
        CpimError::InvalidParamValue("contains invalid characters".into())
    );
    assert!(parse_cpim(&text("Subject:Hi")).is_ok() && parse_cpim(&text("Subject;lang=en: Hi")).is_ok());
}

#[test]
fn in_lent_stores() {
    let crlf = text("Subject:;depot=north Black umbrella");
    let lf = crlf.replace('\r', "") + "\n\nAnd a tag.";
    let (mut head, mut other, mut body, mut buffer) = ([1; 400], [2; 400], [3; 40], [4; 40]);
    for text in [&crlf, &lf] {
        let m = Message::parse_rfc(text.as_bytes(), &mut head, &mut body).unwrap();
        let placed = Message::parse_in_place_rfc(text.as_bytes(), &mut other, &mut buffer).unwrap();
        assert_eq!(
            (m.get_header("Subject"), m.nth_param("Subject", 0, 0)),
            (Some("Black umbrella"), Some(("depot", "north")))
        );
        assert_eq!((m.nth_param("Subject", 0, 1), m.comes_back(), m.comes_back_rfc()), (None, false, true));
        assert_eq!((placed.record(), placed.body_in_place()), (m.record(), m.body()));
        assert_eq!(placed.nth_param("Subject", 0, 0), m.nth_param("Subject", 0, 0));
        assert!(placed.comes_back_rfc());
    }
    assert!(buffer.starts_with(b"Handle of wood.\r\n\r\nAnd a tag."), "the body of the second text, joined");

    // A refused reading leaves zeros.
    let bad = text("Subject:;depot Hi");
    let refused = Message::parse_rfc(bad.as_bytes(), &mut head, &mut body).err();
    assert_eq!((refused, head, body), (Some(Refusal { number: 27, carried: 0 }), [0; 400], [0; 40]));
    let refused = Message::parse_in_place_rfc(bad.as_bytes(), &mut other, &mut buffer).err();
    assert_eq!((refused, other), (Some(Refusal { number: 27, carried: 0 }), [0; 400]));
    other.fill(2);
    let short = Message::parse_in_place_rfc(lf.as_bytes(), &mut other, &mut buffer[..28]).err();
    assert_eq!((short, other), (Some(Refusal { number: 26, carried: 29 }), [0; 400]));
    let need = 256 + 16 + 7 + 14 + 16 + 5 + 5;
    let short = Message::parse_rfc(crlf.as_bytes(), &mut head[..need - 1], &mut body).err();
    assert_eq!(short, Some(Refusal { number: 25, carried: need as u64 }));
    assert!(Message::parse_rfc(crlf.as_bytes(), &mut head[..need], &mut body[..15]).is_ok());
}

#[test]
fn what_a_list_of_calls_leaves_comes_back() {
    let (mut head, mut body, mut store, mut out) = ([0; 600], [0; 100], [0; 100], [0; 600]);
    let text = text("Subject:;depot=north Black umbrella");
    let mut m = Message::parse_rfc(text.as_bytes(), &mut head, &mut body).unwrap();
    let mut h = Header::new(b"Glove", &mut store).unwrap();
    h.with_param(b"depot", b"east").unwrap();
    m.add_header_obj(b"Subject", &h).unwrap();
    m.with_subject_lang(b"Schirm", b"de").unwrap();
    assert!(m.comes_back_rfc());
    let len = m.write(&mut out).unwrap();
    let m = Message::parse_rfc(&out[..len], &mut head, &mut body).unwrap();
    let params = [0, 1, 2].map(|k| m.nth_param("Subject", k, 0).unwrap());
    assert_eq!(params, [("depot", "north"), ("depot", "east"), ("lang", "de")]);
}

/// Headers that need more than the store that is lent first, with their parameters behind the colon.
#[test]
fn a_head_of_any_length() {
    let params: String = (0..10).map(|k| format!(";p{k}={}", "q".repeat(256))).collect();
    for headers in [1, 8, 9, 26, 50] {
        let lines: String = (0..headers).map(|k| format!("h{k:02}:{params} {}\r\n", "v".repeat(1_000))).collect();
        let text = format!("message/cpim\r\n\r\n{lines}\r\nContent-type: a\r\n\r\nHi");
        let m = parse_cpim_rfc(&text).unwrap();
        assert_eq!((m.headers().len(), m.body()), (headers, &b"Hi"[..]));
        assert!(m.headers().values().flatten().all(|h| (h.value().len(), h.params().len()) == (1_000, 10)));
        assert_eq!(parse_cpim_rfc(&text.replace('\r', "")).unwrap(), m);
        assert_eq!(back(&m), [false, true]);
        let late = text.replace("Content-type: a", "Content-type: \u{7f}");
        assert_eq!(parse_cpim_rfc(&late).unwrap_err().number(), 19);
    }
}
