//! The notice of a found umbrella: the depot is a parameter of a header.

#[path = "values/addresses.rs"]
mod addresses;

use addresses::ADDRESSES;
use cpim::lent::{self, Header, Message};
use cpim::{parse_cpim, parse_cpim_rfc, CpimError, CpimHeader, CpimMessage, Loss, Refusal};

fn notice() -> CpimMessage {
    let m = CpimMessage::new("text/plain", b"Handle of wood.".to_vec()).unwrap();
    m.with_from("<im:north@depots.example>").unwrap().with_datetime("2026-03-02T08:15:00Z").unwrap()
}

#[test]
fn a_depot_in_a_parameter_does_not_come_back() {
    let mut m = notice();
    assert!(m.comes_back());
    assert_eq!(m.loss(), None);
    assert_eq!(parse_cpim(&m.to_string().unwrap()).unwrap(), m);

    let umbrella = CpimHeader::new("Black umbrella").unwrap().with_param("depot", "north").unwrap();
    m.add_header_obj("Subject", umbrella).unwrap();
    assert!(!m.comes_back());
    assert_eq!(m.loss(), Some(Loss::Parameter { header: 2, name: "Subject" }));
    let words = "header 3 in the order of names, Subject, has a parameter: it is written behind the colon and read as part of the value";
    assert_eq!(m.loss().unwrap().to_string(), words);
    let read = parse_cpim(&m.to_string().unwrap()).unwrap();
    assert_eq!(read.get_header("Subject"), Some(";depot=north Black umbrella"));
    assert!(read.headers()["Subject"][0].params().is_empty());
}

#[test]
fn each_clause_in_words() {
    let with = |name: &str, value: &str| {
        let mut m = notice();
        m.set_header(name, value).unwrap();
        m
    };
    let content = |name: &str, value: &str| notice().with_content_header(name, value).unwrap();
    let bare = CpimMessage::new("text/plain", Vec::new()).unwrap();
    let mut ill = notice();
    ill.set_body(vec![0xFF]).unwrap();
    let typed = CpimMessage::new("text/plain ", Vec::new()).unwrap().with_from("a").unwrap();
    let cases = [
        (bare, Loss::NoHeader, "it has no header"),
        (ill, Loss::Body, "its body is not UTF-8"),
        (
            content("CONTENT-type", "a"),
            Loss::ContentTypeTwice { content_header: 0, name: "CONTENT-type" },
            "content header 1 in the order of names, CONTENT-type, is called",
        ),
        (
            with("To ", "a"),
            Loss::HeaderName { header: 2, name: "To " },
            "header 3 in the order of names, To , has white space",
        ),
        (
            content("a", "b "),
            Loss::ContentHeader { content_header: 0, name: "a" },
            "content header 1 in the order of names, a, has",
        ),
        (typed, Loss::ContentType, "its type has white space"),
    ];
    for (m, loss, words) in cases {
        assert_eq!(m.loss(), Some(loss));
        assert!(loss.to_string().starts_with(words), "{loss}");
        assert!(!m.comes_back());
    }
}

#[test]
fn shared_between_threads() {
    fn shared<T: Send + Sync + Clone>(_: &T) {}
    let m = notice();
    shared(&m);
    std::thread::scope(|s| {
        (0..4).for_each(|_| drop(s.spawn(|| assert_eq!((m.headers().len(), m.get_header("To")), (2, None)))))
    });
}

#[test]
fn a_store_that_grows_keeps_the_message() {
    let mut m = notice();
    for k in 0..48 {
        m.add_header(&format!("h{k}"), &"v".repeat(1_024)).unwrap();
    }
    assert_eq!(m.add_header("h", "v"), Err(CpimError::TooManyHeaders { max: 50, actual: 51 }));
    assert_eq!(m.headers().len(), 50);
    assert_eq!(m.get_header("h17").map(str::len), Some(1_024));
    assert_eq!(parse_cpim(&m.to_string().unwrap()).as_ref(), Ok(&m));
    assert_eq!(m.clone(), m);
    assert_eq!(format!("{m}"), m.to_string().unwrap());
}

#[test]
fn refusals_say_their_number() {
    let e = CpimHeader::new("a").unwrap().with_param(&"n".repeat(65), "").unwrap_err();
    assert_eq!((e.number(), e.carried()), (13, 65));
    assert_eq!(e.to_string(), "param name too long (max 64, got 65)");
    assert_eq!(e.refusal().to_string(), "13: parameter name too long (64 bytes at most, 65 given)");
    assert_eq!(
        Refusal { number: 7, carried: 129 }.to_string(),
        "7: header name too long (128 bytes at most, 129 given)"
    );
    for number in 1..=23 {
        let carried = if [1, 7, 10, 13, 15, 18, 20, 21, 22, 23].contains(&number) { 99 } else { 0 };
        let refusal = Refusal { number, carried };
        assert_eq!(CpimError::from(refusal).refusal(), refusal);
    }
}

#[test]
fn lent_stores() {
    let (mut head, mut body, mut store) = ([0; 1_000], [0; 100], [0; 100]);
    let mut h = Header::new(b"Black umbrella", &mut store).unwrap();
    h.with_param(b"depot", b"north").unwrap();
    h.with_param(b"line", b"4").unwrap();
    assert_eq!(h.value(), "Black umbrella");
    assert_eq!(h.params().collect::<Vec<_>>(), [("depot", "north"), ("line", "4")]);

    let mut m = Message::new(b"text/plain", b"Hi", &mut head, &mut body).unwrap();
    m.with_from(b"a").unwrap();
    m.add_header_obj(b"Subject", &h).unwrap();
    m.add_header(b"Subject", b"b").unwrap();
    m.add_content_header(b"Content-ID", b"7").unwrap();
    assert_eq!((m.get_header("Subject"), m.nth_header("Subject", 1)), (Some("Black umbrella"), Some("b")));
    assert_eq!((m.nth_header("Subject", 2), m.get_header("To")), (None, None));
    assert_eq!((m.nth_param("Subject", 0, 1), m.nth_param("Subject", 1, 0)), (Some(("line", "4")), None));
    assert_eq!((m.nth_content_header(0), m.nth_content_header(1)), (Some(("Content-ID", "7")), None));
    let mut rows = [0; lent::MOST];
    let places = m.places(&mut rows).unwrap();
    assert_eq!(places.headers().map(|e| e.params().count()).collect::<Vec<_>>(), [0, 2, 0]);
    assert_eq!(places.content_headers().map(|e| (e.name(), e.value())).collect::<Vec<_>>(), [("Content-ID", "7")]);
    assert_eq!(m.places(&mut []).err(), Some(Refusal { number: 26, carried: 6 * 4 * 8 }));
    assert_eq!(m.loss(), Some(Loss::Parameter { header: 1, name: "Subject" }));
    assert_eq!((m.content_type(), m.body(), m.body_as_str()), ("text/plain", &b"Hi"[..], Some("Hi")));

    let record = m.record();
    assert_eq!(Message::held(record, &mut head, &mut body).map(|m| m.record()), Ok(record));
    head[256] ^= 1;
    assert_eq!(Message::held(record, &mut head, &mut body).err(), Some(Refusal { number: 25, carried: 0 }));
}

/// What is between the first `<` outside a quoted string and the next `>`.
#[test]
fn addresses() {
    for (value, found) in ADDRESSES {
        assert_eq!((cpim::address(value), lent::address(value)), (found, found), "{value}");
    }
}

/// The sender of a message in lent stores: the value held, and its address.
fn sender<'m, B: AsRef<[u8]>>(m: &'m Message<'_, B>) -> (Option<&'m str>, Option<&'m str>) {
    (m.get_header("From"), m.address("From"))
}

/// A notice with this value behind its From, read by every call that reads one: the value held, and its address.
fn check_sender(from: &str, value: &str, found: Option<&str>) {
    let text = format!("Message/CPIM\r\n\r\nFrom: {from}\r\n\r\nContent-type: text/plain\r\n\r\nLeft on line 4.");
    let due = (Some(value), found);
    for parse in [parse_cpim, parse_cpim_rfc] {
        let m = parse(&text).unwrap();
        assert_eq!((m.get_header("From"), m.address("From")), due, "{from}");
        assert_eq!((cpim::address(value), m.address("To")), (found, None), "{from}");
        assert_eq!(parse(&m.to_string().unwrap()).unwrap().address("From"), found, "written and read again: {from}");
    }
    let (text, mut head, mut body) = (text.as_bytes(), [0; 600], [0; 100]);
    assert_eq!(sender(&Message::parse(text, &mut head, &mut body).unwrap()), due, "{from}");
    assert_eq!(sender(&Message::parse_rfc(text, &mut head, &mut body).unwrap()), due, "{from}");
    assert_eq!(sender(&Message::parse_in_place(text, &mut head, &mut body).unwrap()), due, "{from}");
    assert_eq!(sender(&Message::parse_in_place_rfc(text, &mut head, &mut body).unwrap()), due, "{from}");
}

#[test]
fn a_coach_firms_notice() {
    let firm = r#""Lost < Found" <im:lost@depot>"#;
    check_sender(firm, firm, Some("im:lost@depot"));
    // As it is written here.
    check_sender(r#"\"Lost < Found\" <im:lost@depot>"#, firm, Some("im:lost@depot"));
    let unclosed = r#""Lost < Found <im:lost@depot>"#;
    check_sender(unclosed, unclosed, None);
}

/// The rule is for the value as held: an escape of the text is no backslash there.
#[test]
fn a_quote_escaped_in_the_text() {
    check_sender(r#""a\"b" <im:x>"#, r#""a"b" <im:x>"#, None);
    check_sender(r#""a\\" <im:x>"#, r#""a\" <im:x>"#, None);
    // A name that brings an address of its own.
    check_sender(r#""a\" <im:b> \"" <im:x>"#, r#""a" <im:b> "" <im:x>"#, Some("im:b"));
    check_sender(r#""a\\\"<b" <im:x>"#, r#""a\"<b" <im:x>"#, Some("im:x"));
    check_sender(r#"Lost \u003cim:x>"#, "Lost <im:x>", Some("im:x"));
}

/// The first value alone, whatever the others are.
#[test]
fn the_address_of_a_header_with_more_values() {
    let mut m = notice();
    for (value, found) in [("North depot", None), ("<im:a>", None)] {
        m.add_header("cc", value).unwrap();
        assert_eq!((m.address("cc"), m.address("CC")), (found, None));
    }
    m.set_header("cc", r#""<" <im:b>"#).unwrap();
    m.add_header("cc", "none").unwrap();
    assert_eq!(m.address("cc"), Some("im:b"));
}

#[test]
fn a_body_without_a_store() {
    let crlf = "message/cpim\r\n\r\na:b\r\n\r\n\r\n\r\nx\r\n\r\ny";
    assert_eq!(lent::body_of(crlf.as_bytes(), &mut []), Ok(&b"x\r\n\r\ny"[..]));
    let lf = crlf.replace('\r', "");
    assert_eq!(lent::body_of(lf.as_bytes(), &mut [0; 9]), Ok(&b"x\r\n\r\ny"[..]));
    assert_eq!(lent::body_of(lf.as_bytes(), &mut [0; 5]), Err(Refusal { number: 26, carried: 6 }));
    assert_eq!(lent::body_of(b"a", &mut []), Err(Refusal { number: 2, carried: 0 }));
}

#[test]
fn a_body_in_its_place() {
    let crlf = "message/cpim\r\n\r\na:b\r\n\r\nContent-type: c\r\n\r\nx\r\n\r\ny";
    let lf = crlf.replace('\r', "");
    let (mut head, mut store, mut body, mut buffer) = ([1; 400], [2; 400], [3; 9], [4; 9]);
    for text in [crlf, &lf] {
        let m = Message::parse(text.as_bytes(), &mut head, &mut body).unwrap();
        let mut placed = Message::parse_in_place(text.as_bytes(), &mut store, &mut buffer).unwrap();
        assert_eq!((placed.record(), placed.body()), (m.record(), m.body()));
        assert_eq!((placed.get_header("a"), placed.content_type()), (Some("b"), "c"));
        placed.set_header(b"d", b"e").unwrap();
        let mut out = [0; 200];
        let len = placed.write(&mut out).unwrap();
        assert!(out[..len].ends_with(b"a: b\r\nd: e\r\n\r\nContent-type: c\r\n\r\nx\r\n\r\ny"));
        assert!(placed.comes_back());
        let kept = placed.body_in_place();
        store.fill(0);
        assert_eq!(kept, b"x\r\n\r\ny", "the body outlives the message in its head store");
        assert_eq!(buffer == [4; 9], text == crlf, "a part of the text is copied nowhere");
    }
    let short = Message::parse_in_place(lf.as_bytes(), &mut store, &mut buffer[..5]).err();
    assert_eq!((short, store), (Some(Refusal { number: 26, carried: 6 }), [0; 400]));
    let refused = Message::parse_in_place(b"a", &mut head, &mut buffer).err();
    assert_eq!((refused, head), (Some(Refusal { number: 2, carried: 0 }), [0; 400]));
}

/// Headers with ten parameters each, all of one length, and what the head store takes for them.
fn many(headers: usize, value: usize) -> (String, usize) {
    let params: String = (0..10).map(|k| format!(";p{k}={}", "q".repeat(256))).collect();
    let line = |k: usize| format!("h{k:02}{params}: {}\r\n", "v".repeat(value));
    let lines: String = (0..headers).map(line).collect();
    let text = format!("message/cpim\r\n\r\n{lines}\r\nContent-type: a\r\n\r\nHi");
    (text, 256 + headers * (16 + 3 + value + 10 * (16 + 2 + 256)))
}

#[test]
fn a_head_of_any_length() {
    for (headers, value) in [(1, 1), (6, 1_000), (7, 1_000), (25, 1_024), (26, 1_024), (27, 1_000), (50, 1_024)] {
        let (text, need) = many(headers, value);
        let m = parse_cpim(&text).unwrap();
        assert_eq!((m.headers().len(), m.body()), (headers, &b"Hi"[..]), "{need}");
        let (mut head, mut body) = (vec![0; need], [0; 2]);
        let lent = Message::parse(text.as_bytes(), &mut head, &mut body).unwrap();
        assert_eq!(lent.get_header("h00").map(str::len), m.get_header("h00").map(str::len));
        assert!(Message::parse(text.as_bytes(), &mut head[..need - 1], &mut body).is_err());
        let late = text.replace("Content-type: a", "Content-type: \u{7f}");
        assert_eq!(parse_cpim(&late).unwrap_err().number(), 19, "{need}");
        assert_eq!(parse_cpim(&text.replace('\r', "")).unwrap(), m);
    }
    let (text, _) = many(51, 1_024);
    assert_eq!(parse_cpim(&text), Err(CpimError::TooManyHeaders { max: 50, actual: 51 }));
}
