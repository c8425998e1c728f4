//! What is allocated: nothing by `cpim::lent`, and by reading what the message holds and no more. Every call and every byte is counted.

use cpim::lent::{body_of, Header, Message, MOST};
use cpim::{parse_cpim, parse_cpim_rfc, Refusal};
use std::alloc::{GlobalAlloc, Layout, System};
use std::cell::Cell;

struct Counting;

thread_local! {
    static COUNT: Cell<usize> = const { Cell::new(0) };
    /// Bytes that were asked for and not given back, and the most that they were.
    static HELD: Cell<usize> = const { Cell::new(0) };
    static MOST_HELD: Cell<usize> = const { Cell::new(0) };
}

// SAFETY: passed on as it is to the system's allocator.
unsafe impl GlobalAlloc for Counting {
    unsafe fn alloc(&self, layout: Layout) -> *mut u8 {
        COUNT.with(|count| count.set(count.get() + 1));
        HELD.with(|held| held.set(held.get().wrapping_add(layout.size())));
        MOST_HELD.with(|most| most.set(most.get().max(HELD.get())));
        unsafe { System.alloc(layout) }
    }

    unsafe fn dealloc(&self, place: *mut u8, layout: Layout) {
        HELD.with(|held| held.set(held.get().wrapping_sub(layout.size())));
        unsafe { System.dealloc(place, layout) }
    }
}

#[global_allocator]
static ALLOCATOR: Counting = Counting;

const TEXT: &[u8] =
    b"Content-type: Message/CPIM\n\nFrom;a=b: <im:a@b>\n\nContent-type: text/plain\nContent-ID: 7\n\nHi\n\nHo";

const CRLF: &[u8] = b"Content-type: Message/CPIM\r\n\r\nFrom: <im:a@b>\r\n\r\nContent-type: text/plain\r\n\r\nHi";

fn everything() -> Result<usize, Refusal> {
    let (mut head, mut body, mut store, mut out) = ([0; 2_000], [0; 100], [0; 200], [0; 2_000]);
    let mut placed = Message::parse_in_place(TEXT, &mut head, &mut body)?;
    placed.set_header(b"To", b"a")?;
    let joined = b"Hi\r\n\r\nHo";
    assert_eq!(placed.body(), joined);
    let record = placed.record();
    assert_eq!(Message::held_in_place(record, &mut head, &body)?.body(), joined);
    let crlf = Message::parse_in_place(CRLF, &mut head, &mut [])?.body().len();
    let short = Message::parse_in_place(TEXT, &mut head, &mut [0; 7]).err();
    assert_eq!((crlf, short), (2, Some(Refusal { number: 26, carried: 8 })));
    let second = Message::parse_in_place_rfc(CRLF, &mut head, &mut [])?.comes_back_rfc();
    assert!(second && Message::parse_rfc(CRLF, &mut head, &mut body)?.comes_back());
    assert_eq!(Message::parse_rfc(TEXT, &mut head, &mut body).err(), Some(Refusal { number: 9, carried: 0 }));
    let mut h = Header::new(b"Umbrella", &mut store)?;
    h.with_param(b"depot", b"north")?;
    let mut seen = h.value().len() + h.params().map(|(_, value)| value.len()).sum::<usize>();

    let mut m = Message::parse(TEXT, &mut head, &mut body)?;
    m.set_header(b"To", b"a")?;
    m.add_header(b"To", b"b")?;
    m.add_header_obj(b"Subject", &h)?;
    m.add_content_header(b"b", b"c")?;
    m.with_subject_lang(b"Schirm", b"de")?;
    m.with_ns(b"a", b"b")?;
    m.set_body(b"\xFF")?;
    m.run(&[]);
    seen +=
        usize::from(m.set_header(b"", b"").is_err()) + usize::from(m.comes_back()) + usize::from(m.loss().is_some());
    let mut rows = [0; MOST];
    let places = m.places(&mut rows)?;
    seen += places.named("To").count()
        + places.content_headers().count()
        + places.first("NS").map_or(0, |e| e.value().len());
    seen += m.get_header("From").map_or(0, str::len) + m.content_type().len() + m.body().len() + m.write(&mut out)?;
    seen += [m.nth_header("To", 1), m.nth_param("From", 0, 0).map(|p| p.1), m.nth_content_header(0).map(|p| p.1)]
        .map(|found| found.map_or(0, str::len))
        .iter()
        .sum::<usize>();
    Ok(seen + usize::from(m.body_as_str().is_some()) + body_of(TEXT, &mut [0; 100])?.len())
}

#[test]
fn nothing_is_allocated() {
    let before = COUNT.with(Cell::get);
    let seen = everything();
    let after = COUNT.with(Cell::get);
    assert!(seen.is_ok_and(|n| n > 200), "{seen:?}");
    assert_eq!(after, before);
    drop(vec![0; 10]);
    assert_eq!(COUNT.with(Cell::get), after + 1, "allocations are counted");
}

/// What a reading's result holds in bytes, and how many more there were at most.
fn held_by<T>(reading: impl FnOnce() -> T) -> (T, usize, usize) {
    let before = HELD.get();
    MOST_HELD.set(before);
    let result = reading();
    let held = HELD.get() - before;
    (result, held, MOST_HELD.get() - before - held)
}

#[test]
fn a_message_is_as_long_as_it_has_to_be() {
    for body in [0, 6, 5_000, 1_000_000] {
        let text = format!("message/cpim\r\n\r\na:b\r\nc;d=e:f\r\n\r\ng:h\r\n\r\n{}", "x\r\n\r\n".repeat(body / 5));
        let need = 256 + (16 + 2) + (16 + 2 + 16 + 2) + (16 + 2) + 5 * (body / 5);
        let (m, held, more) = held_by(|| parse_cpim(&text));
        assert!(m.is_ok());
        assert_eq!((held, more), (need, 0), "the head and the body, each made once");
        let behind = text.replace("a:b", "a: b").replace("c;d=e:f", "c:;d=e f");
        let (m, held, more) = held_by(|| parse_cpim_rfc(&behind));
        assert!(m.is_ok());
        assert_eq!((held, more), (need, 0), "by the second reading too");
        let lf = text.replace('\r', "");
        let (m, held, more) = held_by(|| parse_cpim(&lf));
        assert!(m.is_ok_and(|m| m.body().len() == 5 * (body / 5)));
        assert_eq!(held, need);
        assert!(more <= 2 * text.len(), "{more}");
        let bad = text.replace("a:b", "a");
        let (refused, held, more) = held_by(|| parse_cpim(&bad));
        assert_eq!(refused.map_err(|e| e.number()).err(), Some(4));
        assert!(held + more < 100, "the words of the refusal: {held}, {more}");
    }
}
