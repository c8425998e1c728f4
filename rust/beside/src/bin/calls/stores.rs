//! Stores lent to both sides: what the call leaves here is held against what it must leave, byte by byte.

use crate::lookups::{Lent, LentAlone, Looked};
use beside::call::{Call, Function::*, Lengths};
use beside::exports::BY_CALLS;
use beside::layout::{decode, layout, layout_alone, need, need_alone, record, record_alone};
use beside::manner::MANNERS;
use beside::refusals::{Refusal, NOTHING_HELD};
use beside::store::Store;
use beside::whole::{comes_back, condition, loss};
use beside::written::{written, Texts, Written};
use common::Random;
use cpim::raw::{self, Answer, HeaderRecord, Loss, Record};
use source::cpim::{CpimHeader, CpimMessage};
use std::fmt::Debug;
use std::process::exit;

/// How often each answer was given: accepted (0), each number, 25 carrying 0 apart; how often each function was called;
/// how many texts were written; by its number the clause that failed first, 0 where none did, 9 where nothing is held; how many messages do not come back
/// by the second reading, and how many do; how many scripts were run; and what was looked up.
#[derive(Clone, Default)]
pub struct Tally {
    pub answers: [u64; 27],
    pub nothing_held: u64,
    pub functions: [u64; BY_CALLS.len()],
    pub texts: Texts,
    pub losses: [u64; 10],
    pub second: [u64; 2],
    pub scripts: u64,
    pub looked: Looked,
}

/// The number of a loss where nothing is held.
const NOTHING: usize = 9;

pub struct Stores {
    pub head: Store,
    pub body: Store,
    pub header_store: Store,
    pub record: Record,
    pub header_record: HeaderRecord,
    pub message: Option<CpimMessage>,
    pub header: Option<CpimHeader>,
    pub list: Vec<(Call, Lengths, Refusal)>,
    /// What was altered before the call.
    pub note: String,
    pub tally: Tally,
}

impl Stores {
    pub fn new(body: usize) -> Self {
        Stores {
            head: Store::new(251_000),
            body: Store::new(body),
            header_store: Store::new(4_600),
            record: Record::default(),
            header_record: HeaderRecord::default(),
            message: None,
            header: None,
            list: Vec::new(),
            note: String::new(),
            tally: Tally::default(),
        }
    }

    /// Other bytes in all stores, the same for the same seed.
    pub fn refill(&mut self, seed: usize) {
        let mut random = Random::new(seed as u64);
        for store in [&mut self.head, &mut self.body, &mut self.header_store] {
            store.refill(&mut random);
        }
    }

    /// A new list, on stores that are left as they are.
    pub fn begin(&mut self) {
        self.record = Record::default();
        self.header_record = HeaderRecord::default();
        self.message = None;
        self.header = None;
        self.list.clear();
    }

    /// All the room that there is.
    pub fn room(&self) -> Lengths {
        Lengths { head: self.head.room(), body: self.body.room(), header: self.header_store.room() }
    }

    #[cold]
    fn differ(&self, what: &str, here: &dyn Debug, rust: &dyn Debug) -> ! {
        let mut report = format!("A list of calls: {what} is not as it must be.\nhere: {here:?}\nRust: {rust:?}\n");
        report += &format!("record {:?}, header's record {:?}\n", self.record, self.header_record);
        if !self.note.is_empty() {
            report += &format!("altered: {}\n", self.note);
        }
        for (call, lengths, answer) in &self.list {
            report += &format!("{call:?} {lengths:?} -> {answer:?}\n");
        }
        eprintln!("{report}");
        exit(1)
    }

    fn count(&mut self, call: &Call, lengths: Lengths, answer: Refusal) {
        self.tally.functions[call.function as usize] += 1;
        if answer == NOTHING_HELD {
            self.tally.nothing_held += 1;
        } else {
            self.tally.answers[answer.0 as usize] += 1;
        }
        self.list.push((call.clone(), lengths, answer));
    }

    /// What the source makes of the call, with room for everything.
    pub fn after(&self, call: &Call) -> Result<CpimMessage, Refusal> {
        call.message(self.message.as_ref(), self.header.as_ref())
    }

    pub fn header_after(&self, call: &Call) -> Result<CpimHeader, Refusal> {
        call.header(self.header.as_ref())
    }

    fn is_held(&self, call: &Call, lengths: Lengths) -> bool {
        let fits = |m: &CpimMessage| need(m) <= lengths.head && (!call.takes_body() || m.body().len() <= lengths.body);
        let header_fits = |h: &CpimHeader| need_alone(h) <= lengths.header;
        self.message.as_ref().is_some_and(fits)
            && (call.function != AddObj || self.header.as_ref().is_some_and(header_fits))
    }

    /// A call on the message; `after` is what the source makes of it with room for everything.
    pub fn run(&mut self, call: &Call, after: Result<CpimMessage, Refusal>, lengths: Lengths) {
        let expected = if call.on_message() && !self.is_held(call, lengths) {
            Err(NOTHING_HELD)
        } else {
            after.and_then(|m| call.room(&m, lengths).map(|()| m))
        };
        self.count(call, lengths, expected.as_ref().err().copied().unwrap_or_default());
        let got = self.answer(call, lengths);
        let (number, carried, left) = match &expected {
            Ok(m) => {
                self.head.must(&layout(m));
                if call.takes_body() {
                    self.body.must(m.body());
                }
                (0, 0, record(m))
            }
            Err((number, carried)) => {
                (*number, *carried, if call.on_message() { self.record } else { Record::default() })
            }
        };
        let want = Answer { number, carried, record: left };
        if got != want {
            self.differ("the answer", &got, &want);
        }
        self.record = left;
        match expected {
            Ok(m) => self.message = Some(m),
            Err(_) if call.function == New => self.message = None,
            Err(_) => {}
        }
        self.unchanged(call, lengths);
    }

    fn unchanged(&self, call: &Call, lengths: Lengths) {
        let lent = [
            ("head store", &self.head, lengths.head, !call.on_header()),
            ("body store", &self.body, lengths.body, call.takes_body()),
            ("header store", &self.header_store, lengths.header, call.on_header() || call.function == AddObj),
        ];
        for (name, store, len, _) in lent.into_iter().filter(|l| l.3) {
            if let Some((places, here, there)) = store.differences(len) {
                self.differ(&format!("bytes {places:?} of the {name} of {len} bytes"), &here, &there);
            }
        }
    }

    /// The message in the stores is the source's.
    pub fn check_held(&self) {
        if let Some(m) = &self.message {
            let decoded = decode(self.record, self.head.bytes(self.head.room()));
            if !decoded.as_ref().is_some_and(|d| d.is(m)) {
                self.differ("the message held", &decoded, m);
            }
            let body = self.body.bytes(self.record.bodylen);
            if body != m.body() {
                self.differ("the body held", &body.len(), &m.body().len());
            }
        }
    }

    /// What is written, whether it comes back whole by each reading, and what is lost first.
    pub fn check_whole(&mut self) {
        let (head, body) = (self.head.bytes(self.head.room()), self.body.bytes(self.body.room()));
        let got = (MANNERS.map(|manner| manner.says_back(self.record, head, body)), raw::loss(self.record, head, body));
        let Some(m) = &self.message else {
            self.same("what comes back", &got, &([false; 2], Loss { clause: NOTHING, entry: 0 }));
            self.tally.losses[NOTHING] += 1;
            return;
        };
        let due = written(m);
        let want = (MANNERS.map(|manner| comes_back(manner, m, &due.text)), loss(m));
        self.same("what comes back", &got, &want);
        self.same("the condition", &want.0, &MANNERS.map(|manner| condition(manner, m)));
        self.check_written(&due);
        let [back, second] = want.0;
        self.tally.texts.compared(&due);
        self.tally.texts.read_back(&due, back);
        self.tally.losses[want.1.clause] += 1;
        self.tally.second[usize::from(second)] += 1;
    }

    /// The text in an output with three bytes to spare, and in one that lacks a byte.
    fn check_written(&self, due: &Written) {
        const SPARE: [u8; 3] = [7; 3];
        let (head, body) = (self.head.bytes(self.head.room()), self.body.bytes(self.body.room()));
        let len = due.text.len();
        let mut out = vec![SPARE[0]; len + SPARE.len()];
        let short = raw::to_string(self.record, head, body, &mut out[..len - 1]);
        let whole = raw::to_string(self.record, head, body, &mut out);
        let answer = |number, carried, record| Answer { number, carried, record };
        self.same("writing", &(short, whole), &(answer(26, len as u64, 0), answer(0, 0, len)));
        let want = [due.text.as_bytes(), &SPARE].concat();
        if let Some(at) = (0..out.len()).find(|k| out[*k] != want[*k]) {
            let who = if due.by_rule { "the rule" } else { "the source" };
            let shown = |s: &[u8]| s[at..].iter().take(200).copied().collect::<Vec<u8>>().escape_ascii().to_string();
            self.differ(&format!("the text by {who}, from byte {at} on"), &shown(&out), &shown(&want));
        }
    }

    /// The lookups of some names, and of all else where no name is given, in what is held by stores of these lengths; `whole` where the body
    /// store is judged too.
    pub fn look_up(&mut self, names: &[&[u8]], lengths: Lengths, whole: Option<&CpimMessage>) {
        let lent = Lent {
            record: self.record,
            head: self.head.bytes(lengths.head),
            body: self.body.bytes(lengths.body),
            message: self.message.as_ref(),
            whole,
        };
        let alone = LentAlone {
            record: self.header_record,
            store: self.header_store.bytes(lengths.header),
            header: self.header.as_ref(),
        };
        let looked = &mut self.tally.looked;
        let compared = match names {
            [] => looked.others(&lent).and_then(|()| looked.alone(&alone)),
            _ => looked.names(&lent, names),
        };
        if let Err([what, here, there]) = compared {
            self.differ(&what, &here, &there);
        }
    }

    pub fn same<T: PartialEq + Debug>(&self, what: &str, here: &T, there: &T) {
        if here != there {
            self.differ(what, here, there);
        }
    }

    /// No byte differs anywhere, lent or not.
    pub fn finish(&self) {
        for store in [&self.head, &self.body, &self.header_store] {
            if !store.is_as_it_must() {
                self.differ("bytes that were not lent", &store.differences(store.room()), &"none");
            }
        }
    }

    /// A call on the header alone.
    pub fn run_header(&mut self, call: &Call, after: Result<CpimHeader, Refusal>, lengths: Lengths) {
        let held = self.header.as_ref().is_some_and(|h| need_alone(h) <= lengths.header);
        let expected = if call.function == WithParam && !held {
            Err(NOTHING_HELD)
        } else {
            after.and_then(|h| call.header_room(&h, lengths).map(|()| h))
        };
        self.count(call, lengths, expected.as_ref().err().copied().unwrap_or_default());
        let store = self.header_store.lent(lengths.header);
        let got = match call.function {
            HeaderNew => raw::header_new(&call.first, store),
            _ => raw::header_with_param(self.header_record, store, &call.first, &call.second),
        };
        let (number, carried, left) = match &expected {
            Ok(h) => {
                self.header_store.must(&layout_alone(h));
                (0, 0, record_alone(h))
            }
            Err((n, c)) if call.function == WithParam => (*n, *c, self.header_record),
            Err((n, c)) => (*n, *c, HeaderRecord::default()),
        };
        let want = Answer { number, carried, record: left };
        if got != want {
            self.differ("the answer", &got, &want);
        }
        self.header_record = left;
        match expected {
            Ok(h) => self.header = Some(h),
            Err(_) if call.function == HeaderNew => self.header = None,
            Err(_) => {}
        }
        self.unchanged(call, lengths);
    }

    /// The call itself.
    fn answer(&mut self, call: &Call, lengths: Lengths) -> Answer<Record> {
        let (m, a, b) = (self.record, &call.first, &call.second);
        let head = self.head.lent(lengths.head);
        let one = |f: raw::One, head: &mut [u8]| f(m, head, a);
        let two = |f: raw::Two, head: &mut [u8]| f(m, head, a, b);
        match call.function {
            New => raw::new(a, b, head, self.body.lent(lengths.body)),
            SetBody => raw::set_body(m, head, self.body.lent(lengths.body), a),
            AddObj => raw::add_header_obj(m, head, a, self.header_record, self.header_store.bytes(lengths.header)),
            SetHeader => two(raw::set_header, head),
            AddHeader => two(raw::add_header, head),
            AddContent => two(raw::add_content_header, head),
            SubjectLang => two(raw::with_subject_lang, head),
            Ns => two(raw::with_ns, head),
            WithContent => two(raw::with_content_header, head),
            From => one(raw::with_from, head),
            To => one(raw::with_to, head),
            DateTime => one(raw::with_datetime, head),
            Subject => one(raw::with_subject, head),
            Cc => one(raw::with_cc, head),
            Require => one(raw::with_require, head),
            HeaderNew | WithParam => unreachable!(),
        }
    }
}
