//! What messages take that a gateway keeps, beside the source: the bytes asked of the allocator, and those by which the process grows.
//! Each side of each row is a process of its own. Prints the table and stores it in docs/BENCHMARKS.md.

use source::cpim as source;
use std::fmt::Write;
use std::fs;
use workloads::counted::{Counted, Counts};
use workloads::inputs::{notice, plain_notice};

#[global_allocator]
static ALLOCATOR: Counted = Counted;

/// Messages kept: what they are, how many, and how one is made. The same lines for both sides.
struct Kept {
    what: &'static str,
    count: usize,
    crated: fn(&str) -> cpim::CpimMessage,
    there: fn(&str) -> source::CpimMessage,
    text: fn() -> String,
}

macro_rules! kept {
    ($what:expr, $count:expr, $text:expr, |$api:ident, $s:ident| $make:expr) => {
        Kept {
            what: $what,
            count: $count,
            text: || $text,
            crated: |$s| {
                use cpim as $api;
                $make
            },
            there: |$s| {
                use source as $api;
                $make
            },
        }
    };
}

fn all() -> [Kept; 10] {
    [
        kept!("read, CRLF, 315 bytes", 20_000, plain_notice(), |api, s| api::parse_cpim(s).unwrap()),
        kept!("read, CRLF, 5 KB", 4_000, notice(5_000, true), |api, s| api::parse_cpim(s).unwrap()),
        kept!("read, CRLF, 50 KB", 1_000, notice(50_000, true), |api, s| api::parse_cpim(s).unwrap()),
        kept!("read, CRLF, 1 MB", 200, notice(1_000_000, true), |api, s| api::parse_cpim(s).unwrap()),
        kept!("read, LF, 5 KB", 4_000, notice(5_000, true).replace('\r', ""), |api, s| api::parse_cpim(s).unwrap()),
        kept!("read, LF, 1 MB", 200, notice(1_000_000, true).replace('\r', ""), |api, s| api::parse_cpim(s).unwrap()),
        kept!("read, 315 bytes, and `get_header` asked", 20_000, plain_notice(), |api, s| {
            let m = api::parse_cpim(s).unwrap();
            assert!(m.get_header("To").is_some());
            m
        }),
        kept!("read, 315 bytes, and a header set", 20_000, plain_notice(), |api, s| {
            let mut m = api::parse_cpim(s).unwrap();
            m.set_header("Require", "depot.receipt").unwrap();
            m
        }),
        kept!("built by `new` and one call", 20_000, String::from("Found on line 4"), |api, s| {
            let m = api::CpimMessage::new("text/plain", s.as_bytes().to_vec()).unwrap();
            m.with_from("North depot <im:north@depots.example>").unwrap()
        }),
        kept!("built by `new` and five calls", 20_000, String::from("Found on line 4"), |api, s| {
            let m = api::CpimMessage::new("text/plain", s.as_bytes().to_vec()).unwrap();
            m.with_from("North depot <im:north@depots.example>")
                .and_then(|m| m.with_to("East counter <im:east@depots.example>"))
                .and_then(|m| m.with_datetime("2026-03-02T08:15:00Z"))
                .and_then(|m| m.with_subject("Black umbrella, wooden handle"))
                .and_then(|m| m.with_content_header("Content-ID", "<4711@depots.example>"))
                .unwrap()
        }),
    ]
}

/// The bytes of this process that are in memory.
fn resident() -> usize {
    let statm = fs::read_to_string("/proc/self/statm").expect("/proc/self/statm");
    let pages: usize = statm.split(' ').nth(1).and_then(|n| n.parse().ok()).expect("the second number");
    4_096 * pages
}

/// Bytes a message: asked for, and in memory.
fn taken<M>(kept: &Kept, make: fn(&str) -> M) -> [usize; 2] {
    let text = (kept.text)();
    let mut messages = Vec::with_capacity(kept.count);
    // Read and dropped once, so that what a program takes once does not count.
    drop(make(&text));
    let before = [Counts::now().kept(), resident()];
    // The vector's own pages are taken as it fills: its part of each message is the message itself, and was asked for before.
    messages.extend((0..kept.count).map(|_| make(&text)));
    let after = [Counts::now().kept(), resident()];
    let own = [size_of::<M>(), 0];
    std::array::from_fn(|k| (after[k] - before[k]) / messages.len() + own[k])
}

fn main() {
    let all = all();
    if common::is_one_run() {
        let told = common::told();
        let kept = &all[told[0].parse::<usize>().expect("a number")];
        let [asked, resident] = if told[1] == "crate" { taken(kept, kept.crated) } else { taken(kept, kept.there) };
        return println!("{asked}\n{resident}");
    }
    let before = common::load();
    let side = |k: usize, side: &str| -> Vec<u64> {
        common::run(&[&k.to_string(), side]).iter().map(|n| n.parse().expect("a number")).collect()
    };
    let mut out = String::from(
        "| kept messages | how many | asked of the allocator, a message: crate, source | in memory, a message: crate, source | ratio |\n|---|---|---|---|---|\n",
    );
    for (k, kept) in all.iter().enumerate() {
        let (here, there) = (side(k, "crate"), side(k, "source"));
        let [asked, resident] = [0, 1].map(|n| [here[n], there[n]].map(common::grouped).join(", "));
        let ratio = here[1] as f64 / there[1] as f64;
        let mark = if here[0] > there[0] || ratio > 1.0 { "**" } else { "" };
        let count = common::grouped(kept.count as u64);
        writeln!(out, "| {} | {count} | {asked} | {resident} | {mark}{ratio:.2}{mark} |", kept.what).unwrap();
    }
    common::store("memory", &out, &before);
}
