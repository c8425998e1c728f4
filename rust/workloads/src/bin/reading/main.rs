//! T-14: reading a text whose body has 10,485,760 bytes takes at most twice the source's time. The program starts itself three times for each
//! text, prints the tables of docs/BENCHMARKS.md, "Large notices", and fails where a ratio is above 2. Told `store`, it puts them there too.

mod report;
mod sides;
mod texts;

use report::Report;
use std::env;
use std::process::exit;
use texts::{Table, TEXTS};
use workloads::counted::Counted;

#[global_allocator]
static ALLOCATOR: Counted = Counted;

/// The system's allocator keeps what it got and has it at hand. As it is, that depends on what was freed before.
const KEEPING: [(&str, &str); 2] = [("MALLOC_MMAP_THRESHOLD_", "1073741824"), ("MALLOC_TRIM_THRESHOLD_", "1073741824")];

fn one_run(told: &[String]) {
    let text = |k: &str| &TEXTS[k.parse::<usize>().expect("a number")];
    match told.iter().map(String::as_str).collect::<Vec<_>>()[..] {
        ["pairs", k] => sides::pairs(text(k)),
        ["three", k] => sides::three(text(k)),
        ["sizes"] => sides::sizes(),
        ["limits"] => sides::limits(),
        ["memory"] => sides::memory(&TEXTS[0]),
        _ => panic!("{told:?}"),
    }
}

/// The runs of the texts in some tables, three of each.
fn of_texts(word: &str, variables: &[(&str, &str)], chosen: impl Fn(Table) -> bool) -> Vec<String> {
    let texts = TEXTS.iter().enumerate().filter(|(_, text)| chosen(text.table));
    texts.flat_map(|(k, _)| common::runs_where(variables, &[word, &k.to_string()])).collect()
}

fn main() {
    if common::is_one_run() {
        return one_run(&common::told());
    }
    let store = match &env::args().skip(1).collect::<Vec<_>>()[..] {
        [] => false,
        [word] if word == "store" => true,
        words => {
            eprintln!("reading: {words:?} is no word of it; `store` puts the tables into docs/BENCHMARKS.md");
            exit(2);
        }
    };
    let before = common::load();
    let report = Report::of(&[
        of_texts("pairs", &[], |table| table == Table::Request),
        of_texts("three", &KEEPING, |_| true),
        common::runs_where(&KEEPING, &["sizes"]),
        common::run(&["limits"]),
        common::run(&["memory"]),
    ]);
    let tables = report.tables();
    if store {
        common::store("reading", &tables, &before);
    } else {
        println!("{}", common::with_load(&tables, &before));
    }
    if let Some(above) = report.above_limit() {
        eprintln!("{above}");
        exit(1);
    }
}
