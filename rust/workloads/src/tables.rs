//! The tables, in Markdown.

use crate::parsing::LENGTHS;
use ::workloads::rows::{rows, shown, Row};
use std::fmt::Write;

/// The tables, by the first field of a line.
pub const GOALS: &str = "goals";
pub const SIZES: &str = "sizes";
pub const GATEWAY: &str = "gateway";
pub const PARSING: &str = "parsing";

/// What the crate takes more than the lent stores.
fn own(row: &Row) -> String {
    shown(row.median(|run| run[1] - run[0]))
}

/// A column for each length; the number at the end of what a row is says which.
pub fn parsing(lines: &[String]) -> String {
    let rows = rows(lines);
    let rows: Vec<(&str, &str, &Row)> =
        rows.iter().filter_map(|row| row.what.rsplit_once(' ').map(|(what, length)| (what, length, row))).collect();
    let mut out = String::from("| bytes of text | goal |");
    LENGTHS.iter().for_each(|n| write!(out, " {} |", common::grouped(*n as u64)).unwrap());
    write!(out, " crate, source at the longest |\n|---|---|{}---|\n", "---|".repeat(LENGTHS.len())).unwrap();
    let mut seen = Vec::new();
    for (what, _, row) in &rows {
        if seen.contains(what) {
            continue;
        }
        seen.push(what);
        write!(out, "| {what} | {} |", row.goal).unwrap();
        let mut times = String::new();
        for n in LENGTHS {
            let cell = rows.iter().find(|(other, length, _)| other == what && *length == n.to_string());
            write!(out, " {} |", cell.map_or_else(String::new, |cell| cell.2.range(0, 1))).unwrap();
            times = cell.map_or(times, |cell| cell.2.times(&[0, 1]));
        }
        writeln!(out, " {times} |").unwrap();
    }
    out
}

pub fn notices(lines: &[String]) -> String {
    let rows = rows(lines);
    let table = |name: &'static str| rows.iter().filter(move |row| row.table == name);
    let mut out = String::from(
        "| workload | goal | lent stores | gateway's crate | lent stores, crate, source | the crate's own |\n",
    );
    out.push_str("|---|---|---|---|---|---|\n");
    for row in table(GOALS) {
        let (lent, crated, times) = (row.range(0, 2), row.range(1, 2), row.times(&[0, 1, 2]));
        writeln!(out, "| {} | {} | {lent} | {crated} | {times} | {} |", row.what, row.goal, own(row)).unwrap();
    }
    out.push_str("\n| bytes of body | writing, ns a byte |\n|---|---|\n");
    for row in table(SIZES) {
        let bytes: u64 = row.what.parse().expect("a length");
        let cost = row.median(|run| run[0]) / bytes as f64;
        writeln!(out, "| {} | {cost:.3} |", common::grouped(bytes)).unwrap();
    }
    out.push_str("\n| the gateway's crate on the notice | ratio | crate, source |\n|---|---|---|\n");
    for row in table(GATEWAY) {
        writeln!(out, "| {} | {} | {} |", row.what, row.range(0, 1), row.times(&[0, 1])).unwrap();
    }
    out
}
