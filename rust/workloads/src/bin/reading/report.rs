//! The tables, in Markdown.

use crate::sides::{BODIES, LF_BODIES, LIMITS, MEMORY, PAIRS, REQUEST, SIZES};
use crate::texts::LIMIT;
use common::{grouped, machine};
use std::fmt::Write;
use workloads::rows::{rows, Row};

/// The parts of a line, each with a figure for each side.
const THREAD: usize = 0;
const WALL: usize = 1;
const READINGS: usize = 2;

/// What the runs printed.
pub struct Report {
    rows: Vec<Row>,
}

impl Report {
    pub fn of(lines: &[Vec<String>]) -> Self {
        Report { rows: rows(&lines.concat()) }
    }

    fn table<'a>(&'a self, table: &'a str) -> impl Iterator<Item = &'a Row> {
        self.rows.iter().filter(move |row| row.table == table)
    }

    pub fn tables(&self) -> String {
        let mut out = machine() + "\n";
        self.pairs(&mut out);
        self.three(&mut out, REQUEST, "the same bodies, memory kept");
        self.three(&mut out, BODIES, "other bodies of CRLF texts, memory kept");
        self.three(&mut out, LF_BODIES, "other bodies of LF texts, memory kept");
        self.sizes(&mut out);
        self.limits(&mut out);
        self.memory(&mut out);
        self.highest(&mut out);
        out
    }

    /// A call beside the source, by both clocks.
    fn pairs(&self, out: &mut String) {
        let columns =
            "goal | ratio, thread | ratio, wall | here, source, thread, ms | here, source, wall, ms | readings a run";
        write!(out, "\n| body | read by | {columns} |\n|---|---|---|---|---|---|---|---|\n").unwrap();
        for row in self.table(PAIRS) {
            let [thread, wall] = [THREAD, WALL].map(|part| range(row, part, 0));
            let [by_thread, by_wall] = [THREAD, WALL].map(|clock| milliseconds(row, clock));
            let what = &row.what;
            writeln!(
                out,
                "| {what} | {} | {thread} | {wall} | {by_thread} | {by_wall} | {} |",
                row.goal,
                readings(row)
            )
            .unwrap();
        }
    }

    /// Lent stores and the gateway's crate beside the source, by both clocks.
    fn three(&self, out: &mut String, table: &str, title: &str) {
        let columns =
            "lent stores, thread | wall | gateway's crate, thread | wall | lent stores, crate, source, thread, ms";
        write!(out, "\n| {title} | {columns} |\n|---|---|---|---|---|---|\n").unwrap();
        for row in self.table(table) {
            let ratios = [(THREAD, 0), (WALL, 0), (THREAD, 1), (WALL, 1)].map(|(part, side)| range(row, part, side));
            writeln!(out, "| {} | {} | {} |", row.what, ratios.join(" | "), milliseconds(row, THREAD)).unwrap();
        }
    }

    /// What a byte of the body costs.
    fn sizes(&self, out: &mut String) {
        let columns = "ratio, thread | ns a byte: here, source | readings a run";
        write!(out, "\n| bytes of body, 72 and CRLFCRLF, memory kept | {columns} |\n|---|---|---|---|\n").unwrap();
        for row in self.table(SIZES) {
            let bytes: u64 = row.what.parse().expect("a length");
            let [here, there] = [0, 1].map(|side| row.median(|run| part(run, THREAD)[side]) / bytes as f64);
            let ratio = range(row, THREAD, 0);
            writeln!(out, "| {} | {ratio} | {here:.3}, {there:.3} | {} |", grouped(bytes), readings(row)).unwrap();
        }
    }

    fn limits(&self, out: &mut String) {
        out.push_str("\n| at the limits | answer here | here, source, thread |\n|---|---|---|\n");
        for row in self.table(LIMITS) {
            writeln!(out, "| {} | {} |", row.what, row.times(&[0, 1])).unwrap();
        }
    }

    fn memory(&self, out: &mut String) {
        let columns = "pieces of memory asked for | bytes asked for | bytes given back on the way";
        write!(out, "\n| one reading of the first body | {columns} |\n|---|---|---|---|\n").unwrap();
        for row in self.table(MEMORY) {
            let figures: Vec<String> = row.runs[0].iter().map(|n| grouped(*n as u64)).collect();
            writeln!(out, "| {} | {} |", row.what, figures.join(" | ")).unwrap();
        }
    }

    /// The highest ratio of each table, by either clock.
    fn highest(&self, out: &mut String) {
        out.push('\n');
        for (table, what) in [
            (PAIRS, "the request's bodies"),
            (REQUEST, "the same, memory kept"),
            (BODIES, "other bodies of CRLF texts"),
            (LF_BODIES, "other bodies of LF texts"),
        ] {
            if let Some(row) = self.table(table).max_by(|a, b| highest(a).total_cmp(&highest(b))) {
                writeln!(out, "- Highest ratio, {what}: {:.2}, {}.", highest(row), named(row)).unwrap();
            }
        }
    }

    /// Which reading takes more than twice the source's time.
    pub fn above_limit(&self) -> Option<String> {
        let mut limited = self.rows.iter().filter(|row| row.goal.is_finite());
        let row = limited.find(|row| highest(row) > LIMIT)?;
        Some(format!("above {LIMIT}: {} takes {:.2} of the source's time", named(row), highest(row)))
    }
}

/// A part of a line: a figure for each side, the source the last.
fn part(run: &[f64], part: usize) -> &[f64] {
    let sides = run.len() / 3;
    &run[part * sides..][..sides]
}

/// Where a line has a side's figure, and where the source's.
fn places(row: &Row, clock: usize, side: usize) -> (usize, usize) {
    let sides = row.runs[0].len() / 3;
    (clock * sides + side, clock * sides + sides - 1)
}

fn range(row: &Row, clock: usize, side: usize) -> String {
    let (here, there) = places(row, clock, side);
    row.range(here, there)
}

/// The middle time of each side, in milliseconds.
fn milliseconds(row: &Row, clock: usize) -> String {
    let sides = 0..part(&row.runs[0], clock).len();
    let times: Vec<String> =
        sides.map(|side| format!("{:.2}", row.median(|run| part(run, clock)[side]) / 1e6)).collect();
    times.join(", ")
}

/// How many readings a run of each side is.
fn readings(row: &Row) -> String {
    let of_first = part(&row.runs[0], READINGS);
    of_first.iter().map(|n| grouped(*n as u64)).collect::<Vec<String>>().join(", ")
}

/// The highest ratio of a row, by either clock.
fn highest(row: &Row) -> f64 {
    let sides = row.runs[0].len() / 3 - 1;
    let all = [THREAD, WALL].into_iter().flat_map(|clock| (0..sides).map(move |side| places(row, clock, side)));
    all.flat_map(|(here, there)| row.ratios(here, there)).fold(0.0, f64::max)
}

/// What a row is, in words.
fn named(row: &Row) -> String {
    if row.table == SIZES {
        return format!("a body of {} bytes", row.what);
    }
    row.what.replace(" | ", "; ")
}
