//! What the leaves cost, as ratios to Rust's standard library or to the source. The program starts itself three times, each time
//! anew with all rows, prints the lowest and the highest ratio in Markdown, one above a goal in bold, and stores the tables in
//! docs/BENCHMARKS.md.

mod rows;
mod texts;

use rows::{Rows, NAMES, SIZES};
use std::fmt::Write;

/// A row of a table: for each size the nanoseconds of a call, here and there, of each run.
struct Row {
    table: String,
    what: String,
    goal: f64,
    cells: Vec<Vec<(f64, f64)>>,
}

fn add(rows: &mut Vec<Row>, line: &str) -> Option<()> {
    let parts: Vec<&str> = line.split('\t').collect();
    let [table, what, goal, size, here, there] = parts[..] else { return None };
    let size = SIZES.iter().position(|n| Some(*n) == size.parse().ok())?;
    let goal = goal.parse().ok()?;
    let at = rows.iter().position(|row| row.table == table && row.what == what).unwrap_or_else(|| {
        let cells = vec![Vec::new(); SIZES.len()];
        rows.push(Row { table: table.into(), what: what.into(), goal, cells });
        rows.len() - 1
    });
    rows[at].cells[size].push((here.parse().ok()?, there.parse().ok()?));
    Some(())
}

/// Nanoseconds a byte at the greatest size of the row, here and there: the middle of the runs.
fn cost(row: &Row) -> String {
    let Some((cell, size)) = row.cells.iter().zip(SIZES).rfind(|(cell, _)| !cell.is_empty()) else { return "".into() };
    let middle = |pick: fn(&(f64, f64)) -> f64| {
        let mut all: Vec<f64> = cell.iter().map(pick).collect();
        all.sort_by(f64::total_cmp);
        all[all.len() / 2] / size as f64
    };
    format!("{:.3}, {:.3}", middle(|t| t.0), middle(|t| t.1))
}

fn main() {
    if common::is_one_run() {
        return Rows::new().all();
    }
    let before = common::load();
    let mut rows = Vec::new();
    for line in common::runs(&[]) {
        add(&mut rows, &line).expect(&line);
    }
    let (mut out, mut table) = (String::new(), "");
    for row in &rows {
        if row.table != table {
            let blank = if table.is_empty() { "" } else { "\n" };
            table = &row.table;
            writeln!(out, "{blank}### {table}\n").unwrap();
            writeln!(out, "| bytes | goal | {} | ns a byte here, there |", NAMES.join(" | ")).unwrap();
            writeln!(out, "|---|---|{}---|", "---|".repeat(SIZES.len())).unwrap();
        }
        let goal = if row.goal == f64::MAX { String::new() } else { row.goal.to_string() };
        let ratios = |cell: &Vec<(f64, f64)>| common::range(cell.iter().map(|(here, there)| here / there), row.goal);
        let cells: Vec<String> = row.cells.iter().map(ratios).collect();
        writeln!(out, "| {} | {goal} | {} | {} |", row.what, cells.join(" | "), cost(row)).unwrap();
    }
    common::store("leaves", &out, &before);
}
