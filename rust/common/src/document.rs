//! The tables of docs/BENCHMARKS.md that programs write.

use std::fs;
use std::thread::available_parallelism;

const FILE: &str = concat!(env!("CARGO_MANIFEST_DIR"), "/../../docs/BENCHMARKS.md");
const END: &str = "<!-- end -->\n";

/// How busy the machine was in the last minute, this program with it: about how many programs wanted to run.
pub fn load() -> String {
    let load = fs::read_to_string("/proc/loadavg").unwrap_or_default();
    load.split(' ').next().unwrap_or_default().to_string()
}

/// Tables in Markdown, and behind them how busy the machine was before they were measured and is now.
pub fn with_load(tables: &str, before: &str) -> String {
    let cores = available_parallelism().map_or(1, usize::from);
    format!(
        "{tables}\nThe load of the machine's {cores} cores was {before} before this was measured, and {} behind it.\n",
        load()
    )
}

/// Prints tables in Markdown, and puts them where the document has those of this name. The load is that before they were measured.
pub fn store(name: &str, tables: &str, before: &str) {
    let tables = with_load(tables, before);
    println!("{tables}");
    let begin = format!("<!-- {name}: written by `make bench` -->\n");
    let text = fs::read_to_string(FILE).expect("docs/BENCHMARKS.md");
    let (before, rest) = text.split_once(&begin).expect("where the tables begin");
    let (_, behind) = rest.split_once(END).expect("where they end");
    fs::write(FILE, format!("{before}{begin}\n{tables}\n{END}{behind}")).expect("docs/BENCHMARKS.md");
}

/// The lowest and the highest of the ratios; bold above the goal, and nothing where there is none.
pub fn range(ratios: impl Iterator<Item = f64>, goal: f64) -> String {
    let ratios: Vec<f64> = ratios.collect();
    let (low, high) = ratios.iter().fold((f64::MAX, 0.0), |(low, high), r| (r.min(low), r.max(high)));
    let mark = if high > goal { "**" } else { "" };
    if ratios.is_empty() {
        return String::new();
    }
    format!("{mark}{low:.2}–{high:.2}{mark}")
}
