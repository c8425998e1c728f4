//! What runs print, a line a row, and the rows that are made of the lines of several runs.

/// Prints a line: the table, what was measured, its goal, and the figures.
pub fn print(table: &str, what: &str, goal: f64, figures: &[f64]) {
    let figures: Vec<String> = figures.iter().map(f64::to_string).collect();
    println!("{table}\t{what}\t{goal}\t{}", figures.join("\t"));
}

/// A row of a table: its goal, and the figures of each run.
pub struct Row {
    pub table: String,
    pub what: String,
    pub goal: f64,
    pub runs: Vec<Vec<f64>>,
}

fn add(rows: &mut Vec<Row>, line: &str) -> Option<()> {
    let parts: Vec<&str> = line.split('\t').collect();
    let [table, what, goal, figures @ ..] = &parts[..] else { return None };
    let run = figures.iter().map(|figure| figure.parse().ok()).collect::<Option<Vec<f64>>>()?;
    match rows.iter_mut().find(|row| row.table == *table && row.what == *what) {
        Some(row) => row.runs.push(run),
        None => {
            let goal = goal.parse().ok()?;
            rows.push(Row { table: table.to_string(), what: what.to_string(), goal, runs: vec![run] });
        }
    }
    Some(())
}

/// The rows, in the order of their first lines.
pub fn rows(lines: &[String]) -> Vec<Row> {
    let mut rows = Vec::new();
    for line in lines {
        add(&mut rows, line).expect(line);
    }
    rows
}

impl Row {
    /// The ratio of two figures in each run.
    pub fn ratios(&self, here: usize, there: usize) -> impl Iterator<Item = f64> + '_ {
        self.runs.iter().map(move |run| run[here] / run[there])
    }

    /// The lowest ratio and the highest; bold above the goal.
    pub fn range(&self, here: usize, there: usize) -> String {
        common::range(self.ratios(here, there), self.goal)
    }

    /// The middle of the runs.
    pub fn median(&self, of: impl Fn(&Vec<f64>) -> f64) -> f64 {
        common::median(&mut self.runs.iter().map(of).collect::<Vec<f64>>())
    }

    /// The middle time of these figures, which are nanoseconds, side by side.
    pub fn times(&self, figures: &[usize]) -> String {
        let times: Vec<String> = figures.iter().map(|k| shown(self.median(|run| run[*k]))).collect();
        times.join(", ")
    }
}

/// Nanoseconds in the unit that suits them.
pub fn shown(ns: f64) -> String {
    match ns.abs() {
        size if size < 1e3 => format!("{ns:.0} ns"),
        size if size < 1e6 => format!("{:.1} µs", ns / 1e3),
        _ => format!("{:.2} ms", ns / 1e6),
    }
}
