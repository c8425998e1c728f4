//! A program that starts itself.

use std::env;
use std::process::{exit, Command};

const ONE_RUN: &str = "one-run";
/// In how many processes a figure is measured.
const RUNS: usize = 3;

/// Whether this process is one of the runs.
pub fn is_one_run() -> bool {
    env::args().nth(1).as_deref() == Some(ONE_RUN)
}

/// The words that a run was told behind that it is one.
pub fn told() -> Vec<String> {
    env::args().skip(2).collect()
}

/// The lines that a run of this program prints, a process of its own that is told these words.
pub fn run(words: &[&str]) -> Vec<String> {
    run_where(&[], words)
}

/// The same where the environment has these variables.
fn run_where(variables: &[(&str, &str)], words: &[&str]) -> Vec<String> {
    let this = env::current_exe().expect("this program");
    let variables = variables.iter().copied();
    let run = Command::new(this).arg(ONE_RUN).args(words).envs(variables).output().expect("this program");
    if !run.status.success() {
        eprintln!("{}", String::from_utf8_lossy(&run.stderr));
        exit(1);
    }
    String::from_utf8_lossy(&run.stdout).lines().map(String::from).collect()
}

/// The lines of all runs: memory and code lie elsewhere each time.
pub fn runs(words: &[&str]) -> Vec<String> {
    runs_where(&[], words)
}

/// The same where the environment has these variables.
pub fn runs_where(variables: &[(&str, &str)], words: &[&str]) -> Vec<String> {
    (0..RUNS).flat_map(|_| run_where(variables, words)).collect()
}
