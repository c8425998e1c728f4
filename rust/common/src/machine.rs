//! What the machine is that a program measures on.

use crate::grouped;
use std::fs;
use std::process::Command;
use std::thread::available_parallelism;

/// What stands behind a colon in the first line of a file that begins with a word.
fn field(file: &str, word: &str) -> Option<String> {
    let text = fs::read_to_string(file).ok()?;
    let line = text.lines().find(|line| line.starts_with(word))?;
    Some(line.split_once(':')?.1.trim().to_string())
}

/// The first line that a command prints, nothing where it prints none.
fn first_line(command: &str, words: &[&str]) -> Option<String> {
    let said = Command::new(command).args(words).output().ok()?;
    said.status.success().then(|| String::from_utf8_lossy(&said.stdout).lines().next().unwrap_or_default().to_string())
}

/// The commit that is checked out, and whether code was changed since.
fn commit() -> Option<String> {
    const ROOT: &str = concat!(env!("CARGO_MANIFEST_DIR"), "/../..");
    let commit = first_line("git", &["-C", ROOT, "rev-parse", "--short", "HEAD"])?;
    let changed = first_line("git", &["-C", ROOT, "status", "--porcelain", "--", "crates", "rust"])?;
    Some(if changed.is_empty() { commit } else { commit + ", changed since" })
}

/// Processor, cores and memory, the versions of both compilers, and the commit.
pub fn machine() -> String {
    let or_unknown = |found: Option<String>| found.unwrap_or_else(|| "unknown".to_string());
    let of_processor = |word: &str| or_unknown(field("/proc/cpuinfo", word));
    let (processor, family, model) = (of_processor("model name"), of_processor("cpu family"), of_processor("model\t"));
    let kib = field("/proc/meminfo", "MemTotal").and_then(|size| size.split(' ').next()?.parse::<u64>().ok());
    let memory = or_unknown(kib.map(|kib| format!("{} MiB", grouped(kib / 1_024))));
    let cores = available_parallelism().map_or(1, usize::from);
    let [rt, rustc] =
        [("rt", "version"), ("rustc", "--version")].map(|(command, word)| or_unknown(first_line(command, &[word])));
    let commit = or_unknown(commit());
    format!(
        "Processor: {processor}, family {family}, model {model}; {cores} cores, {memory} of memory. `rt`: {rt}. `rustc`: {rustc}. Commit: {commit}."
    )
}
