//! Makes a module of docs/src/cpim.rs: the file as it is, but that its inner comments become plain ones (a file that is
//! included can have none), and with two doors to private functions at its end.

use std::{env, fs, path::Path};

const DOORS: &str = "
pub fn open_escape_header_value(value: &str) -> String {
    escape_header_value(value)
}

pub fn open_unescape_header_value(value: &str) -> Option<String> {
    unescape_header_value(value)
}
";

fn main() {
    let file = "../../docs/src/cpim.rs";
    println!("cargo:rerun-if-changed={file}");
    let text = fs::read_to_string(file).expect("docs/src/cpim.rs");
    let lines: Vec<String> =
        text.lines().map(|l| if l.starts_with("//!") { l.replacen("//!", "//", 1) } else { l.to_string() }).collect();
    let out = Path::new(&env::var("OUT_DIR").unwrap()).join("cpim.rs");
    fs::write(out, lines.join("\n") + DOORS).expect("the copy");
}
