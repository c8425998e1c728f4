//! The examples in this crate's documentation are those of the source's comments, but for the `use` line; and each is run.

const SOURCE: &str = include_str!(concat!(env!("CARGO_MANIFEST_DIR"), "/../../docs/src/cpim.rs"));
const HERE: &str = include_str!("../src/lib.rs");

/// The lines of the documentation from its examples on.
fn examples(file: &str) -> Vec<String> {
    let doc = file.lines().take_while(|l| l.is_empty() || l.starts_with("//")).skip_while(|l| *l != "//! # Examples");
    doc.filter(|l| *l != "//! # example().unwrap();").map(|l| l.replace("use sip_core::cpim::", "use cpim::")).collect()
}

#[test]
fn examples_are_the_sources() {
    let (source, mut here) = (examples(SOURCE), examples(HERE));
    assert!(source.len() > 80, "the source's examples are not found");
    here.truncate(source.len());
    assert_eq!(here, source);
    let run = HERE.lines().filter(|l| *l == "//! # example().unwrap();").count();
    assert_eq!(run, HERE.lines().filter(|l| l.contains("fn example()")).count());
}
