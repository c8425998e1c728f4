//! crates/cpim/cpim.h declares exactly the functions that crates/cpim exports, and the records that they take and give.

use std::fs::read_to_string;

fn file(path: &str) -> String {
    let path = format!("{}/../../crates/{path}", env!("CARGO_MANIFEST_DIR"));
    read_to_string(&path).unwrap_or_else(|e| panic!("{path}: {e}"))
}

/// On one line, with one space where there is any.
fn plain(s: &str) -> String {
    s.split_whitespace().collect::<Vec<_>>().join(" ")
}

/// A header without its comments.
fn without_comments(s: &str) -> String {
    s.split("/*").enumerate().map(|(k, part)| if k == 0 { part } else { part.split_once("*/").unwrap().1 }).collect()
}

fn c_type(t: &str) -> &str {
    match t {
        "usize" => "size_t",
        "u64" => "uint64_t",
        "bool" => "bool",
        "CpimMessage" => "cpim_message_t",
        "CpimHeader" => "cpim_header_t",
        "Numbers" => "cpim_numbers_t",
        "Answer" => "cpim_answer_t",
        "HeaderAnswer" => "cpim_header_answer_t",
        "HeadAnswer" => "cpim_head_answer_t",
        "LengthAnswer" => "cpim_length_answer_t",
        "Loss" => "cpim_loss_t",
        "Part" => "cpim_part_t",
        "Pair" => "cpim_pair_t",
        "BodyPlace" => "cpim_body_place_t",
        _ => panic!("how is a `{t}` written in C?"),
    }
}

/// A parameter; a slice is its place and its length.
fn c_parameter(parameter: &str) -> String {
    let (name, t) = parameter.split_once(": ").expect("name: type");
    let t = &t.replace("&'a ", "&");
    let (lent, constant) = match t.strip_prefix("&mut [") {
        Some(lent) => (Some(lent), ""),
        None => (t.strip_prefix("&["), "const "),
    };
    match lent.map(|lent| lent.trim_end_matches(']')) {
        Some("u8") => format!("{constant}uint8_t *{name}, size_t {name}_len"),
        Some(lent) => format!("{constant}{} *{name}, size_t {name}_len", c_type(lent)),
        None => format!("{} {name}", c_type(t)),
    }
}

fn declarations(source: &str) -> Vec<String> {
    let exports = source.split("pub extern \"C\" fn ").skip(1);
    exports
        .map(|export| {
            let (name, rest) = export.split_once('(').unwrap();
            let name = name.trim_end_matches("<'a>");
            let (parameters, rest) = rest.split_once(") -> ").unwrap();
            let parameters: Vec<String> =
                parameters.split(',').map(str::trim).filter(|p| !p.is_empty()).map(c_parameter).collect();
            let result = rest.split_whitespace().next().unwrap();
            format!("{} {name}({});", c_type(result), parameters.join(", "))
        })
        .collect()
}

#[test]
fn functions() {
    let header = plain(&without_comments(&file("cpim/cpim.h")));
    let expected = ["cpim/src/lib.rt", "cpim/src/lookups.rt"].map(|path| declarations(&file(path))).concat();
    assert!(expected.len() > 30, "the exports are not found");
    for declaration in &expected {
        assert!(header.contains(declaration), "crates/cpim/cpim.h lacks\n{declaration}");
    }
    assert_eq!(header.matches(");").count(), expected.len(), "crates/cpim/cpim.h declares what is not exported");
}

#[test]
fn records() {
    let header = plain(&without_comments(&file("cpim/cpim.h")));
    let sources = [
        "cpim/src/answers.rt",
        "format/src/lib.rt",
        "read_split/src/lib.rt",
        "roundtrip/src/lib.rt",
        "lookup_places/src/spots.rt",
    ]
    .map(file);
    let mut records = 0;
    for source in &sources {
        for record in source.split("#[repr(C)]\n").skip(1) {
            let (attributes, record) = record.split_once("pub struct ").unwrap();
            assert!(attributes.lines().all(|line| line.starts_with("#[")), "a record that is not public");
            let (name, rest) = record.split_once(" {").unwrap();
            let fields = rest.split_once('}').unwrap().0.split(',').map(str::trim).filter(|f| !f.is_empty());
            let fields: Vec<String> = fields
                .map(|f| f.trim_start_matches("pub ").split_once(": ").unwrap())
                .map(|(field, t)| format!("{} {field};", c_type(t)))
                .collect();
            let expected = format!("typedef struct {{ {} }} {};", fields.join(" "), c_type(name));
            assert!(header.contains(&expected), "crates/cpim/cpim.h lacks\n{expected}");
            records += 1;
        }
    }
    assert_eq!(header.matches("typedef struct").count(), records, "crates/cpim/cpim.h has a record of its own");
}
