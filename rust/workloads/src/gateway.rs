//! What else a gateway does with the crate, beside the source: the same lines for both sides.

use crate::tables::GATEWAY;
use ::workloads::inputs::NOTICE;
use ::workloads::rows;
use common::measure::{in_turn, side, Side};
use source::cpim as source;

fn row(what: &str, sides: [Side<'_>; 2]) {
    rows::print(GATEWAY, what, f64::INFINITY, &in_turn(sides).map(|measured| measured.time.thread));
}

fn nothing<S>(_: &mut S) {}

/// Calls on nothing but the texts that they name.
macro_rules! afresh {
    ($what:expr, $api:ident, $call:expr) => {
        row(
            $what,
            [
                side((), nothing, |_| {
                    use cpim as $api;
                    $call
                }),
                side((), nothing, |_| {
                    use source as $api;
                    $call
                }),
            ],
        )
    };
}

/// Calls on the notice that was read.
macro_rules! read {
    ($what:expr, $m:ident, $call:expr) => {
        row(
            $what,
            [
                side(cpim::parse_cpim(NOTICE).unwrap(), nothing, |$m| $call),
                side(source::parse_cpim(NOTICE).unwrap(), nothing, |$m| $call),
            ],
        )
    };
}

pub fn all() {
    read!("`get_header`, a name that is absent", m, m.get_header("cc").is_some());
    read!("`headers().get(\"Subject\")`", m, m.headers().get("Subject").map_or(0, Vec::len));
    read!("`content_type`", m, m.content_type().len());
    read!("`clone`", m, m.clone());
    afresh!("read, one `get_header`, written", api, {
        let m = api::parse_cpim(NOTICE).unwrap();
        let text = m.to_string().unwrap();
        (m.get_header("From").map_or(0, str::len), text, m)
    });
    afresh!("read, `headers()`", api, {
        let m = api::parse_cpim(NOTICE).unwrap();
        (m.headers().len(), m)
    });
    afresh!("built by `new` and five calls", api, {
        api::CpimMessage::new("text/plain", b"Found on line 4".to_vec())
            .and_then(|m| m.with_from("North depot <im:north@depots.example>"))
            .and_then(|m| m.with_to("East counter <im:east@depots.example>"))
            .and_then(|m| m.with_datetime("2026-03-02T08:15:00Z"))
            .and_then(|m| m.with_subject("Black umbrella, wooden handle"))
            .and_then(|m| m.with_content_header("Content-ID", "<4711@depots.example>"))
            .expect("a notice")
    });
    row(
        "`comes_back`, beside written, read and compared",
        [
            side(cpim::parse_cpim(NOTICE).unwrap(), nothing, |m| m.comes_back()),
            side(source::parse_cpim(NOTICE).unwrap(), nothing, |m| {
                source::parse_cpim(&source::CpimMessage::to_string(m).unwrap()).is_ok_and(|k| k == *m)
            }),
        ],
    );
}
