//! The source, `docs/src/cpim.rs`, built to be compared with.

#[allow(clippy::all)]
pub mod cpim {
    include!(concat!(env!("OUT_DIR"), "/cpim.rs"));
}
