//! What the programs that measure the gateway's crate share.

pub mod counted;
pub mod inputs;
pub mod lent;
pub mod rows;
