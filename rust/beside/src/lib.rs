//! What the programs share that run the calls, reading and writing beside the source: calls and what the source makes of them, the two readings of a
//! header line, the address in a value, the layout of a message and where its entries stand, the table of refusals, what is written and what comes
//! back, lent stores, names and values, texts.

pub mod address;
pub mod call;
pub mod damage;
pub mod ends;
pub mod exports;
pub mod grammar;
pub mod layout;
pub mod manner;
pub mod names;
pub mod random_calls;
pub mod refusals;
pub mod rfc;
pub mod sections;
pub mod senders;
pub mod spots;
pub mod store;
pub mod whole;
pub mod written;
