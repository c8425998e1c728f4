//! CPIM messages (RFC 3862), read and written by a proved library, with the API of `sip_core::cpim`: a program that says
//! `use sip_core::cpim::...` says `use cpim::...` instead.
//!
//! What a call answers and does, and where the entries of a message stand, comes from the functions of crates/cpim; names are looked up there
//! in Rust. The functions are proved to give what the definitions of crates/format say, for every text and every
//! list of calls; that the definitions say what `sip_core::cpim` does is tested, by running that module beside the functions (`make compare`).
//! Added is what that module cannot say, whether a message comes back from its text, and a second reading, [`parse_cpim_rfc`], which finds
//! parameters where they are written.
//!
//! ```
//! use cpim::{CpimHeader, CpimMessage};
//!
//! let umbrella = CpimHeader::new("Black umbrella, wooden handle")?.with_param("depot", "north")?;
//! let mut m = CpimMessage::new("text/plain", b"Found on line 4".to_vec())?.with_from("<im:north@depots.example>")?;
//! m.add_header_obj("Subject", umbrella)?;
//!
//! // The text is what the source writes, and the source's reading loses the depot in it:
//! assert!(m.to_string()?.contains("Subject:;depot=north Black umbrella"));
//! assert!(!m.comes_back());
//! let loss = m.loss().unwrap();
//! assert_eq!(loss.to_string(), "header 2 in the order of names, Subject, has a parameter: it is written behind the colon and read as part of the value");
//!
//! // A second reading looks for parameters where they are written, as RFC 3862 has them:
//! assert!(m.comes_back_rfc());
//! assert_eq!(cpim::parse_cpim_rfc(&m.to_string()?)?, m);
//! # Ok::<(), cpim::CpimError>(())
//! ```
//!
//! # Building
//!
//! The first `cargo build` proves the library that this crate links, some minutes in which cargo prints nothing. To see each crate as it is proved, run
//! `make library` in the repository's root first, after which cargo takes half a minute. Later builds prove again only what was
//! changed: they compare the contents of the sources with a stamp beside the library, in crates/cpim/out. Both can be kept and brought back.
//!
//! Without the Rattle toolchain (`rt`), set the variable `CPIM_LIB_DIR` to a folder with `libcpim.a` and `libcpim.stamp` from a machine that has it. They
//! have to be of the same sources, or, where this package stands without the repository (by `cargo vendor` or `cargo package`), of its version and
//! for its src/raw.rs and src/raw.
//!
//! The library is compiled for x86-64 Linux; the build script needs Rust 1.89.
//!
//! # Differences from `sip_core::cpim`
//!
//! - The unchecked doors (`new_unchecked`, `set_header_unchecked`) are left out: no message is held that is not valid.
//! - [`CpimMessage`] is a record and two stores; [`CpimMessage::headers`], [`CpimMessage::content_headers`] and [`CpimHeader::params`] make their
//!   maps at their first use. [`SmolStr`] is this crate's own; there is no dependency.
//! - White space at an end of a header value is written as `\u` and four hexadecimal digits, control characters as there: what a clerk pasted with a
//!   no-break space at its end comes back ([`CpimMessage::to_string`]).
//! - Each call judges the whole message anew before it changes it, so a list of calls on a message of many headers costs more.
//! - Added: [`parse_cpim_rfc`], the second reading; [`CpimMessage::comes_back`], [`CpimMessage::loss`] and [`CpimMessage::comes_back_rfc`];
//!   [`address()`] and [`CpimMessage::address`], the address in a header value; [`CpimError::number`], [`CpimError::carried`] and
//!   [`CpimError::refusal`]; [`lent`], messages in stores that the caller lends, nothing being allocated; [`raw`], the C functions as they are.
//!
//! # Examples
//!
//! ## Creating a CPIM message
//!
//! ```
//! use cpim::CpimMessage;
//!
//! # fn example() -> Result<(), Box<dyn std::error::Error>> {
//! let msg = CpimMessage::new("text/plain", b"Hello, World!".to_vec())?
//!     .with_from("Alice <im:alice@example.com>")?
//!     .with_to("Bob <im:bob@example.com>")?
//!     .with_datetime("2023-01-15T10:30:00Z")?
//!     .with_subject("Greeting")?;
//!
//! assert_eq!(msg.get_header("From"), Some("Alice <im:alice@example.com>"));
//! # Ok(())
//! # }
//! # example().unwrap();
//! ```
//!
//! ## Error handling
//!
//! ```
//! use cpim::{CpimMessage, CpimError};
//!
//! # fn example() -> Result<(), CpimError> {
//! // Handle validation errors
//! let result = CpimMessage::new("", vec![]);
//! match result {
//!     Err(CpimError::InvalidContentType(msg)) => {
//!         println!("Invalid content type: {}", msg);
//!     }
//!     Err(e) => println!("Other error: {}", e),
//!     Ok(_) => {}
//! }
//!
//! // Handle size limit errors
//! let huge_body = vec![0u8; 20 * 1024 * 1024]; // 20 MB
//! let result = CpimMessage::new("text/plain", huge_body);
//! match result {
//!     Err(CpimError::BodyTooLarge { max, actual }) => {
//!         println!("Body too large: {} bytes (max {})", actual, max);
//!     }
//!     _ => {}
//! }
//! # Ok(())
//! # }
//! # example().unwrap();
//! ```
//!
//! ## Parsing CPIM messages
//!
//! ```
//! use cpim::parse_cpim;
//!
//! # fn example() -> Result<(), Box<dyn std::error::Error>> {
//! let input = "Content-type: Message/CPIM\r\n\r\n\
//!              From: Alice <im:alice@example.com>\r\n\
//!              To: Bob <im:bob@example.com>\r\n\
//!              DateTime: 2023-01-15T10:30:00Z\r\n\r\n\
//!              Content-type: text/plain\r\n\r\n\
//!              Hello, Bob!";
//!
//! let msg = parse_cpim(input)?;
//! assert_eq!(msg.get_header("From"), Some("Alice <im:alice@example.com>"));
//! assert_eq!(msg.body_as_str()?, "Hello, Bob!");
//! # Ok(())
//! # }
//! # example().unwrap();
//! ```
//!
//! ## Using language-tagged subjects (RFC 3862)
//!
//! ```
//! # use cpim::CpimMessage;
//! # fn example() -> Result<(), Box<dyn std::error::Error>> {
//! let msg = CpimMessage::new("text/plain", b"Hello".to_vec())?
//!     .with_subject_lang("Hello", "en")?
//!     .with_subject_lang("Bonjour", "fr")?;
//!
//! // Retrieve all subject values
//! let subjects = msg.get_header_values("Subject");
//! assert_eq!(subjects, vec!["Hello", "Bonjour"]);
//!
//! // Access language parameters
//! let subject_headers = msg.headers().get("Subject").unwrap();
//! assert_eq!(subject_headers[0].params().get("lang").map(|s| s.as_str()), Some("en"));
//! # Ok(())
//! # }
//! # example().unwrap();
//! ```
//!
//! ## RFC 3862 Format
//!
//! ```text
//! Content-type: Message/CPIM
//!
//! From: Alice <im:alice@example.com>
//! To: Bob <im:bob@example.com>
//! DateTime: 2023-01-15T10:30:00Z
//! Subject:;lang=en Hello
//!
//! Content-type: text/plain
//!
//! Hello, Bob!
//! ```
//!
//! Note the parameter format: `Header-name:;param=value Value` per RFC 3862 ABNF.

#![deny(unsafe_code)]
#![forbid(unsafe_op_in_unsafe_fn)]

mod address;
mod error;
mod header;
pub mod lent;
mod loss;
mod message;
mod parse;
mod places;
pub mod raw;
mod text;

pub use address::address;
pub use error::{CpimError, Refusal};
pub use header::CpimHeader;
pub use loss::Loss;
pub use message::CpimMessage;
pub use parse::{parse_cpim, parse_cpim_rfc};
pub use text::SmolStr;
