//! The address in a header value.

use crate::raw::{self, text};

/// The address in a header value: what stands between the first `<` outside a quoted string and the next `>`.
///
/// ```
/// assert_eq!(cpim::address(r#""Lost < Found" <im:lost@depot>"#), Some("im:lost@depot"));
/// ```
///
/// Quotes are looked for only before that `<`, and if one is left unclosed there is no address. Inside quotes a backslash covers the character after
/// it; anywhere else it means nothing. `<>` has an empty address, which differs from none:
///
/// ```
/// use cpim::address;
///
/// assert_eq!(address(r#""the \"<\" depot" <im:a>"#), Some("im:a"));
/// assert_eq!(address(r#""Lost < Found <im:lost@depot>"#), None);
/// assert_eq!(address(r#"5" pipe <im:a>"#), None);
/// assert_eq!(address(r#"<"a>""#), Some("\"a"));
/// assert_eq!((address("Lost <>"), address("Lost <im:a")), (Some(""), None));
/// ```
///
/// It goes by the value as it is held, after a reading has taken the escapes out of it. What was an escaped quote in the text is a plain one by then.
/// So a name with such quotes can leave no address, or bring one of its own: what is found is no proof of who sent the notice.
///
/// ```
/// let text = r#"Content-type: Message/CPIM
///
/// From: "a\"b" <im:a>
///
/// Content-type: text/plain
///
/// Hi"#;
/// let m = cpim::parse_cpim(text)?;
/// assert_eq!((m.get_header("From"), m.address("From")), (Some(r#""a"b" <im:a>"#), None));
///
/// let m = cpim::parse_cpim(&text.replace("a\\\"b", "a\\\" <im:b> \\\""))?;
/// assert_eq!((m.get_header("From"), m.address("From")), (Some(r#""a" <im:b> "" <im:a>"#), Some("im:b")));
/// # Ok::<(), cpim::CpimError>(())
/// ```
///
/// [`CpimMessage::to_string`](crate::CpimMessage::to_string) escapes every quote and backslash of a value, so they come back as they were.
pub fn address(value: &str) -> Option<&str> {
    raw::address(value.as_bytes()).of(value.as_bytes()).map(text)
}
