//! What a gateway does with the crate: the same lines for both sides, but for the one that says where the names come from.

type Pairs = Vec<(String, String)>;

/// All that can be seen of a message, and what else was compared with it.
#[derive(Debug, Default, PartialEq)]
pub struct Seen {
    /// Name, value and parameters of each header.
    pub headers: Vec<(String, String, Pairs)>,
    pub contents: Pairs,
    pub content_type: String,
    pub body: Vec<u8>,
    pub body_as_str: Option<String>,
    pub body_as_string: Option<String>,
    pub text: String,
    pub display: String,
    pub debug: String,
    /// Of each name asked for.
    pub found: Vec<(Option<String>, Vec<String>)>,
    /// Whether it equals the message before the last call, and its own clone.
    pub same: (bool, bool),
    /// A header of it, taken out and changed.
    pub taken: String,
}

macro_rules! side {
    ($name:ident, $($from:ident)::+) => {
        pub mod $name {
            use super::Seen;
            use beside::call::{Call, Function::*};
            use std::borrow::Cow;
            use $($from)::+::{parse_cpim, CpimError, CpimHeader, CpimMessage};

            /// A message and a header alone.
            #[derive(Default)]
            pub struct Side {
                pub message: Option<CpimMessage>,
                header: Option<CpimHeader>,
                before: Option<CpimMessage>,
            }

            impl Side {
                /// What was read is the message.
                pub fn read<E>(&mut self, message: Result<CpimMessage, E>) -> Result<(), E> {
                    self.before = self.message.take();
                    self.message = Some(message?);
                    Ok(())
                }

                pub fn parse(&mut self, text: &str) -> Result<(), CpimError> {
                    self.read(parse_cpim(text))
                }

                pub fn call(&mut self, call: &Call) -> Result<(), CpimError> {
                    let (a, b) = (String::from_utf8_lossy(&call.first), String::from_utf8_lossy(&call.second));
                    let (a, b): (&Cow<str>, &Cow<str>) = (&a, &b);
                    match call.function {
                        HeaderNew => return Ok(self.header = Some(CpimHeader::new(a)?)),
                        WithParam => {
                            let Some(h) = self.header.clone() else { return Ok(()) };
                            return Ok(self.header = Some(h.with_param(a, b)?));
                        }
                        New => return Ok(self.message = Some(CpimMessage::new(a, call.second.clone())?)),
                        _ => {}
                    }
                    let Some(m) = &mut self.message else { return Ok(()) };
                    self.before = Some(m.clone());
                    let built = || self.before.clone().unwrap();
                    match call.function {
                        SetBody => return m.set_body(call.first.clone()),
                        SetHeader => return m.set_header(a, b),
                        AddHeader => return m.add_header(a, b),
                        AddContent => return m.add_content_header(a, b),
                        AddObj => return m.add_header_obj(a, self.header.clone().unwrap_or(CpimHeader::new("")?)),
                        From => *m = built().with_from(a)?,
                        To => *m = built().with_to(a)?,
                        DateTime => *m = built().with_datetime(a)?,
                        Subject => *m = built().with_subject(a)?,
                        Cc => *m = built().with_cc(a)?,
                        Require => *m = built().with_require(a)?,
                        SubjectLang => *m = built().with_subject_lang(a, b)?,
                        Ns => *m = built().with_ns(a, b)?,
                        WithContent => *m = built().with_content_header(a, b)?,
                        New | HeaderNew | WithParam => unreachable!(),
                    }
                    Ok(())
                }

                pub fn seen(&self, names: &[&str]) -> Seen {
                    let Some(m) = &self.message else { return Seen::default() };
                    let mut seen = Seen {
                        content_type: m.content_type().to_string(),
                        body: m.body().to_vec(),
                        body_as_str: m.body_as_str().ok().map(str::to_string),
                        body_as_string: m.body_as_string(),
                        text: m.to_string().expect("a text"),
                        display: format!("{m}"),
                        // Each byte of a body is printed as a number.
                        debug: if m.body().len() < 10_000 { format!("{m:?}") } else { String::new() },
                        same: (self.before.as_ref() == Some(m), m.clone() == *m),
                        ..Seen::default()
                    };
                    for name in names {
                        let values = m.get_header_values(name).iter().map(|v| v.to_string()).collect();
                        seen.found.push((m.get_header(name).map(str::to_string), values));
                    }
                    for (name, values) in m.headers() {
                        for h in values {
                            let params = h.params().iter().map(|(n, v)| (n.to_string(), v.to_string())).collect();
                            seen.headers.push((name.to_string(), h.value().to_string(), params));
                        }
                        let taken = values[values.len() - 1].clone().with_param("p", "q");
                        seen.taken += &format!("{taken:?} {}", taken.as_ref() == Ok(&values[0]));
                    }
                    seen.contents = m.content_headers().iter().map(|(n, v)| (n.to_string(), v.to_string())).collect();
                    seen
                }
            }
        }
    };
}

side!(here, cpim);
side!(there, source::cpim);
