use crate::Refusal;
use std::borrow::Cow;

/// The attributes of conditions that read a field without its name.
const ATTRIBUTES: [(&str, &str); 2] = [("user-agent", "useragent"), ("x-request-id", "id")];

/// Names of fields that leave a request before the library gets it.
#[derive(Debug)]
pub(crate) struct Ignored {
    // in lower case
    names: Vec<String>,
    // those that the filter's message has as a text
    suspects: Vec<String>,
}

impl Ignored {
    pub(crate) fn new(names: &[&str], message: &[u8]) -> Result<Self, Refusal> {
        for name in names {
            if let Some(fault) = fault_of(name) {
                return Err(Refusal::of_ignored(name, fault));
            }
        }
        let names: Vec<String> = names.iter().map(|name| name.to_ascii_lowercase()).collect();
        let suspects = names.iter().filter(|name| may_read(message, name)).cloned().collect();
        Ok(Self { names, suspects })
    }

    /// Whether a field of this name is left out.
    pub(crate) fn has(&self, name: &[u8]) -> bool {
        self.names.iter().any(|each| name.eq_ignore_ascii_case(each.as_bytes()))
    }

    pub(crate) fn suspects(&self) -> &[String] {
        &self.suspects
    }

    /// The head without whole lines of these names. What is no such line stays, and the library judges it.
    pub(crate) fn head_without<'a>(&self, head: &'a [u8]) -> Cow<'a, [u8]> {
        if self.names.is_empty() {
            return Cow::Borrowed(head);
        }
        // the empty lines before a head, and its request line
        let mut is_before = true;
        let kept = head.split_inclusive(|&byte| byte == b'\n').filter(|line| {
            let is_first = is_before;
            is_before = is_before && matches!(line, [b'\n'] | [b'\r', b'\n']);
            is_first || !self.is_line(line)
        });
        Cow::Owned(kept.flatten().copied().collect())
    }

    /// Whether this is a whole line of one of these names.
    fn is_line(&self, line: &[u8]) -> bool {
        let text = match line {
            [text @ .., b'\r', b'\n'] | [text @ .., b'\n'] => text,
            _ => return false,
        };
        match text.iter().position(|&byte| byte == b':') {
            Some(at) => self.has(&text[..at]) && text[at + 1..].iter().all(|&byte| byte == b'\t' || (byte >= b' ' && byte != 0x7f)),
            None => false,
        }
    }
}

/// What is wrong with a name that is to be ignored.
fn fault_of(name: &str) -> Option<&'static str> {
    if name.starts_with(':') {
        Some("is no field: it is part of each request")
    } else if name.is_empty() || !name.bytes().all(is_token) {
        Some("is not the name of a field")
    } else if name.eq_ignore_ascii_case("host") {
        Some("cannot be ignored: a request needs its host")
    } else {
        None
    }
}

/// Whether a byte may be in a field's name (RFC 9110, section 5.6.2).
fn is_token(byte: u8) -> bool {
    byte.is_ascii_alphanumeric() || b"!#$%&'*+-.^_`|~".contains(&byte)
}

/// Whether a message has a name, or that of an attribute which reads it, as a text.
fn may_read(message: &[u8], name: &str) -> bool {
    has_text(message, name) || ATTRIBUTES.iter().any(|&(field, attribute)| field == name && has_text(message, attribute))
}

/// Whether a message has this text, in any case, with its length before it.
fn has_text(message: &[u8], text: &str) -> bool {
    text.len() < 128
        && message.windows(text.len() + 1).any(|part| usize::from(part[0]) == text.len() && part[1..].eq_ignore_ascii_case(text.as_bytes()))
}
