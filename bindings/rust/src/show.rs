//! Values as the crate `redis` prints them, on one line also where `{:#?}` asks for more. A double is
//! printed by the text that was sent.

use crate::encode::Reply;
use crate::view::{Elements, Kind, Value, View};
use std::fmt;

/// The most levels of a reply that can be sent.
const LEVELS: usize = 1000;

impl fmt::Debug for View<'_> {
    fn fmt(&self, f: &mut fmt::Formatter<'_>) -> fmt::Result {
        self.value().fmt(f)
    }
}

impl fmt::Debug for Reply {
    fn fmt(&self, f: &mut fmt::Formatter<'_>) -> fmt::Result {
        match self.view() {
            Some(view) if self.levels() <= LEVELS => view.fmt(f),
            _ => write!(f, "Reply{:?}", self.tokens()),
        }
    }
}

impl fmt::Debug for Value<'_> {
    fn fmt(&self, f: &mut fmt::Formatter<'_>) -> fmt::Result {
        match self.kind() {
            Kind::Nil => f.write_str("nil"),
            Kind::Okay => f.write_str("ok"),
            Kind::Int => write!(f, "int({})", self.int().unwrap_or(0)),
            Kind::Boolean => write!(f, "boolean({})", self.boolean().unwrap_or(false)),
            Kind::Array => list(f, "array", self.elements()),
            Kind::Set => list(f, "set", self.elements()),
            Kind::Map => {
                f.write_str("map(")?;
                items(f, self.pairs())?;
                f.write_str(")")
            }
            Kind::Attribute => match self.described() {
                Some(value) => write!(f, "attribute({value:?})"),
                None => Ok(()),
            },
            Kind::Push => push(f, self),
            Kind::BulkString => match self.text() {
                Some(text) => write!(f, "bulk-string('{text:?}')"),
                None => write!(f, "binary-data({:?})", self.bytes().unwrap_or(&[])),
            },
            Kind::BigNumber => write!(f, "big-number({:?})", self.bytes().unwrap_or(&[])),
            Kind::SimpleString => write!(f, "simple-string({:?})", self.text().unwrap_or("")),
            Kind::Double => write!(f, "double({})", self.text().unwrap_or("")),
            Kind::ServerError => server_error(f, self),
            Kind::VerbatimString => verbatim(f, self),
        }
    }
}

/// Prints a name, and items in brackets.
fn list(f: &mut fmt::Formatter<'_>, name: &str, values: Elements) -> fmt::Result {
    write!(f, "{name}(")?;
    items(f, values)?;
    f.write_str(")")
}

/// Prints items in brackets.
fn items<T: fmt::Debug>(f: &mut fmt::Formatter<'_>, items: impl Iterator<Item = T>) -> fmt::Result {
    f.write_str("[")?;
    for (n, item) in items.enumerate() {
        let between = if n > 0 { ", " } else { "" };
        write!(f, "{between}{item:?}")?;
    }
    f.write_str("]")
}

/// Prints a push. One whose first value names no kind isn't sent.
fn push(f: &mut fmt::Formatter<'_>, push: &Value) -> fmt::Result {
    let Some((kind, data)) = push.push() else {
        return list(f, "push", push.elements());
    };
    f.write_str("push(")?;
    match kind {
        "invalidate" => f.write_str("Invalidate")?,
        "message" => f.write_str("Message")?,
        "pmessage" => f.write_str("PMessage")?,
        "smessage" => f.write_str("SMessage")?,
        "unsubscribe" => f.write_str("Unsubscribe")?,
        "punsubscribe" => f.write_str("PUnsubscribe")?,
        "sunsubscribe" => f.write_str("SUnsubscribe")?,
        "subscribe" => f.write_str("Subscribe")?,
        "psubscribe" => f.write_str("PSubscribe")?,
        "ssubscribe" => f.write_str("SSubscribe")?,
        other => write!(f, "Other({other:?})")?,
    }
    f.write_str(", ")?;
    items(f, data)?;
    f.write_str(")")
}

fn server_error(f: &mut fmt::Formatter<'_>, error: &Value) -> fmt::Result {
    match error.server_error() {
        Some((code, Some(detail))) => write!(f, "Server error: `{code}: {detail}`"),
        Some((code, None)) => write!(f, "Server error: `{code}`"),
        None => Ok(()),
    }
}

fn verbatim(f: &mut fmt::Formatter<'_>, value: &Value) -> fmt::Result {
    match value.verbatim() {
        Some(("txt", text)) => write!(f, "verbatim-string(Text,{text:?})"),
        Some(("mkd", text)) => write!(f, "verbatim-string(Markdown,{text:?})"),
        Some((other, text)) => write!(f, "verbatim-string(Unknown({other:?}),{text:?})"),
        None => Ok(()),
    }
}
