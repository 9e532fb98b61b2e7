//! JSON documents (RFC 8259): docs/JSON.md describes each.

use std::ffi::OsStr;

use puddockle::Refusal;

use crate::output::{Output, Stop};
use Value::*;

pub enum Value<'a> {
    Null,
    Bool(bool),
    /// Exact in every parser up to 2^53; what may be larger is a text.
    Number(u64),
    Text(String),
    /// A list of numbers, on one line.
    Numbers(Vec<u64>),
    Object(Vec<(&'static str, Value<'a>)>),
    /// A list whose values are made when they are written.
    List(Box<dyn Iterator<Item = Value<'a>> + 'a>),
}

impl<'a> Value<'a> {
    pub fn list(values: impl Iterator<Item = Value<'a>> + 'a) -> Value<'a> {
        List(Box::new(values))
    }

    pub fn text(text: impl Into<String>) -> Value<'a> {
        Text(text.into())
    }

    /// A file's name; what is no UTF-8 in it is U+FFFD.
    pub fn name(name: &OsStr) -> Value<'a> {
        Text(name.to_string_lossy().into_owned())
    }

    pub fn refusal(no: Option<&Refusal>) -> Value<'a> {
        no.map_or(Null, |no| {
            Object(vec![
                ("number", Number(no.number.into())),
                ("place", Number(no.place)),
                ("meaning", Value::text(no.meaning())),
            ])
        })
    }

    fn is_flat(&self) -> bool {
        match self {
            List(_) => false,
            Object(fields) => fields.iter().all(|(_, value)| value.is_flat()),
            _ => true,
        }
    }
}

/// Writes the document of a call.
pub fn document<'a>(call: &str, fields: Vec<(&'static str, Value<'a>)>, out: &mut Output) -> Result<(), Stop> {
    let mut whole = vec![("call", Value::text(call)), ("version", Value::text(puddockle::VERSION))];
    whole.extend(fields);
    write(Object(whole), 0, out)?;
    writeln!(out)
}

fn write(value: Value, depth: usize, out: &mut Output) -> Result<(), Stop> {
    let flat = value.is_flat() && depth > 0;
    match value {
        Null => write!(out, "null"),
        Bool(is) => write!(out, "{is}"),
        Number(number) => write!(out, "{number}"),
        Text(text) => write!(out, "{}", quoted(&text)),
        Numbers(numbers) => write!(out, "{numbers:?}"),
        Object(fields) => {
            write!(out, "{{")?;
            let mut between = "";
            for (name, value) in fields {
                write!(out, "{between}")?;
                line(if flat { None } else { Some(depth + 1) }, out)?;
                write!(out, "\"{name}\": ")?;
                write(value, depth + 1, out)?;
                between = if flat { ", " } else { "," };
            }
            line(if flat { None } else { Some(depth) }, out)?;
            write!(out, "}}")
        }
        List(values) => {
            write!(out, "[")?;
            let mut some = false;
            for value in values {
                write!(out, "{}", if some { "," } else { "" })?;
                line(Some(depth + 1), out)?;
                write(value, depth + 1, out)?;
                some = true;
            }
            line(some.then_some(depth), out)?;
            write!(out, "]")
        }
    }
}

/// A new line, indented, if one is to begin.
fn line(depth: Option<usize>, out: &mut Output) -> Result<(), Stop> {
    match depth {
        Some(depth) => write!(out, "\n{:1$}", "", 2 * depth),
        None => Ok(()),
    }
}

fn quoted(text: &str) -> String {
    let mut quoted = String::from("\"");
    for one in text.chars() {
        match one {
            '"' | '\\' => quoted.extend(['\\', one]),
            '\u{0}'..='\u{1f}' | '\u{7f}' => quoted += &format!("\\u{:04x}", one as u32),
            _ => quoted.push(one),
        }
    }
    quoted + "\""
}
