//! JSON text (RFC 8259) of answers.

use std::fmt::{self, Write};

/// A value of an answer; a number is whole or a position, which is written out in full.
pub enum Value {
    Number(u64),
    Position(f64),
    Text(String),
    List(Vec<Value>),
    Object(Object),
}

/// Names and their values, in their order.
#[derive(Default)]
pub struct Object(Vec<(&'static str, Value)>);

/// An object with these members.
pub fn object<const N: usize>(members: [(&'static str, Value); N]) -> Object {
    Object(members.into())
}

impl Object {
    /// The members of both.
    pub fn and(mut self, further: Object) -> Object {
        self.0.extend(further.0);
        self
    }

    /// The names of its members.
    pub fn names(&self) -> impl Iterator<Item = &'static str> + '_ {
        self.0.iter().map(|(name, _)| *name)
    }
}

impl From<Object> for Value {
    fn from(object: Object) -> Value {
        Value::Object(object)
    }
}

impl From<u8> for Value {
    fn from(number: u8) -> Value {
        Value::Number(number.into())
    }
}

impl From<u16> for Value {
    fn from(number: u16) -> Value {
        Value::Number(number.into())
    }
}

impl From<u32> for Value {
    fn from(number: u32) -> Value {
        Value::Number(number.into())
    }
}

impl From<usize> for Value {
    fn from(number: usize) -> Value {
        Value::Number(number as u64)
    }
}

impl From<f32> for Value {
    fn from(position: f32) -> Value {
        Value::Position(position.into())
    }
}

impl From<&str> for Value {
    fn from(text: &str) -> Value {
        Value::Text(text.into())
    }
}

impl From<String> for Value {
    fn from(text: String) -> Value {
        Value::Text(text)
    }
}

impl<T: Into<Value>> FromIterator<T> for Value {
    fn from_iter<I: IntoIterator<Item = T>>(values: I) -> Value {
        Value::List(values.into_iter().map(Into::into).collect())
    }
}

impl fmt::Display for Value {
    fn fmt(&self, f: &mut fmt::Formatter<'_>) -> fmt::Result {
        match self {
            Value::Number(number) => number.fmt(f),
            Value::Position(position) => position.fmt(f),
            Value::Text(text) => quoted(text, f),
            Value::List(values) => {
                f.write_char('[')?;
                for (place, value) in values.iter().enumerate() {
                    write!(f, "{}{value}", comma(place))?;
                }
                f.write_char(']')
            }
            Value::Object(object) => object.fmt(f),
        }
    }
}

impl fmt::Display for Object {
    fn fmt(&self, f: &mut fmt::Formatter<'_>) -> fmt::Result {
        f.write_char('{')?;
        for (place, (name, value)) in self.0.iter().enumerate() {
            write!(f, "{}\"{name}\": {value}", comma(place))?;
        }
        f.write_char('}')
    }
}

/// What stands before the value at this place of a list.
pub fn comma(place: usize) -> &'static str {
    match place {
        0 => "",
        _ => ", ",
    }
}

fn quoted(text: &str, f: &mut fmt::Formatter<'_>) -> fmt::Result {
    f.write_char('"')?;
    for character in text.chars() {
        match character {
            '"' | '\\' => write!(f, "\\{character}")?,
            control if control < ' ' => write!(f, "\\u{:04x}", u32::from(control))?,
            other => f.write_char(other)?,
        }
    }
    f.write_char('"')
}
