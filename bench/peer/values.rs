//! Courier's data types and their values, and how values are written.

#[allow(dead_code)]
pub enum Shape {
    Boolean,
    Cardinal,
    LongCardinal,
    Integer,
    LongInteger,
    Unspecified,
    Text,
    Enumeration(Vec<u16>),
    Array(u16, Box<Shape>),
    Sequence(u16, Box<Shape>),
    Fields(Vec<Shape>),
    Choice(Vec<(u16, Shape)>),
}

pub enum Value {
    Boolean(bool),
    Cardinal(u16),
    LongCardinal(u32),
    Integer(i16),
    LongInteger(i32),
    Unspecified(u16),
    Text(Vec<u8>),
    Enumeration(u16),
    Array(Vec<Value>),
    Sequence(Vec<Value>),
    Fields(Vec<Value>),
    Choice(u16, Box<Value>),
}

fn put_long(long: u32, out: &mut Vec<u16>) {
    out.extend([(long >> 16) as u16, long as u16]);
}

/// Appends the words of a value.
pub fn put(value: &Value, out: &mut Vec<u16>) {
    match value {
        Value::Boolean(bit) => out.push(u16::from(*bit)),
        Value::Cardinal(word) | Value::Unspecified(word) | Value::Enumeration(word) => out.push(*word),
        Value::Integer(number) => out.push(*number as u16),
        Value::LongCardinal(long) => put_long(*long, out),
        Value::LongInteger(long) => put_long(*long as u32, out),
        Value::Text(bytes) => {
            out.push(bytes.len() as u16);
            out.extend(bytes.chunks(2).map(|pair| u16::from(pair[0]) << 8 | u16::from(*pair.get(1).unwrap_or(&0))));
        }
        Value::Array(values) | Value::Fields(values) => values.iter().for_each(|value| put(value, out)),
        Value::Sequence(values) => {
            out.push(values.len() as u16);
            values.iter().for_each(|value| put(value, out));
        }
        Value::Choice(designator, value) => {
            out.push(*designator);
            put(value, out);
        }
    }
}
