// Courier's values read and written in plain Rust, `rustc -O`, with no proofs; the peer of `bench values`, which prints
// the same lines but those on pieces. The first word says how many times each value is read and written.
#[path = "peer/values.rs"]
mod values;

use std::hint::black_box;
use std::time::Instant;
use values::{Shape, Value, put};

#[allow(dead_code)]
#[derive(Debug)]
enum Fault {
    Truncated,
    NotBoolean(usize),
    NotListed(usize),
    OverMaximum(usize),
}

struct Reader<'a> {
    words: &'a [u16],
    place: usize,
}

impl Reader<'_> {
    #[inline]
    fn word(&mut self) -> Result<u16, Fault> {
        let word = *self.words.get(self.place).ok_or(Fault::Truncated)?;
        self.place += 1;
        Ok(word)
    }

    fn long(&mut self) -> Result<u32, Fault> {
        let high = self.word()?;
        let low = self.word()?;
        Ok(u32::from(high) << 16 | u32::from(low))
    }

    fn text(&mut self) -> Result<Vec<u8>, Fault> {
        let count = usize::from(self.word()?);
        let needed = count.div_ceil(2);
        if self.words.len() - self.place < needed {
            return Err(Fault::Truncated);
        }
        let mut bytes = Vec::with_capacity(count + 1);
        for word in &self.words[self.place..self.place + needed] {
            bytes.extend_from_slice(&word.to_be_bytes());
        }
        bytes.truncate(count);
        self.place += needed;
        Ok(bytes)
    }

    fn values(&mut self, count: u16, element: &Shape) -> Result<Vec<Value>, Fault> {
        let mut values = Vec::with_capacity(usize::from(count).min(self.words.len() - self.place));
        for _ in 0..count {
            values.push(self.value(element)?);
        }
        Ok(values)
    }

    fn value(&mut self, shape: &Shape) -> Result<Value, Fault> {
        Ok(match shape {
            Shape::Boolean => match self.word()? {
                0 => Value::Boolean(false),
                1 => Value::Boolean(true),
                _ => return Err(Fault::NotBoolean(self.place - 1)),
            },
            Shape::Cardinal => Value::Cardinal(self.word()?),
            Shape::LongCardinal => Value::LongCardinal(self.long()?),
            Shape::Integer => Value::Integer(self.word()? as i16),
            Shape::LongInteger => Value::LongInteger(self.long()? as i32),
            Shape::Unspecified => Value::Unspecified(self.word()?),
            Shape::Text => Value::Text(self.text()?),
            Shape::Enumeration(listed) => {
                let word = self.word()?;
                if !listed.contains(&word) {
                    return Err(Fault::NotListed(self.place - 1));
                }
                Value::Enumeration(word)
            }
            Shape::Array(count, element) => Value::Array(self.values(*count, element)?),
            Shape::Sequence(most, element) => {
                let count = self.word()?;
                if count > *most {
                    return Err(Fault::OverMaximum(self.place - 1));
                }
                Value::Sequence(self.values(count, element)?)
            }
            Shape::Fields(parts) => {
                let mut values = Vec::with_capacity(parts.len());
                for part in parts {
                    values.push(self.value(part)?);
                }
                Value::Fields(values)
            }
            Shape::Choice(members) => {
                let designator = self.word()?;
                match members.iter().find(|member| member.0 == designator) {
                    Some(member) => Value::Choice(designator, Box::new(self.value(&member.1)?)),
                    None => return Err(Fault::NotListed(self.place - 1)),
                }
            }
        })
    }
}

#[inline(never)]
fn read(shape: &Shape, words: &[u16]) -> Result<(Value, usize), Fault> {
    let mut reader = Reader { words, place: 0 };
    let value = reader.value(shape)?;
    Ok((value, reader.place))
}

#[inline(never)]
fn write(value: &Value, out: &mut Vec<u16>) {
    put(value, out);
}

fn time_value(name: &str, shape: &Shape, words: &[u16], times: u32) {
    let mut out = Vec::new();
    let mut least_read = u128::MAX;
    let mut least_write = u128::MAX;
    let mut taken = 0;
    for _ in 0..times.max(1) {
        let start = Instant::now();
        let whole = read(black_box(shape), black_box(words));
        least_read = least_read.min(start.elapsed().as_nanos());
        let (value, count) = whole.unwrap();
        taken = count;
        out.clear();
        let start = Instant::now();
        write(black_box(&value), &mut out);
        least_write = least_write.min(start.elapsed().as_nanos());
    }
    assert_eq!(out, words);
    println!("{name} {taken} words");
    if times > 0 {
        println!("{name} read {least_read}");
        println!("{name} write {least_write}");
    }
}

fn main() {
    let times = std::env::args().nth(1).and_then(|word| word.parse().ok()).unwrap_or(0);

    let cardinals = Shape::Sequence(65535, Box::new(Shape::Cardinal));
    let words: Vec<u16> = std::iter::once(60000).chain(0..60000).collect();
    time_value("cardinals", &cardinals, &words, times);

    let words: Vec<u16> = std::iter::once(65535).chain(0..32767).chain([0x4100]).collect();
    time_value("text", &Shape::Text, &words, times);

    let record = Shape::Fields(vec![Shape::Cardinal, Shape::Text]);
    let records = Shape::Sequence(65535, Box::new(record));
    let words: Vec<u16> = std::iter::once(15000)
        .chain((0..15000).flat_map(|number| [number, 4, 0x4142, 0x4344]))
        .collect();
    time_value("records", &records, &words, times);

    let nested = (1..16).fold(Shape::Cardinal, |inside, _| Shape::Fields(vec![Shape::Cardinal, inside]));
    let words: Vec<u16> = (0..16).collect();
    time_value("nested", &nested, &words, times);
}
