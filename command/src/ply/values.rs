//! The numbers after a PLY header, one after the other: from text or from bytes.
use super::header::Kind;
use crate::stop::{Fault, Spot, shown};
use std::{fmt, str};

/// A number of a file.
#[derive(Clone, Copy, Debug)]
pub enum Value {
    Whole(i64),
    Real(f32),
}

impl Value {
    /// It as a single-precision number.
    pub fn real(self) -> f32 {
        match self {
            Value::Whole(number) => number as f32,
            Value::Real(number) => number,
        }
    }

    /// It as a whole number, not below zero.
    pub fn index(self) -> Option<usize> {
        match self {
            Value::Whole(number) => usize::try_from(number).ok(),
            Value::Real(_) => None,
        }
    }
}

impl fmt::Display for Value {
    fn fmt(&self, f: &mut fmt::Formatter) -> fmt::Result {
        match self {
            Value::Whole(number) => number.fmt(f),
            Value::Real(number) => number.fmt(f),
        }
    }
}

/// Rows of numbers.
pub trait Values {
    /// Goes to the next row; false where the file ends.
    fn row(&mut self) -> bool;
    /// The next number of the row.
    fn value(&mut self, kind: Kind) -> Result<Value, Fault>;
    /// Says that the row should end here.
    fn end_row(&mut self) -> Result<(), Fault>;
    /// Where the row stands.
    fn spot(&self) -> Spot;
}

/// Rows that are lines of text; empty lines are passed over.
pub struct Text<'a> {
    rest: &'a [u8],
    words: Vec<&'a [u8]>,
    next: usize,
    line: usize,
}

impl<'a> Text<'a> {
    /// The text after a header of so many lines.
    pub fn new(rest: &'a [u8], line: usize) -> Text<'a> {
        let words = Vec::new();
        let next = 0;
        Text {
            rest,
            words,
            next,
            line,
        }
    }
}

impl Values for Text<'_> {
    fn row(&mut self) -> bool {
        self.words.clear();
        self.next = 0;
        while self.words.is_empty() && !self.rest.is_empty() {
            let end = self.rest.iter().position(|&byte| byte == b'\n');
            let (line, rest) = self
                .rest
                .split_at(end.map_or(self.rest.len(), |end| end + 1));
            self.rest = rest;
            self.line += 1;
            let words = line.split(|byte| byte.is_ascii_whitespace());
            self.words.extend(words.filter(|word| !word.is_empty()));
        }
        !self.words.is_empty()
    }

    fn value(&mut self, kind: Kind) -> Result<Value, Fault> {
        let Some(word) = self.words.get(self.next) else {
            return Err(Fault::at(
                self.spot(),
                "the line has fewer numbers than the header calls for",
            ));
        };
        self.next += 1;
        let word = str::from_utf8(word).unwrap_or("?");
        let value = match kind.whole() {
            true => word.parse().ok().map(Value::Whole),
            false => word.parse().ok().map(Value::Real),
        };
        let whole = if kind.whole() { "whole " } else { "" };
        let what = || format!("`{}` is no {whole}number", shown(word));
        value.ok_or_else(|| Fault::at(self.spot(), what()))
    }

    fn end_row(&mut self) -> Result<(), Fault> {
        match self.next == self.words.len() {
            true => Ok(()),
            false => Err(Fault::at(
                self.spot(),
                "the line has more numbers than the header calls for",
            )),
        }
    }

    fn spot(&self) -> Spot {
        Spot::Line(self.line)
    }
}

/// Rows of bytes, one after the other.
pub struct Binary<'a> {
    bytes: &'a [u8],
    next: usize,
    start: usize,
}

impl<'a> Binary<'a> {
    /// The bytes of a file from the end of its header on.
    pub fn new(bytes: &'a [u8], start: usize) -> Binary<'a> {
        let next = start;
        Binary { bytes, next, start }
    }

    /// The next N bytes.
    fn take<const N: usize>(&mut self) -> Result<[u8; N], Fault> {
        let rest = self.bytes.get(self.next..).unwrap_or_default();
        let Some(taken) = rest.first_chunk() else {
            return Err(Fault::at(
                Spot::Byte(self.bytes.len()),
                "the file ends within a row",
            ));
        };
        self.next += N;
        Ok(*taken)
    }
}

impl Values for Binary<'_> {
    fn row(&mut self) -> bool {
        self.start = self.next;
        self.next < self.bytes.len()
    }

    fn value(&mut self, kind: Kind) -> Result<Value, Fault> {
        Ok(match kind {
            Kind::I8 => Value::Whole(i8::from_le_bytes(self.take()?).into()),
            Kind::U8 => Value::Whole(u8::from_le_bytes(self.take()?).into()),
            Kind::I16 => Value::Whole(i16::from_le_bytes(self.take()?).into()),
            Kind::U16 => Value::Whole(u16::from_le_bytes(self.take()?).into()),
            Kind::I32 => Value::Whole(i32::from_le_bytes(self.take()?).into()),
            Kind::U32 => Value::Whole(u32::from_le_bytes(self.take()?).into()),
            Kind::F32 => Value::Real(f32::from_le_bytes(self.take()?)),
            Kind::F64 => Value::Real(f64::from_le_bytes(self.take()?) as f32),
        })
    }

    fn end_row(&mut self) -> Result<(), Fault> {
        Ok(())
    }

    fn spot(&self) -> Spot {
        Spot::Byte(self.start)
    }
}
