//! Takes the fields of a payload one after another (002, 2: low byte first; 004 and 001: high byte first).

use crate::refusal::Refusal;

/// What is left of a payload. A field that is not there any more is refused as a wrong shape.
pub struct Fields<'a> {
    rest: &'a [u8],
    high_first: bool,
}

impl<'a> Fields<'a> {
    pub fn low_first(payload: &'a [u8]) -> Fields<'a> {
        Fields { rest: payload, high_first: false }
    }

    pub fn high_first(payload: &'a [u8]) -> Fields<'a> {
        Fields { rest: payload, high_first: true }
    }

    pub fn bytes(&mut self, count: usize) -> Result<&'a [u8], Refusal> {
        let (bytes, rest) = self.rest.split_at_checked(count).ok_or(Refusal::Shape)?;
        self.rest = rest;
        Ok(bytes)
    }

    pub fn byte(&mut self) -> Result<u8, Refusal> {
        Ok(self.bytes(1)?[0])
    }

    /// A number of so many bytes that has no sign.
    pub fn number(&mut self, width: usize) -> Result<i64, Refusal> {
        let bytes = self.bytes(width)?;
        let add = |number: i64, byte: &u8| number * 256 + i64::from(*byte);
        Ok(if self.high_first { bytes.iter().fold(0, add) } else { bytes.iter().rev().fold(0, add) })
    }

    /// A number of so many bytes in two's complement.
    pub fn signed(&mut self, width: usize) -> Result<i64, Refusal> {
        let number = self.number(width)?;
        let limit = 1 << (8 * width);
        Ok(if number < limit / 2 { number } else { number - limit })
    }

    /// A count of things that follow, within its limits.
    pub fn count(&mut self, least: u8, most: u8) -> Result<usize, Refusal> {
        match self.byte()? {
            count if (least..=most).contains(&count) => Ok(count.into()),
            _ => Err(Refusal::Shape),
        }
    }

    /// A byte that is always the same.
    pub fn constant(&mut self, expected: u8) -> Result<(), Refusal> {
        if self.byte()? == expected {
            Ok(())
        } else {
            Err(Refusal::Shape)
        }
    }

    /// Whether the payload ends here.
    pub fn end(&self) -> Result<(), Refusal> {
        if self.rest.is_empty() {
            Ok(())
        } else {
            Err(Refusal::Shape)
        }
    }
}
