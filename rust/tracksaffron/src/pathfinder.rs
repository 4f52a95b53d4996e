//! Pathfinder: replies, rows, requests, and the search for a frame.

use core::ops::Range;

use crate::calls::*;
use crate::{told, unlisted, written, Result};

#[derive(Clone, Copy, Debug, PartialEq, Eq)]
pub enum Reply {
    /// So many words at the front of the row.
    Words(usize),
    /// So many bytes at the front of the name.
    Name(usize),
    /// The register is written.
    Written,
    /// The device's failure, with its code.
    Failure(u8),
}

/// What a word is in its row's type.
#[derive(Clone, Copy, Debug, PartialEq, Eq)]
pub enum Row {
    Number(i64),
    /// In units of ten millivolts; `millivolts` has it in millivolts.
    TenMillivolts(i16),
    Truth(bool),
    /// No data. Alarm counts and the reset count (rows 32 to 45 of reply 03) are never missing.
    Missing,
}

/// A request.
#[derive(Clone, Copy, Debug, PartialEq, Eq)]
pub enum Request {
    /// One without data, by its opcode.
    Ask(u8),
    Set {
        register: u8,
        value: i32,
    },
}

/// Reads the reply to the request `asked`.
pub fn read(asked: u8, s: &[u8], row: &mut [i32], name: &mut [u8]) -> Result<Reply> {
    let answer = unsafe {
        tracksaffron_pf_read(asked, s.as_ptr(), s.len(), row.as_mut_ptr(), row.len(), name.as_mut_ptr(), name.len())
    };
    told(answer).map(|(kind, n)| match kind {
        PF_WORDS => Reply::Words(n),
        PF_NAME => Reply::Name(n),
        PF_WRITTEN => Reply::Written,
        PF_FAILURE => Reply::Failure(n as u8),
        _ => unlisted(kind),
    })
}

/// Narrows word number `row` of a reply to its type.
pub fn row(reply: u8, row: u8, word: i32) -> Result<Row> {
    let mut value = [0];
    let answer = unsafe { tracksaffron_pf_row(reply, row, word, value.as_mut_ptr(), value.len()) };
    told(answer).map(|(kind, _)| match kind {
        PF_ROW_NUMBER => Row::Number(value[0]),
        PF_ROW_TEN_MILLIVOLTS => Row::TenMillivolts(value[0] as i16),
        PF_ROW_TRUTH => Row::Truth(value[0] != 0),
        PF_ROW_MISSING => Row::Missing,
        _ => unlisted(kind),
    })
}

/// A count of ten millivolts as millivolts.
pub fn millivolts(tens: i16) -> i32 {
    unsafe { tracksaffron_pf_millivolts(tens) }
}

/// Writes the request with this opcode, one that has no data; how many bytes it has.
pub fn ask(opcode: u8, out: &mut [u8]) -> Result<usize> {
    written(unsafe { tracksaffron_pf_ask(opcode, out.as_mut_ptr(), out.len()) })
}

/// Writes the request that sets a register, 0 to 46 or 48 to 51, in its range; how many bytes it has. A value of 32 bits
/// without sign is the one with the same bits.
pub fn write(register: u8, value: i32, out: &mut [u8]) -> Result<usize> {
    written(unsafe { tracksaffron_pf_write(register, value, out.as_mut_ptr(), out.len()) })
}

/// The request that the bytes are.
pub fn parse(s: &[u8]) -> Result<Request> {
    let mut row = [0; 2];
    let answer = unsafe { tracksaffron_pf_parse(s.as_ptr(), s.len(), row.as_mut_ptr(), row.len()) };
    told(answer).map(|(kind, _)| match kind {
        PF_ASK => Request::Ask(row[0] as u8),
        PF_SET => Request::Set { register: row[0] as u8, value: row[1] },
        _ => unlisted(kind),
    })
}

/// The first whole frame among the bytes, as in log text.
pub fn find(s: &[u8]) -> Option<Range<usize>> {
    let mut found = [0; 2];
    let answer = unsafe { tracksaffron_pf_find(s.as_ptr(), s.len(), found.as_mut_ptr(), found.len()) };
    match told(answer) {
        Ok((PF_FOUND, _)) => Some(found[0]..found[0] + found[1]),
        Ok((PF_NOTHING, _)) => None,
        Ok((kind, _)) => unlisted(kind),
        Err(_) => unreachable!("there is room for place and length"),
    }
}
