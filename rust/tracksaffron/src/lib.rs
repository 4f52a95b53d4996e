//! Replies of four battery monitors read, requests written, settings restored. Each function is one call of `include/tracksaffron.h`, which says
//! what it answers and at which place of a row each value stands; the calls are proved, and safe with any input.
//!
//! ```
//! use tracksaffron::tongzhu::{self, Reply};
//!
//! let mut out = [0; 16];
//! assert_eq!(tongzhu::ask(0x12, &mut out), Ok(6));
//! assert_eq!(out[..6], [0x7F, 0x10, 0x02, 0x06, 0x12, 0x57]);
//!
//! let mut row = [0; tongzhu::monitor3::NUMBERS];
//! assert_eq!(tongzhu::read(0x15, &[0x7F, 0x10, 0x02, 0x08, 0x15, 0x14, 0x00, 0x3E], &mut row), Ok(Reply::Current));
//! assert_eq!(row[0], 20);
//! ```
#![no_std]

mod calls;
pub mod old58;
pub mod pace;
pub mod pathfinder;
pub mod restore;
pub mod sums;
pub mod tongzhu;

/// Why a call gives no answer: a number of document 01. Everything lent then holds what it held.
#[derive(Clone, Copy, Debug, PartialEq, Eq)]
pub enum Refusal {
    Short = 1,
    FirstMark = 2,
    LastMark = 3,
    Length = 4,
    Checksum = 5,
    Address = 6,
    Request = 7,
    Shape = 8,
    Range = 9,
    Register = 10,
    Room = 11,
    WantedPair = 12,
    Character = 13,
    Turn = 14,
    PresentPair = 15,
}

impl Refusal {
    /// All of them, in the order of their numbers.
    pub const ALL: [Refusal; 15] = [
        Refusal::Short,
        Refusal::FirstMark,
        Refusal::LastMark,
        Refusal::Length,
        Refusal::Checksum,
        Refusal::Address,
        Refusal::Request,
        Refusal::Shape,
        Refusal::Range,
        Refusal::Register,
        Refusal::Room,
        Refusal::WantedPair,
        Refusal::Character,
        Refusal::Turn,
        Refusal::PresentPair,
    ];

    /// Its number in document 01.
    pub fn number(self) -> u8 {
        self as u8
    }

    /// A few words for it.
    pub fn text(self) -> &'static str {
        match self {
            Refusal::Short => "the input is shorter than the smallest frame",
            Refusal::FirstMark => "the first mark is wrong",
            Refusal::LastMark => "the last mark is wrong",
            Refusal::Length => "declared length and input length disagree, or PACE's length digit is wrong",
            Refusal::Checksum => "the checksum is wrong",
            Refusal::Address => "address, version or CID1 is wrong",
            Refusal::Request => "the reply is to another request, or the request is not listed",
            Refusal::Shape => "payload or argument of the wrong shape",
            Refusal::Range => "a value is outside its range",
            Refusal::Register => "the register is unknown",
            Refusal::Room => "the room is too small",
            Refusal::WantedPair => "a wanted pair is crossed",
            Refusal::Character => "a PACE character is none of 0-9 and A-F",
            Refusal::Turn => "a restore step is out of turn",
            Refusal::PresentPair => "a present pair is crossed",
        }
    }
}

impl core::fmt::Display for Refusal {
    fn fmt(&self, f: &mut core::fmt::Formatter<'_>) -> core::fmt::Result {
        write!(f, "refused {}: {}", self.number(), self.text())
    }
}

#[cfg(core_error)]
impl core::error::Error for Refusal {}

pub type Result<T> = core::result::Result<T, Refusal>;

/// A kind of answer and its number, or the refusal.
fn told(answer: u64) -> Result<(u32, usize)> {
    match (answer >> 32) as u32 {
        0 => Err(Refusal::ALL[answer as usize - 1]),
        kind => Ok((kind, answer as u32 as usize)),
    }
}

/// The number of an answer that has one kind only.
fn only(kind: u32, answer: u64) -> Result<usize> {
    told(answer).map(|(told, n)| if told == kind { n } else { unlisted(told) })
}

/// How many bytes of a frame stand at the front of the room.
fn written(answer: u64) -> Result<usize> {
    only(calls::FRAME, answer)
}

/// No call answers a kind that its promise does not list.
#[cold]
fn unlisted(kind: u32) -> ! {
    unreachable!("kind {kind}")
}
