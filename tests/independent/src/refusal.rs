//! The refusal numbers (01, "Refusal numbers").

/// Why a call was refused. Its number is its place in the table of 01.
#[derive(Clone, Copy, Debug, PartialEq, Eq)]
pub enum Refusal {
    TooShort = 1,
    FirstMark = 2,
    LastMark = 3,
    Length = 4,
    Checksum = 5,
    Address = 6,
    Request = 7,
    Shape = 8,
    Value = 9,
    Register = 10,
    Room = 11,
    WantedCrossed = 12,
    Character = 13,
    OutOfTurn = 14,
    PresentCrossed = 15,
}

/// The answer to a call that may be refused.
pub fn answer(result: Result<String, Refusal>) -> String {
    match result {
        Ok(answer) => format!("ok {answer}"),
        Err(refusal) => format!("refused {}", refusal as u8),
    }
}
