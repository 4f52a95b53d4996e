//! PACE: replies and requests.

use crate::calls::*;
use crate::{told, unlisted, written, Result};

/// What a reply is; its values stand at the front of the row, its text at the front of the bytes.
#[derive(Clone, Copy, Debug, PartialEq, Eq)]
pub enum Reply {
    /// At the places of `analog`.
    Analog,
    /// At the places of `warnings`.
    Warnings,
    /// 20 bytes of text.
    Hardware,
    /// So many bytes of text, 20 or 40.
    Serial(usize),
    /// Alarm, protect and release in mV, delay in 100 ms.
    CellOvervoltage,
    /// Alarm and protect in A, delay in 100 ms.
    SlowDischarge,
    Accepted,
    /// The return code.
    Failure(u8),
}

/// Places of the analog information; places past a count are 0.
pub mod analog {
    pub const CELL_COUNT: usize = 0;
    pub const TEMPERATURE_COUNT: usize = 1;
    pub const CURRENT_10MA: usize = 2;
    pub const TOTAL_MV: usize = 3;
    pub const REMAINING_10MAH: usize = 4;
    pub const FULL_10MAH: usize = 5;
    pub const CYCLES: usize = 6;
    pub const DESIGN_10MAH: usize = 7;
    /// 16 of them.
    pub const CELLS_MV: usize = 8;
    /// 8 of them, in tenths of a degree.
    pub const TEMPERATURES_DC: usize = 24;
    pub const NUMBERS: usize = 32;
}

/// Places of the warnings; places past a count are 0.
pub mod warnings {
    pub const CELL_COUNT: usize = 0;
    pub const TEMPERATURE_COUNT: usize = 1;
    pub const CHARGE_CURRENT: usize = 2;
    pub const TOTAL_VOLTAGE: usize = 3;
    pub const DISCHARGE_CURRENT: usize = 4;
    pub const PROTECTION1: usize = 5;
    pub const PROTECTION2: usize = 6;
    pub const SYSTEM: usize = 7;
    pub const CONFIGURATION: usize = 8;
    pub const FAULT: usize = 9;
    pub const BALANCE_HIGH: usize = 10;
    pub const BALANCE_LOW: usize = 11;
    pub const WARNING1: usize = 12;
    pub const WARNING2: usize = 13;
    /// 16 of them.
    pub const CELLS: usize = 14;
    /// 8 of them.
    pub const TEMPERATURES: usize = 30;
    pub const NUMBERS: usize = 38;
}

/// A request to the pack with an address.
#[derive(Clone, Copy, Debug, PartialEq, Eq)]
pub enum Request {
    /// One that carries no values, by its command.
    Ask(u8),
    CellOvervoltage {
        alarm_mv: u16,
        protect_mv: u16,
        release_mv: u16,
        delay_100ms: u8,
    },
    SlowDischarge {
        alarm_a: u16,
        protect_a: u16,
        delay_100ms: u8,
    },
}

/// Reads the reply to the command `asked` of this address.
pub fn read(address: u8, asked: u8, s: &[u8], row: &mut [i32], text: &mut [u8]) -> Result<Reply> {
    let answer = unsafe {
        tracksaffron_pace_read(
            address,
            asked,
            s.as_ptr(),
            s.len(),
            row.as_mut_ptr(),
            row.len(),
            text.as_mut_ptr(),
            text.len(),
        )
    };
    told(answer).map(|(kind, n)| match kind {
        PACE_ANALOG => Reply::Analog,
        PACE_WARNINGS => Reply::Warnings,
        PACE_HARDWARE => Reply::Hardware,
        PACE_SERIAL => Reply::Serial(n),
        PACE_CELL_OVERVOLTAGE => Reply::CellOvervoltage,
        PACE_SLOW_DISCHARGE => Reply::SlowDischarge,
        PACE_ACCEPTED => Reply::Accepted,
        PACE_FAILURE => Reply::Failure(n as u8),
        _ => unlisted(kind),
    })
}

/// Writes the request with this command, one that carries no values; how many characters it has.
pub fn ask(address: u8, command: u8, out: &mut [u8]) -> Result<usize> {
    written(unsafe { tracksaffron_pace_ask(address, command, out.as_mut_ptr(), out.len()) })
}

/// Writes the request that sets the cells' overvoltage, in mV and 100 ms; how many characters it has.
pub fn cell_overvoltage(
    address: u8,
    alarm: u16,
    protect: u16,
    release: u16,
    delay: u8,
    out: &mut [u8],
) -> Result<usize> {
    written(unsafe {
        tracksaffron_pace_cell_overvoltage(address, alarm, protect, release, delay, out.as_mut_ptr(), out.len())
    })
}

/// Writes the request that sets the slow discharge current, in A and 100 ms; how many characters it has.
pub fn slow_discharge(address: u8, alarm: u16, protect: u16, delay: u8, out: &mut [u8]) -> Result<usize> {
    written(unsafe { tracksaffron_pace_slow_discharge(address, alarm, protect, delay, out.as_mut_ptr(), out.len()) })
}

/// The address and the request that the characters are.
pub fn parse(s: &[u8]) -> Result<(u8, Request)> {
    let mut row = [0; 5];
    let answer = unsafe { tracksaffron_pace_parse(s.as_ptr(), s.len(), row.as_mut_ptr(), row.len()) };
    let byte = |place: usize| row[place] as u8;
    let amount = |place: usize| row[place] as u16;
    told(answer).map(|(kind, _)| {
        let request = match kind {
            PACE_ASK => Request::Ask(byte(1)),
            PACE_SET_CELL_OVERVOLTAGE => Request::CellOvervoltage {
                alarm_mv: amount(1),
                protect_mv: amount(2),
                release_mv: amount(3),
                delay_100ms: byte(4),
            },
            PACE_SET_SLOW_DISCHARGE => {
                Request::SlowDischarge { alarm_a: amount(1), protect_a: amount(2), delay_100ms: byte(3) }
            }
            _ => unlisted(kind),
        };
        (byte(0), request)
    })
}
