//! Tongzhu: replies and requests.

use crate::calls::*;
use crate::{told, unlisted, written, Result};

/// What a reply is; its values stand at the front of the row.
#[derive(Clone, Copy, Debug, PartialEq, Eq)]
pub enum Reply {
    /// At the places of `monitor2`.
    Monitor2,
    /// At the places of `monitor3`.
    Monitor3,
    /// Four bytes.
    Status,
    /// In 0.1 A, charging positive.
    Current,
    Done,
    NotDone,
    DeviceError,
}

/// Places of a monitor 2.
pub mod monitor2 {
    /// Four bytes.
    pub const STATUS: usize = 0;
    pub const CURRENT_100MA: usize = 4;
    pub const HIGHEST_MV: usize = 5;
    pub const LOWEST_MV: usize = 6;
    pub const TOTAL_10MV: usize = 7;
    pub const HOTTEST_C: usize = 8;
    pub const COLDEST_C: usize = 9;
    pub const CYCLES: usize = 10;
    pub const REMAINING_100MAH: usize = 11;
    pub const CAPACITY_100MAH: usize = 12;
    pub const SWITCH: usize = 13;
    pub const NUMBERS: usize = 14;
}

/// Places of a monitor 3; a list's places past its count are 0.
pub mod monitor3 {
    /// Four bytes.
    pub const STATUS: usize = 0;
    pub const CURRENT_100MA: usize = 4;
    pub const CELL_COUNT: usize = 5;
    pub const SENSOR_COUNT: usize = 6;
    pub const MOSFET_COUNT: usize = 7;
    pub const CYCLES: usize = 8;
    pub const REMAINING_100MAH: usize = 9;
    pub const CAPACITY_100MAH: usize = 10;
    pub const SWITCH: usize = 11;
    /// 32 of them.
    pub const CELLS_MV: usize = 12;
    /// Four bytes.
    pub const BALANCE: usize = 44;
    /// 16 of them.
    pub const SENSORS_C: usize = 48;
    /// 16 of them.
    pub const MOSFETS_C: usize = 64;
    pub const NUMBERS: usize = 80;
}

/// A date and a time of day, the year counted from 2000.
#[derive(Clone, Copy, Debug, PartialEq, Eq)]
pub struct Time {
    pub year: u8,
    pub month: u8,
    pub day: u8,
    pub hour: u8,
    pub minute: u8,
    pub second: u8,
}

/// A request.
#[derive(Clone, Copy, Debug, PartialEq, Eq)]
pub enum Request {
    /// One that asks for what a function reads.
    Ask(u8),
    SetTime(Time),
}

/// Reads the reply to the function `asked`.
pub fn read(asked: u8, s: &[u8], row: &mut [i32]) -> Result<Reply> {
    let answer = unsafe { tracksaffron_tz_read(asked, s.as_ptr(), s.len(), row.as_mut_ptr(), row.len()) };
    told(answer).map(|(kind, _)| match kind {
        TZ_MONITOR2 => Reply::Monitor2,
        TZ_MONITOR3 => Reply::Monitor3,
        TZ_STATUS => Reply::Status,
        TZ_CURRENT => Reply::Current,
        TZ_DONE => Reply::Done,
        TZ_NOT_DONE => Reply::NotDone,
        TZ_DEVICE_ERROR => Reply::DeviceError,
        _ => unlisted(kind),
    })
}

/// Writes the request that asks for what a function reads; how many bytes it has.
pub fn ask(function: u8, out: &mut [u8]) -> Result<usize> {
    written(unsafe { tracksaffron_tz_ask(function, out.as_mut_ptr(), out.len()) })
}

/// Writes the request that sets the time; how many bytes it has.
pub fn set_time(t: Time, out: &mut [u8]) -> Result<usize> {
    written(unsafe {
        tracksaffron_tz_set_time(t.year, t.month, t.day, t.hour, t.minute, t.second, out.as_mut_ptr(), out.len())
    })
}

/// The request that the bytes are.
pub fn parse(s: &[u8]) -> Result<Request> {
    let mut row = [0; 6];
    let answer = unsafe { tracksaffron_tz_parse(s.as_ptr(), s.len(), row.as_mut_ptr(), row.len()) };
    let [first, month, day, hour, minute, second] = row.map(|n| n as u8);
    told(answer).map(|(kind, _)| match kind {
        TZ_ASK => Request::Ask(first),
        TZ_SET_TIME => Request::SetTime(Time { year: first, month, day, hour, minute, second }),
        _ => unlisted(kind),
    })
}
