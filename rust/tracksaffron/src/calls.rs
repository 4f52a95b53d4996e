//! The calls as they are linked. A slice passes as a pointer and a length.
//!
//! SAFETY, of each: it takes any slices, reads or writes them within their lengths alone, and keeps nothing of them.

extern "C" {
    pub fn tracksaffron_crc16(s: *const u8, len: usize) -> u16;
    pub fn tracksaffron_close256(s: *const u8, len: usize) -> u8;
    pub fn tracksaffron_close65536(s: *const u8, len: usize) -> u16;

    pub fn tracksaffron_pf_read(
        asked: u8,
        s: *const u8,
        len: usize,
        row: *mut i32,
        words: usize,
        name: *mut u8,
        bytes: usize,
    ) -> u64;
    pub fn tracksaffron_pf_row(reply: u8, row: u8, word: i32, value: *mut i64, values: usize) -> u64;
    pub fn tracksaffron_pf_ask(opcode: u8, out: *mut u8, room: usize) -> u64;
    pub fn tracksaffron_pf_write(register: u8, value: i32, out: *mut u8, room: usize) -> u64;
    pub fn tracksaffron_pf_millivolts(tens: i16) -> i32;
    pub fn tracksaffron_pf_parse(s: *const u8, len: usize, row: *mut i32, numbers: usize) -> u64;
    pub fn tracksaffron_pf_find(s: *const u8, len: usize, found: *mut usize, places: usize) -> u64;

    pub fn tracksaffron_tz_read(asked: u8, s: *const u8, len: usize, row: *mut i32, numbers: usize) -> u64;
    pub fn tracksaffron_tz_ask(function: u8, out: *mut u8, room: usize) -> u64;
    pub fn tracksaffron_tz_set_time(
        year: u8,
        month: u8,
        day: u8,
        hour: u8,
        minute: u8,
        second: u8,
        out: *mut u8,
        room: usize,
    ) -> u64;

    pub fn tracksaffron_tz_parse(s: *const u8, len: usize, row: *mut i32, numbers: usize) -> u64;

    pub fn tracksaffron_pace_read(
        address: u8,
        asked: u8,
        s: *const u8,
        len: usize,
        row: *mut i32,
        numbers: usize,
        text: *mut u8,
        bytes: usize,
    ) -> u64;
    pub fn tracksaffron_pace_ask(address: u8, command: u8, out: *mut u8, room: usize) -> u64;
    pub fn tracksaffron_pace_cell_overvoltage(
        address: u8,
        alarm_mv: u16,
        protect_mv: u16,
        release_mv: u16,
        delay_100ms: u8,
        out: *mut u8,
        room: usize,
    ) -> u64;
    pub fn tracksaffron_pace_slow_discharge(
        address: u8,
        alarm_a: u16,
        protect_a: u16,
        delay_100ms: u8,
        out: *mut u8,
        room: usize,
    ) -> u64;

    pub fn tracksaffron_pace_parse(s: *const u8, len: usize, row: *mut i32, numbers: usize) -> u64;

    pub fn tracksaffron_old_read(s: *const u8, len: usize, row: *mut i32, numbers: usize) -> u64;

    pub fn tracksaffron_restore_open(
        present: *const i32,
        words: usize,
        wanted: *const i32,
        values: usize,
        job: *mut u8,
        bytes: usize,
    ) -> u64;
    pub fn tracksaffron_restore_next(job: *mut u8, bytes: usize, out: *mut u8, room: usize) -> u64;
    pub fn tracksaffron_restore_reply(job: *mut u8, bytes: usize, s: *const u8, len: usize) -> u64;
    pub fn tracksaffron_restore_left(job: *const u8, bytes: usize) -> u64;
}

// The kinds of their answers, as the header names them.

pub const PF_WORDS: u32 = 1;
pub const PF_NAME: u32 = 2;
pub const PF_WRITTEN: u32 = 3;
pub const PF_FAILURE: u32 = 4;
pub const PF_ROW_NUMBER: u32 = 1;
pub const PF_ROW_TEN_MILLIVOLTS: u32 = 2;
pub const PF_ROW_TRUTH: u32 = 3;
pub const PF_ROW_MISSING: u32 = 4;
pub const FRAME: u32 = 1;
pub const PF_ASK: u32 = 1;
pub const PF_SET: u32 = 2;
pub const PF_FOUND: u32 = 1;
pub const PF_NOTHING: u32 = 2;
pub const TZ_MONITOR2: u32 = 1;
pub const TZ_MONITOR3: u32 = 2;
pub const TZ_STATUS: u32 = 3;
pub const TZ_CURRENT: u32 = 4;
pub const TZ_DONE: u32 = 5;
pub const TZ_NOT_DONE: u32 = 6;
pub const TZ_DEVICE_ERROR: u32 = 7;
pub const TZ_ASK: u32 = 1;
pub const TZ_SET_TIME: u32 = 2;
pub const PACE_ANALOG: u32 = 1;
pub const PACE_WARNINGS: u32 = 2;
pub const PACE_HARDWARE: u32 = 3;
pub const PACE_SERIAL: u32 = 4;
pub const PACE_CELL_OVERVOLTAGE: u32 = 5;
pub const PACE_SLOW_DISCHARGE: u32 = 6;
pub const PACE_ACCEPTED: u32 = 7;
pub const PACE_FAILURE: u32 = 8;
pub const PACE_ASK: u32 = 1;
pub const PACE_SET_CELL_OVERVOLTAGE: u32 = 2;
pub const PACE_SET_SLOW_DISCHARGE: u32 = 3;
pub const OLD_RECORD: u32 = 1;
pub const RESTORE_OPENED: u32 = 1;
pub const RESTORE_FRAME: u32 = 1;
pub const RESTORE_DONE: u32 = 2;
pub const RESTORE_WRITTEN: u32 = 1;
pub const RESTORE_FAILURE: u32 = 2;
pub const RESTORE_LEFT: u32 = 1;
