//! The 58-byte monitor.

use crate::calls::{tracksaffron_old_read, OLD_RECORD};
use crate::{only, Result};

/// Places of a record. A current that is missing is known 0 and 0 mA.
pub mod record {
    pub const TOTAL_MV: usize = 0;
    pub const CURRENT_KNOWN: usize = 1;
    pub const CURRENT_MA: usize = 2;
    pub const CURRENT2_KNOWN: usize = 3;
    pub const CURRENT2_MA: usize = 4;
    pub const CURRENT3_KNOWN: usize = 5;
    pub const CURRENT3_MA: usize = 6;
    pub const LOWEST_MV: usize = 7;
    pub const LOWEST_CELL: usize = 8;
    pub const HIGHEST_MV: usize = 9;
    pub const HIGHEST_CELL: usize = 10;
    pub const COLDEST_C: usize = 11;
    pub const COLDEST_CELL: usize = 12;
    pub const HOTTEST_C: usize = 13;
    pub const HOTTEST_CELL: usize = 14;
    pub const CELL: usize = 15;
    pub const CELL_COUNT: usize = 16;
    pub const CELL_MV: usize = 17;
    pub const CELL_C: usize = 18;
    pub const STATUS: usize = 19;
    pub const COLLECTED_TODAY_WH: usize = 20;
    pub const STORED_WH: usize = 21;
    pub const CONSUMED_TODAY_WH: usize = 22;
    pub const SOC_PERCENT: usize = 23;
    pub const COLLECTED_KWH: usize = 24;
    pub const CONSUMED_KWH: usize = 25;
    pub const HOUR: usize = 26;
    pub const MINUTE: usize = 27;
    pub const CAPACITY_100WH: usize = 28;
    pub const VMIN_COUNT: usize = 29;
    pub const VMAX_COUNT: usize = 30;
    pub const VBYPASS_COUNT: usize = 31;
    pub const NUMBERS: usize = 32;
}

/// Reads a record into the front of the row, at the places of `record`.
pub fn read(s: &[u8], row: &mut [i32]) -> Result<()> {
    let answer = unsafe { tracksaffron_old_read(s.as_ptr(), s.len(), row.as_mut_ptr(), row.len()) };
    only(OLD_RECORD, answer).map(|_| ())
}
