//! The sums by which frames are checked.

use crate::calls::*;

/// CRC-16/XMODEM, the Pathfinder's.
pub fn crc16(s: &[u8]) -> u16 {
    unsafe { tracksaffron_crc16(s.as_ptr(), s.len()) }
}

/// The byte that closes the sum of the bytes to 0 modulo 256, Tongzhu's.
pub fn close256(s: &[u8]) -> u8 {
    unsafe { tracksaffron_close256(s.as_ptr(), s.len()) }
}

/// The number that closes the sum of the bytes to 0 modulo 65,536, PACE's.
pub fn close65536(s: &[u8]) -> u16 {
    unsafe { tracksaffron_close65536(s.as_ptr(), s.len()) }
}
