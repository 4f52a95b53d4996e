//! The three checks and the lines that ask for them (000, "Checksum"; 002, 4; 004's example frames; 01, "Pathfinder",
//! "Tongzhu" and "PACE").

use crate::line::{NoCall, Words};

/// CRC-16/XMODEM by its definition: the bits of the message, the highest of each byte first, and sixteen zero bits
/// after them, are divided by the polynomial 11021 hex; the checksum is what remains. It goes bit by bit and has no
/// table.
pub fn crc(bytes: &[u8]) -> u16 {
    let zeros = [0, 0];
    let mut remainder: u32 = 0;
    for byte in bytes.iter().chain(&zeros) {
        for place in (0..8).rev() {
            let bit = u32::from(byte >> place & 1);
            remainder = remainder * 2 + bit;
            if remainder >= 0x10000 {
                remainder ^= 0x11021;
            }
        }
    }
    remainder as u16
}

/// The byte that closes the sum of the bytes to 0 modulo 256.
pub fn sum8(bytes: &[u8]) -> u8 {
    ((256 - sum(bytes) % 256) % 256) as u8
}

/// The number of 16 bits that closes the sum of the bytes to 0 modulo 65,536.
pub fn sum16(bytes: &[u8]) -> u16 {
    ((65_536 - sum(bytes) % 65_536) % 65_536) as u16
}

fn sum(bytes: &[u8]) -> u64 {
    bytes.iter().map(|&byte| u64::from(byte)).sum()
}

/// Answers a line whose first word is `check`.
pub fn answer(words: &Words) -> Result<String, NoCall> {
    let show: fn(&[u8]) -> String = match words.at(1)? {
        b"crc" => |bytes| format!("ok crc {:04X}", crc(bytes)),
        b"sum8" => |bytes| format!("ok sum8 {:02X}", sum8(bytes)),
        b"sum16" => |bytes| format!("ok sum16 {:04X}", sum16(bytes)),
        _ => return Err(NoCall::UnknownWord),
    };
    words.count(3)?;
    Ok(show(&words.hex(2)?))
}

#[cfg(test)]
mod tests {
    use super::*;

    #[test]
    fn published_vectors_of_the_crc() {
        assert_eq!(crc(b""), 0);
        assert_eq!(crc(b"123456789"), 0x31C3);
        assert_eq!(crc(b"A"), 0x58E5);
    }

    #[test]
    fn checksums_printed_in_000() {
        assert_eq!(crc(&[0x01, 0x05]), 0x6394);
        assert_eq!(crc(&[0x01, 0x01]), 0x2310);
        assert_eq!(crc(&[0x01, 0x02]), 0x1373);
        assert_eq!(crc(&[0x01, 0x03]), 0x0352);
        assert_eq!(crc(&[0x01, 0x0E]), 0xD2FF);
        assert_eq!(crc(&[0x01, 0x11]), 0x3121);
        assert_eq!(crc(&[0x06, 0x0E, 0x03, 0x38, 0, 0, 0]), 0x667E);
        assert_eq!(crc(b"\x0F\x05PATHFINDER BMS"), 0x7A5E);
        assert_eq!(crc(b"\x0D\x11Zoidberg, MD"), 0x5378);
        let lot_2_version_0_223 = [0x0D, 1, 2, 0, 0, 0, 0, 0, 0, 0, 0xDF, 0, 0, 0];
        assert_eq!(crc(&lot_2_version_0_223), 0x52CB);
    }

    #[test]
    fn sums_printed_in_002_and_004() {
        assert_eq!(sum8(&[0x7F, 0x10, 2, 6, 0x12]), 0x57);
        assert_eq!(sum8(&[0x7F, 0x10, 2, 6, 0x11]), 0x58);
        let set_time = [0x7F, 0x10, 2, 0x0C, 0x30, 0x17, 5, 0x12, 0x10, 0x30, 0x50];
        assert_eq!(sum8(&set_time), 0x75);
        assert_eq!(sum16(b"25014642E00201"), 0xFD30);
        assert_eq!(sum16(b"25014644E00201"), 0xFD2E);
        assert_eq!(sum16(b"250146C10000"), 0xFD9A);
        assert_eq!(sum16(b"250046000000"), 0xFDAF);
    }

    #[test]
    fn sums_close_to_zero() {
        assert_eq!(sum8(&[]), 0);
        assert_eq!(sum16(&[]), 0);
        assert_eq!(sum8(&[1, 255]), 0);
        assert_eq!(sum8(&[1]), 255);
        assert_eq!(sum16(&[255; 257]), 1);
        let mut closed = vec![255; 257];
        closed.push(1);
        assert_eq!(sum16(&closed), 0);
    }
}
