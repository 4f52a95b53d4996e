//! Pathfinder, and its checksum by the usual table, a byte at a time.

/// The table of 256 entries, made when the program is compiled.
static TABLE: [u16; 256] = table();

const fn table() -> [u16; 256] {
    let mut t = [0; 256];
    let mut i = 0;
    while i < 256 {
        let mut r = (i as u16) << 8;
        let mut k = 0;
        while k < 8 {
            r = if r & 0x8000 != 0 { (r << 1) ^ 0x1021 } else { r << 1 };
            k += 1;
        }
        t[i] = r;
        i += 1;
    }
    t
}

/// CRC-16/XMODEM.
#[inline(never)]
pub fn crc16(s: &[u8]) -> u16 {
    s.iter().fold(0, |r, &b| (r << 8) ^ TABLE[usize::from((r >> 8) as u8 ^ b)])
}

/// The data of a Pathfinder frame that answers `asked`.
fn frame(asked: u8, s: &[u8]) -> Option<&[u8]> {
    if s.len() < 6 || s[0] != 0xFE || s.len() != usize::from(s[1]) + 5 || s[s.len() - 1] != 0xFD {
        return None;
    }
    let (covered, end) = s[1..].split_at(s.len() - 4);
    if crc16(covered) != u16::from_be_bytes([end[0], end[1]]) || s[2] != asked {
        return None;
    }
    Some(&s[3..s.len() - 3])
}

/// Reply 02 into a row of words; how many there are, or none.
#[inline(never)]
pub fn pf_read(asked: u8, s: &[u8], row: &mut [i32]) -> Option<usize> {
    let data = frame(asked, s)?;
    if data.len() != 200 || row.len() < 50 {
        return None;
    }
    for (place, word) in row.iter_mut().zip(data.chunks_exact(4)) {
        *place = i32::from_le_bytes([word[0], word[1], word[2], word[3]]);
    }
    Some(50)
}

enum Range {
    Signed(i32, i32),
    Unsigned(u32, u32),
    Unknown,
}

impl Range {
    fn takes(&self, value: i32) -> bool {
        match *self {
            Range::Signed(least, most) => (least..=most).contains(&value),
            Range::Unsigned(least, most) => (least..=most).contains(&(value as u32)),
            Range::Unknown => false,
        }
    }
}

/// The registers' ranges.
static REGISTERS: [Range; 52] = [
    Range::Signed(0, 5000),
    Range::Signed(0, 255),
    Range::Signed(0, 16),
    Range::Signed(-40, 120),
    Range::Signed(-40, 120),
    Range::Signed(0, 255),
    Range::Signed(-40, 120),
    Range::Signed(-40, 120),
    Range::Signed(0, 255),
    Range::Signed(-40, 120),
    Range::Signed(-40, 120),
    Range::Signed(0, 255),
    Range::Signed(-40, 120),
    Range::Signed(-40, 120),
    Range::Signed(0, 255),
    Range::Signed(20, 110),
    Range::Signed(2, 20),
    Range::Signed(1, 2047),
    Range::Signed(20, 90),
    Range::Signed(2, 20),
    Range::Signed(1, 2047),
    Range::Signed(2, 62),
    Range::Signed(1, 127),
    Range::Signed(-32768, 0),
    Range::Signed(0, 255),
    Range::Signed(1, 255),
    Range::Signed(2, 100),
    Range::Signed(1, 127),
    Range::Signed(0, 150),
    Range::Signed(0, 150),
    Range::Signed(0, 255),
    Range::Signed(0, 15),
    Range::Signed(1, 31),
    Range::Signed(0, 255),
    Range::Signed(-32768, 32767),
    Range::Signed(0, 255),
    Range::Signed(-32768, 32767),
    Range::Signed(0, 255),
    Range::Signed(0, 32767),
    Range::Signed(0, 255),
    Range::Signed(0, 32767),
    Range::Signed(0, 255),
    Range::Unsigned(0, u32::MAX),
    Range::Signed(0, 1),
    Range::Signed(0, 1),
    Range::Signed(0, 1),
    Range::Signed(0, 1),
    Range::Unknown,
    Range::Signed(0, 3),
    Range::Unsigned(200, 10000),
    Range::Signed(10, 90),
    Range::Unsigned(10000, 600000),
];

/// The frame that sets a register; how long it is, or none.
#[inline(never)]
pub fn pf_write(register: u8, value: i32, out: &mut [u8]) -> Option<usize> {
    set_frame(register, value, out)
}

/// The same, which the restore may inline.
pub fn set_frame(register: u8, value: i32, out: &mut [u8]) -> Option<usize> {
    if !REGISTERS.get(usize::from(register))?.takes(value) || out.len() < 11 {
        return None;
    }
    out[..4].copy_from_slice(&[0xFE, 6, 0x0E, register]);
    out[4..8].copy_from_slice(&value.to_le_bytes());
    let sum = crc16(&out[1..8]);
    out[8..10].copy_from_slice(&sum.to_be_bytes());
    out[10] = 0xFD;
    Some(11)
}

/// The place of the first frame, or the input's length.
#[inline(never)]
pub fn pf_find(s: &[u8]) -> usize {
    (0..s.len())
        .find(|&i| {
            let rest = &s[i..];
            if rest.len() < 6 || rest[0] != 0xFE {
                return false;
            }
            let n = usize::from(rest[1]);
            n > 0
                && rest.len() >= n + 5
                && rest[n + 4] == 0xFD
                && crc16(&rest[1..n + 2]) == u16::from_be_bytes([rest[n + 2], rest[n + 3]])
        })
        .unwrap_or(s.len())
}
