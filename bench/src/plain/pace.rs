//! PACE, the reply to 42.

/// How many numbers the analog information has in its row.
const ANALOG: usize = 32;

/// The most cells and temperatures.
const CELLS: usize = 16;
const TEMPERATURES: usize = 8;

fn digit(c: u8) -> Option<u8> {
    match c {
        b'0'..=b'9' => Some(c - b'0'),
        b'A'..=b'F' => Some(c - b'A' + 10),
        _ => None,
    }
}

/// The byte at a place of characters that are known to be digits.
fn byte(s: &[u8], at: usize) -> u8 {
    let value = |c: u8| digit(c).unwrap_or(0);
    value(s[2 * at]) << 4 | value(s[2 * at + 1])
}

fn word(s: &[u8], at: usize) -> u16 {
    u16::from_be_bytes([byte(s, at), byte(s, at + 1)])
}

/// Address, command and INFO of a frame, or the number of a refusal.
fn frame(s: &[u8]) -> Result<(u8, u8, &[u8]), u8> {
    if s.len() < 18 {
        return Err(1);
    }
    if s[0] != b'~' {
        return Err(2);
    }
    if s[s.len() - 1] != b'\r' {
        return Err(3);
    }
    let inner = &s[1..s.len() - 1];
    if !inner.iter().all(|&c| digit(c).is_some()) {
        return Err(13);
    }
    let (covered, check) = inner.split_at(inner.len() - 4);
    let length = word(covered, 4);
    let digits = (length >> 12) + (length >> 8 & 15) + (length >> 4 & 15) + (length & 15);
    if !digits.is_multiple_of(16) || usize::from(length & 0xFFF) != covered.len() - 12 {
        return Err(4);
    }
    let sum = covered.iter().fold(0u16, |sum, &c| sum.wrapping_add(u16::from(c)));
    if sum.wrapping_add(word(check, 0)) != 0 {
        return Err(5);
    }
    if byte(covered, 0) != 0x25 || byte(covered, 2) != 0x46 {
        return Err(6);
    }
    Ok((byte(covered, 1), byte(covered, 3), &covered[12..]))
}

/// The analog information that an address was asked for into a row; how many numbers there are, or the number of a refusal.
#[inline(never)]
pub fn pace_read(address: u8, asked: u8, s: &[u8], row: &mut [i32]) -> Result<usize, u8> {
    let (from, code, info) = frame(s)?;
    if from != address {
        return Err(6);
    }
    if asked != 0x42 || code != 0 {
        return Err(7);
    }
    if info.len() % 2 != 0 || info.len() < 6 || byte(info, 0) != 0 || byte(info, 1) != address {
        return Err(8);
    }
    let n = info.len() / 2;
    let c = usize::from(byte(info, 2));
    if !(1..=CELLS).contains(&c) || n < 2 * c + 4 {
        return Err(8);
    }
    let t = usize::from(byte(info, 2 * c + 3));
    let tail = 2 * c + 2 * t + 4;
    if t > TEMPERATURES || n != tail + 13 || byte(info, tail + 6) != 3 {
        return Err(8);
    }
    let row: &mut [i32; ANALOG] = row.get_mut(..ANALOG).and_then(|r| r.try_into().ok()).ok_or(11)?;
    row[0] = c as i32;
    row[1] = t as i32;
    row[2] = i32::from(word(info, tail) as i16);
    row[3] = i32::from(word(info, tail + 2));
    row[4] = i32::from(word(info, tail + 4));
    row[5] = i32::from(word(info, tail + 7));
    row[6] = i32::from(word(info, tail + 9));
    row[7] = i32::from(word(info, tail + 11));
    for i in 0..CELLS {
        row[8 + i] = if i < c { i32::from(word(info, 3 + 2 * i)) } else { 0 };
    }
    for i in 0..TEMPERATURES {
        row[24 + i] = if i < t { i32::from(word(info, 4 + 2 * c + 2 * i)) - 2730 } else { 0 };
    }
    Ok(ANALOG)
}
