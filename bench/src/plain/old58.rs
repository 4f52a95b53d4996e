//! The 58-byte monitor.

/// How many numbers a record has in its row.
const RECORD: usize = 32;

fn two(s: &[u8; 58], at: usize) -> i32 {
    i32::from(u16::from_be_bytes([s[at], s[at + 1]]))
}

fn three(s: &[u8; 58], at: usize) -> i32 {
    i32::from_be_bytes([0, s[at], s[at + 1], s[at + 2]])
}

/// Whether there is such a sensor, and its current.
fn current(s: &[u8; 58], at: usize) -> (i32, i32) {
    match s[at] {
        b'+' => (1, 125 * two(s, at + 1)),
        b'-' => (1, -125 * two(s, at + 1)),
        _ => (0, 0),
    }
}

/// A record into a row; how many numbers there are, or the number of a refusal.
#[inline(never)]
pub fn old_read(s: &[u8], row: &mut [i32]) -> Result<usize, u8> {
    let s: &[u8; 58] = s.try_into().map_err(|_| if s.len() < 58 { 1 } else { 4 })?;
    if s[..57].iter().fold(0u8, |sum, &b| sum.wrapping_add(b)) != s[57] {
        return Err(5);
    }
    let known = |at: usize| matches!(s[at], b'+' | b'-' | b'X');
    if !known(3) || !known(6) || !known(9) || s[47] > 23 || s[48] > 59 {
        return Err(9);
    }
    let row: &mut [i32; RECORD] = row.get_mut(..RECORD).and_then(|r| r.try_into().ok()).ok_or(11)?;
    let byte = |at: usize| i32::from(s[at]);
    row[0] = 5 * three(s, 0);
    (row[1], row[2]) = current(s, 3);
    (row[3], row[4]) = current(s, 6);
    (row[5], row[6]) = current(s, 9);
    row[7] = 5 * two(s, 12);
    row[8] = byte(14);
    row[9] = 5 * two(s, 15);
    row[10] = byte(17);
    row[11] = two(s, 18) - 276;
    row[12] = byte(20);
    row[13] = two(s, 21) - 276;
    row[14] = byte(23);
    row[15] = byte(24);
    row[16] = byte(25);
    row[17] = 5 * two(s, 26);
    row[18] = two(s, 28) - 276;
    row[19] = byte(30);
    row[20] = three(s, 31);
    row[21] = three(s, 34);
    row[22] = three(s, 37);
    row[23] = byte(40);
    row[24] = three(s, 41);
    row[25] = three(s, 44);
    row[26] = byte(47);
    row[27] = byte(48);
    row[28] = two(s, 49);
    row[29] = two(s, 51);
    row[30] = two(s, 53);
    row[31] = two(s, 55);
    Ok(RECORD)
}
