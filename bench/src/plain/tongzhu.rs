//! Tongzhu: the replies to functions 11, 12, 14, 15 and 30.

/// What a reply says; how many numbers of it stand in the row.
#[derive(Debug, PartialEq)]
pub enum Reply {
    Monitor2(usize),
    Monitor3(usize),
    Status(usize),
    Current(usize),
    Done,
    NotDone,
    DeviceError,
}

/// How many numbers a monitor 3 has in its row.
const MONITOR3: usize = 80;

fn number(p: &[u8], at: usize) -> u16 {
    u16::from_le_bytes([p[at], p[at + 1]])
}

/// The function and the payload of a frame, or the number of a refusal.
fn frame(s: &[u8]) -> Result<(u8, &[u8]), u8> {
    if s.len() < 6 {
        return Err(1);
    }
    if s[0] != 0x7F {
        return Err(2);
    }
    if s.len() != usize::from(s[3]) {
        return Err(4);
    }
    if s.iter().fold(0u8, |sum, &b| sum.wrapping_add(b)) != 0 {
        return Err(5);
    }
    if s[1] != 0x10 || s[2] != 0x02 {
        return Err(6);
    }
    Ok((s[4], &s[5..s.len() - 1]))
}

/// The reply to a function into a row, or the number of a refusal.
#[inline(never)]
pub fn tz_read(asked: u8, s: &[u8], row: &mut [i32]) -> Result<Reply, u8> {
    let (function, p) = frame(s)?;
    if !matches!(asked, 0x11 | 0x12 | 0x14 | 0x15 | 0x30) {
        return Err(7);
    }
    if function == 0 {
        return if p.is_empty() { Ok(Reply::DeviceError) } else { Err(8) };
    }
    if function != asked {
        return Err(7);
    }
    match (asked, p.len()) {
        (0x11, 21) => monitor2(p, row),
        (0x12, _) => monitor3(p, row),
        (0x14, 4) => {
            fill(row.get_mut(..4).ok_or(11)?, p.iter().map(|&b| i32::from(b)));
            Ok(Reply::Status(4))
        }
        (0x15, 2) => {
            *row.first_mut().ok_or(11)? = i32::from(number(p, 0) as i16);
            Ok(Reply::Current(1))
        }
        (0x30, 1) => match p[0] {
            1 => Ok(Reply::Done),
            2 => Ok(Reply::NotDone),
            _ => Err(9),
        },
        _ => Err(8),
    }
}

fn monitor2(p: &[u8], row: &mut [i32]) -> Result<Reply, u8> {
    let row = row.get_mut(..14).ok_or(11)?;
    for i in 0..4 {
        row[i] = i32::from(p[i]);
    }
    row[4] = i32::from(number(p, 4) as i16);
    for i in 0..3 {
        row[5 + i] = i32::from(number(p, 6 + 2 * i));
        row[10 + i] = i32::from(number(p, 14 + 2 * i));
    }
    row[8] = i32::from(p[12] as i8);
    row[9] = i32::from(p[13] as i8);
    row[13] = i32::from(p[20]);
    Ok(Reply::Monitor2(14))
}

fn monitor3(p: &[u8], row: &mut [i32]) -> Result<Reply, u8> {
    let at = |i: usize| p.get(i).map_or(0, |&b| usize::from(b));
    let c = at(6);
    let b = c.div_ceil(8);
    let t = at(7 + 2 * c + b);
    let m = at(8 + 2 * c + b + t);
    if !(1..=32).contains(&c) || t > 16 || m > 16 || p.len() != 16 + 2 * c + b + t + m {
        return Err(8);
    }
    let row = row.get_mut(..MONITOR3).ok_or(11)?;
    let (flags, sensors, mosfets) = (7 + 2 * c, 8 + 2 * c + b, 9 + 2 * c + b + t);
    let tail = mosfets + m;
    for i in 0..4 {
        row[i] = i32::from(p[i]);
    }
    row[4] = i32::from(number(p, 4) as i16);
    row[5] = c as i32;
    row[6] = t as i32;
    row[7] = m as i32;
    for i in 0..3 {
        row[8 + i] = i32::from(number(p, tail + 2 * i));
    }
    row[11] = i32::from(p[tail + 6]);
    let cells = p[7..flags].chunks_exact(2);
    fill(&mut row[12..44], cells.map(|v| i32::from(u16::from_le_bytes([v[0], v[1]]))));
    fill(&mut row[44..48], p[flags..flags + b].iter().map(|&v| i32::from(v)));
    fill(&mut row[48..64], p[sensors..sensors + t].iter().map(|&v| i32::from(v as i8)));
    fill(&mut row[64..80], p[mosfets..tail].iter().map(|&v| i32::from(v as i8)));
    Ok(Reply::Monitor3(MONITOR3))
}

/// Values at the front of their places in the row, 0 past them.
fn fill(places: &mut [i32], values: impl ExactSizeIterator<Item = i32>) {
    let (front, rest) = places.split_at_mut(values.len());
    for (place, value) in front.iter_mut().zip(values) {
        *place = value;
    }
    rest.fill(0);
}
