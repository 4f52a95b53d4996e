//! Tongzhu: replies and requests of the functions 11, 12, 14, 15 and 30 (002; 01, "Tongzhu").

use crate::checks::sum8;
use crate::fields::Fields;
use crate::line::{shown, NoCall, Words};
use crate::refusal::{answer as refusable, Refusal};

/// Start mark, address and version (002, 4).
const HEAD: [u8; 3] = [0x7F, 0x10, 0x02];

/// Head, length, function, check.
const SMALLEST: usize = 6;

/// The function that sets the time.
const SET_TIME: u8 = 0x30;

/// A frame with this function and this message.
fn frame(function: u8, message: &[u8]) -> Vec<u8> {
    let mut frame = HEAD.to_vec();
    frame.extend([(SMALLEST + message.len()) as u8, function]);
    frame.extend_from_slice(message);
    frame.push(sum8(&frame));
    frame
}

/// The function and the message of an input that is one frame (refusals 1, 2, 4, 5, 6).
fn unframe(input: &[u8]) -> Result<(u8, &[u8]), Refusal> {
    let total = input.len();
    if total < SMALLEST {
        return Err(Refusal::TooShort);
    }
    if input[0] != HEAD[0] {
        return Err(Refusal::FirstMark);
    }
    if usize::from(input[3]) != total {
        return Err(Refusal::Length);
    }
    if sum8(&input[..total - 1]) != input[total - 1] {
        return Err(Refusal::Checksum);
    }
    if input[1..3] != HEAD[1..] {
        return Err(Refusal::Address);
    }
    Ok((input[4], &input[5..total - 1]))
}

/// Reads the reply to a function into the text of the answer.
fn read(asked: u8, input: &[u8]) -> Result<String, Refusal> {
    let (function, message) = unframe(input)?;
    if !matches!(asked, 0x11 | 0x12 | 0x14 | 0x15 | SET_TIME) {
        return Err(Refusal::Request);
    }
    let mut fields = Fields::low_first(message);
    if function == 0x00 {
        fields.end()?;
        return Ok("device_error".to_string());
    }
    if function != asked {
        return Err(Refusal::Request);
    }
    let text = match asked {
        0x11 => monitor2(&mut fields)?,
        0x12 => monitor3(&mut fields)?,
        0x14 => status(&mut fields)?,
        0x15 => current(&mut fields)?,
        _ => {
            let result = fields.byte()?;
            fields.end()?;
            match result {
                0x01 => "done".to_string(),
                0x02 => "not_done".to_string(),
                _ => return Err(Refusal::Value),
            }
        }
    };
    fields.end()?;
    Ok(text)
}

/// 002, 6.2.3.
fn monitor2(fields: &mut Fields) -> Result<String, Refusal> {
    let mut text = format!("monitor2 {} {}", status(fields)?, current(fields)?);
    for name in ["highest_mv", "lowest_mv", "total_10mv"] {
        text += &format!(" {name} {}", fields.number(2)?);
    }
    for name in ["hottest_c", "coldest_c"] {
        text += &format!(" {name} {}", fields.signed(1)?);
    }
    Ok(text + &capacity(fields)?)
}

/// 002, 6.1.3.
fn monitor3(fields: &mut Fields) -> Result<String, Refusal> {
    let mut text = format!("monitor3 {} {}", status(fields)?, current(fields)?);
    let cells = fields.count(1, 32)?;
    text += &format!(" cells {cells}");
    for _ in 0..cells {
        text += &format!(" {}", fields.number(2)?);
    }
    text += " balance";
    for _ in 0..cells.div_ceil(8) {
        text += &format!(" {}", fields.byte()?);
    }
    for name in ["cell_sensors", "mos_sensors"] {
        let sensors = fields.count(0, 16)?;
        text += &format!(" {name} {sensors}");
        for _ in 0..sensors {
            text += &format!(" {}", fields.signed(1)?);
        }
    }
    Ok(text + &capacity(fields)?)
}

/// 002, 6.1.3.1.
fn status(fields: &mut Fields) -> Result<String, Refusal> {
    let mut text = "status".to_string();
    for byte in fields.bytes(4)? {
        text += &format!(" {byte}");
    }
    Ok(text)
}

/// 002, 6.1.3.2.
fn current(fields: &mut Fields) -> Result<String, Refusal> {
    Ok(format!("current_100ma {}", fields.signed(2)?))
}

/// What both monitors end with (002, 6.1.3.10 to 6.1.3.13).
fn capacity(fields: &mut Fields) -> Result<String, Refusal> {
    let mut text = String::new();
    for name in ["cycles", "remaining_100mah", "capacity_100mah"] {
        text += &format!(" {name} {}", fields.number(2)?);
    }
    Ok(text + &format!(" switch {}", fields.byte()?))
}

/// A request. The time is year from 2000, month, day, hour, minute, second.
#[derive(Clone, Copy, Debug, PartialEq, Eq)]
enum Request {
    Ask(u8),
    SetTime([u8; 6]),
}

/// Whether there is such a time in the years 2000 to 2099.
fn is_time([year, month, day, hour, minute, second]: [u8; 6]) -> bool {
    let days = match month {
        1 | 3 | 5 | 7 | 8 | 10 | 12 => 31,
        4 | 6 | 9 | 11 => 30,
        2 if year % 4 == 0 => 29,
        2 => 28,
        _ => 0,
    };
    year <= 99 && 1 <= day && day <= days && hour <= 23 && minute <= 59 && second <= 59
}

/// Reads a request.
fn parse(input: &[u8]) -> Result<Request, Refusal> {
    let (function, message) = unframe(input)?;
    match function {
        0x11 | 0x12 | 0x14 | 0x15 if message.is_empty() => Ok(Request::Ask(function)),
        SET_TIME if message.len() == 6 => {
            let mut time = [0; 6];
            for (number, code) in time.iter_mut().zip(message) {
                let (tens, ones) = (code / 16, code % 16);
                if tens > 9 || ones > 9 {
                    return Err(Refusal::Value);
                }
                *number = tens * 10 + ones;
            }
            if !is_time(time) {
                return Err(Refusal::Value);
            }
            Ok(Request::SetTime(time))
        }
        0x11 | 0x12 | 0x14 | 0x15 | SET_TIME => Err(Refusal::Shape),
        _ => Err(Refusal::Request),
    }
}

/// Writes a request into so much room.
fn write(room: usize, request: Request) -> Result<Vec<u8>, Refusal> {
    let frame = match request {
        Request::Ask(function @ (0x11 | 0x12 | 0x14 | 0x15)) => frame(function, &[]),
        Request::Ask(SET_TIME) => return Err(Refusal::Shape),
        Request::Ask(_) => return Err(Refusal::Request),
        Request::SetTime(time) if is_time(time) => frame(SET_TIME, &time.map(|number| number / 10 * 16 + number % 10)),
        Request::SetTime(_) => return Err(Refusal::Value),
    };
    if room < frame.len() {
        return Err(Refusal::Room);
    }
    Ok(frame)
}

/// Answers a line whose first word is `tz`.
pub fn answer(line: &Words) -> Result<String, NoCall> {
    match line.at(1)? {
        b"read" => {
            line.count(4)?;
            let (asked, input) = (line.byte(2)?, line.hex(3)?);
            Ok(refusable(read(asked, &input)))
        }
        b"parse" => {
            line.count(3)?;
            Ok(refusable(parse(&line.hex(2)?).map(shown_request)))
        }
        b"write" => {
            let asks = match line.at(3)? {
                b"ask" => true,
                b"set_time" => false,
                _ => return Err(NoCall::UnknownWord),
            };
            line.count(if asks { 5 } else { 10 })?;
            let room = line.room(2)?;
            let request = if asks {
                Request::Ask(line.byte(4)?)
            } else {
                let mut time = [0; 6];
                for (place, number) in time.iter_mut().enumerate() {
                    *number = line.number(4 + place, 0, 255)? as u8;
                }
                Request::SetTime(time)
            };
            let frame = write(room, request);
            Ok(refusable(frame.map(|frame| format!("frame {}", shown(&frame)))))
        }
        _ => Err(NoCall::UnknownWord),
    }
}

fn shown_request(request: Request) -> String {
    match request {
        Request::Ask(function) => format!("ask {function:02X}"),
        Request::SetTime(time) => time.iter().fold("set_time".to_string(), |text, number| format!("{text} {number}")),
    }
}

#[cfg(test)]
mod tests {
    use super::*;

    /// A whole frame as 002 prints it.
    fn printed(text: &str) -> Vec<u8> {
        text.split_whitespace().map(|byte| u8::from_str_radix(byte, 16).unwrap()).collect()
    }

    #[test]
    fn the_example_of_monitor_3() {
        let reply = printed(
            "7F 10 02 3B 12 01 00 00 00 10 00 10 A6 0D EB 0D C3 0D B9 0D C2 0D F6 0D EA 0D E5 0D 05 0E E7 0D E5 0D EC \
             0D 05 0E F4 0D E2 0D E4 0D 00 00 02 11 12 01 11 03 00 78 00 C8 00 C0 E5",
        );
        assert_eq!(
            read(0x12, &reply).unwrap(),
            "monitor3 status 1 0 0 0 current_100ma 16 cells 16 3494 3563 3523 3513 3522 3574 3562 3557 3589 3559 3557 \
             3564 3589 3572 3554 3556 balance 0 0 cell_sensors 2 17 18 mos_sensors 1 17 cycles 3 remaining_100mah 120 \
             capacity_100mah 200 switch 192"
        );
    }

    #[test]
    fn the_example_of_monitor_2() {
        let reply = printed("7F 10 02 1B 11 01 00 00 00 14 00 45 10 33 10 1D 15 1E 1E 00 00 C2 01 F4 01 C0 B0");
        assert_eq!(
            read(0x11, &reply).unwrap(),
            "monitor2 status 1 0 0 0 current_100ma 20 highest_mv 4165 lowest_mv 4147 total_10mv 5405 hottest_c 30 \
             coldest_c 30 cycles 0 remaining_100mah 450 capacity_100mah 500 switch 192"
        );
    }

    #[test]
    fn the_example_requests() {
        for (text, function) in [("7F 10 02 06 12 57", 0x12), ("7F 10 02 06 11 58", 0x11)] {
            let request = printed(text);
            assert_eq!(parse(&request), Ok(Request::Ask(function)));
            assert_eq!(write(6, Request::Ask(function)), Ok(request));
        }
        let request = printed("7F 10 02 0C 30 17 05 12 10 30 50 75");
        let time = Request::SetTime([17, 5, 12, 10, 30, 50]);
        assert_eq!(parse(&request), Ok(time));
        assert_eq!(write(12, time), Ok(request));
        assert_eq!(write(11, time), Err(Refusal::Room));
        assert_eq!(read(0x30, &printed("7F 10 02 07 30 01 37")).unwrap(), "done");
        for text in [
            "7F 10 02 06 22 47",
            "7F 10 02 0C 32 01 00 78 00 C8 00 F0",
            "7F 10 02 08 41 80 80 26",
            "7F 10 02 06 20 49",
            "7F 10 02 06 21 48",
        ] {
            assert_eq!(parse(&printed(text)), Err(Refusal::Request));
        }
    }

    #[test]
    fn leap_days() {
        assert!(is_time([24, 2, 29, 23, 59, 59]));
        assert!(is_time([0, 2, 29, 0, 0, 0]));
        assert!(!is_time([23, 2, 29, 0, 0, 0]));
        assert!(!is_time([24, 2, 30, 0, 0, 0]));
        assert!(!is_time([100, 1, 1, 0, 0, 0]));
        assert!(!is_time([24, 0, 1, 0, 0, 0]));
        assert!(!is_time([24, 1, 0, 0, 0, 0]));
        assert!(!is_time([24, 1, 1, 24, 0, 0]));
        assert!(!is_time([24, 1, 1, 0, 60, 0]));
        assert!(!is_time([24, 1, 1, 0, 0, 60]));
    }

    #[test]
    fn device_errors_and_results() {
        for asked in [0x11, 0x12, 0x14, 0x15, 0x30] {
            assert_eq!(read(asked, &frame(0, &[])).unwrap(), "device_error");
            assert_eq!(read(asked, &frame(0, &[0])), Err(Refusal::Shape));
        }
        assert_eq!(read(0x22, &frame(0, &[])), Err(Refusal::Request));
        assert_eq!(read(0x30, &frame(0x30, &[2])).unwrap(), "not_done");
        assert_eq!(read(0x30, &frame(0x30, &[0])), Err(Refusal::Value));
        assert_eq!(read(0x30, &frame(0x30, &[3, 3])), Err(Refusal::Shape));
        assert_eq!(read(0x15, &frame(0x15, &[0x00, 0x80])).unwrap(), "current_100ma -32768");
    }

    #[test]
    fn counts_have_limits() {
        for (cells, sensors, switches, right) in [
            (1_usize, 0_usize, 0_usize, true),
            (32, 16, 16, true),
            (0, 0, 0, false),
            (33, 0, 0, false),
            (8, 17, 0, false),
            (8, 0, 17, false),
        ] {
            let mut message = vec![0; 6];
            for (count, size) in [(cells, 2 * cells + cells.div_ceil(8)), (sensors, sensors), (switches, switches)] {
                message.push(count as u8);
                message.resize(message.len() + size, 7);
            }
            message.resize(message.len() + 7, 7);
            let reply = frame(0x12, &message);
            assert_eq!(read(0x12, &reply).is_ok(), right);
            message.push(0);
            assert_eq!(read(0x12, &frame(0x12, &message)), Err(Refusal::Shape));
        }
    }
}
