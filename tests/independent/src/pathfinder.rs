//! Pathfinder: replies, rows, requests and the frame search (000; 01, "Pathfinder").

use crate::checks::crc;
use crate::line::{shown, NoCall, Words};
use crate::refusal::{answer as refusable, Refusal};

const START: u8 = 0xFE;
const END: u8 = 0xFD;

/// The request that writes a register.
pub const WRITE: u8 = 0x0E;

/// Start, length, opcode, two bytes of checksum, end.
const SMALLEST: usize = 6;

/// A frame with this opcode and this data.
pub fn frame(opcode: u8, data: &[u8]) -> Vec<u8> {
    let mut checked = vec![data.len() as u8 + 1, opcode];
    checked.extend_from_slice(data);
    let mut frame = vec![START];
    frame.extend_from_slice(&checked);
    frame.extend_from_slice(&crc(&checked).to_be_bytes());
    frame.push(END);
    frame
}

/// The opcode and the data of an input that is one frame (refusals 1, 2, 4, 3, 5).
fn unframe(input: &[u8]) -> Result<(u8, &[u8]), Refusal> {
    let total = input.len();
    if total < SMALLEST {
        return Err(Refusal::TooShort);
    }
    if input[0] != START {
        return Err(Refusal::FirstMark);
    }
    if usize::from(input[1]) + 5 != total {
        return Err(Refusal::Length);
    }
    if input[total - 1] != END {
        return Err(Refusal::LastMark);
    }
    let (checked, rest) = input[1..].split_at(total - 4);
    if crc(checked).to_be_bytes() != rest[..2] {
        return Err(Refusal::Checksum);
    }
    Ok((checked[1], &checked[2..]))
}

/// What a reply holds.
#[derive(Debug, PartialEq, Eq)]
pub enum Reply {
    Words(Vec<i32>),
    Name(Vec<u8>),
    Written,
    Failure(u8),
}

/// Whether an opcode reports a failure (000, "List of Failure Response Opcodes").
fn is_failure(opcode: u8) -> bool {
    [0x20, 0x21, 0x22, 0x23, 0x24, 0x26, 0x27, 0x2D].contains(&opcode)
}

/// Reads the reply to a request, with room for so many words or name bytes.
pub fn read(asked: u8, room: usize, input: &[u8]) -> Result<Reply, Refusal> {
    let (opcode, data) = unframe(input)?;
    if !matches!(asked, 0x01..=0x05 | WRITE) {
        return Err(Refusal::Request);
    }
    if is_failure(opcode) {
        return match data {
            [] => Ok(Reply::Failure(opcode)),
            _ => Err(Refusal::Shape),
        };
    }
    if opcode != asked {
        return Err(Refusal::Request);
    }
    match asked {
        0x05 if data.len() > room => Err(Refusal::Room),
        0x05 => Ok(Reply::Name(data.to_vec())),
        WRITE if !data.is_empty() => Err(Refusal::Shape),
        WRITE => Ok(Reply::Written),
        _ => words(data, rows(asked).len(), room).map(Reply::Words),
    }
}

fn words(data: &[u8], count: usize, room: usize) -> Result<Vec<i32>, Refusal> {
    if data.len() != 4 * count {
        return Err(Refusal::Shape);
    }
    if room < count {
        return Err(Refusal::Room);
    }
    Ok(data.chunks(4).map(word).collect())
}

/// Four bytes, the low one first, as a signed number.
fn word(bytes: &[u8]) -> i32 {
    let size = bytes.iter().rev().fold(0, |size: i64, &byte| size * 256 + i64::from(byte));
    (if size < 1 << 31 { size } else { size - (1 << 32) }) as i32
}

/// The types of 000, "Data Type Abbreviations", and three of them with a meaning of their own: a voltage counted in
/// 10 mV, which is an I16; a bitfield of errors, which is a U32 and never missing; and a count of events, which is a
/// U16 that stops at its end and is never missing (02, request 1).
#[derive(Clone, Copy, Debug, PartialEq, Eq)]
pub enum Type {
    U8,
    I8,
    U16,
    I16,
    U32,
    I32,
    Bool,
    TenMillivolts,
    Errors,
    Events,
}

impl Type {
    /// How many bits it has and whether it is signed. A bool is 0 or 1 (02, request 2).
    fn shape(self) -> (u32, bool) {
        match self {
            Type::Bool => (1, false),
            Type::U8 => (8, false),
            Type::I8 => (8, true),
            Type::U16 | Type::Events => (16, false),
            Type::I16 | Type::TenMillivolts => (16, true),
            Type::U32 | Type::Errors => (32, false),
            Type::I32 => (32, true),
        }
    }

    fn least(self) -> i64 {
        match self.shape() {
            (bits, true) => -(1 << (bits - 1)),
            _ => 0,
        }
    }

    fn most(self) -> i64 {
        match self.shape() {
            (bits, true) => (1 << (bits - 1)) - 1,
            (bits, false) => (1 << bits) - 1,
        }
    }

    /// The number that a whole word is in this type: unsigned in a U32 (docs/CONSOLE.md), else as it came.
    fn whole(self, word: i64) -> i64 {
        match self {
            Type::U32 => self.narrowed(word),
            _ => word,
        }
    }

    /// The number that the low bits of a word are in this type.
    fn narrowed(self, word: i64) -> i64 {
        let (bits, _) = self.shape();
        let low = word.rem_euclid(1 << bits);
        if low > self.most() {
            low - (1 << bits)
        } else {
            low
        }
    }

    /// Whether a number of this type means "no data" where such a meaning is known (000, note 2; 01).
    fn is_no_data(self, number: i64) -> bool {
        match self {
            Type::Bool | Type::Errors | Type::Events => false,
            _ => number == self.most() || (self.shape().1 && number == self.least()),
        }
    }
}

/// The types of a reply's rows (000, "0x01 Request MFG Data" to "0x04 Request Cell Voltages"). 000 gives none for
/// reply 04; its rows are taken as they come.
#[rustfmt::skip]
fn rows(reply: u8) -> &'static [Type] {
    use Type::*;
    match reply {
        0x01 => &[I32; 3],
        0x02 => &[
            I16, U8, U8, I8, I8, U8, I8, I8, U8, I8, // 0 to 9
            I8, U8, I8, I8, U8, U8, U8, U16, U8, U8, // 10 to 19
            U16, I32, U8, I32, U8, U8, U32, U8, U8, U8, // 20 to 29
            U8, I32, I32, U8, I32, U8, I32, U8, I16, U8, // 30 to 39
            I16, U8, U32, Bool, Bool, Bool, Bool, U32, U8, U32, // 40 to 49
        ],
        0x03 => &[
            TenMillivolts, I32, U32, U32, U32, U16, Errors, Errors, I32, I32, // 0 to 9
            U8, U8, U8, U8, U8, U8, I32, U8, U8, U8, // 10 to 19
            U8, I32, I32, I32, I32, U16, I32, I32, I32, I32, // 20 to 29
            I32, I32, Events, Events, Events, Events, Events, Events, Events, Events, // 30 to 39
            Events, Events, Events, Events, Events, Events, U8, U16, U16, U8, // 40 to 49
            U32, U32, TenMillivolts, // 50 to 52
        ],
        0x04 => &[I32; 16],
        _ => &[],
    }
}

/// A word of a reply as its row means it.
fn row(reply: u8, row: usize, word: i64) -> Result<String, Refusal> {
    let rows = rows(reply);
    if rows.is_empty() {
        return Err(Refusal::Request);
    }
    let kind = *rows.get(row).ok_or(Refusal::Shape)?;
    let number = kind.narrowed(word);
    Ok(match kind {
        Type::Bool => format!("truth {}", u8::from(word != 0)),
        _ if reply == 0x03 && kind.is_no_data(number) => "missing".to_string(),
        Type::TenMillivolts => format!("ten_millivolts {number}"),
        _ => format!("number {number}"),
    })
}

/// The registers that may be written, each with its number, its type, its least and its greatest value (000, "Target
/// register definitions"). 47 is reserved there.
pub const REGISTERS: [(usize, Type, i64, i64); 51] = [
    (0, Type::I16, 0, 5000),          // Balancer Start Voltage
    (1, Type::U8, 0, 255),            // Delta to Balance
    (2, Type::U8, 0, 16),             // Max Cells to Balance
    (3, Type::I8, -40, 120),          // Charge Overtemp Threshold
    (4, Type::I8, -40, 120),          // Charge Overtemp Recovery
    (5, Type::U8, 0, 255),            // Charge Overtemp Delay
    (6, Type::I8, -40, 120),          // Charge Undertemp Threshold
    (7, Type::I8, -40, 120),          // Charge Undertemp Recovery
    (8, Type::U8, 0, 255),            // Charge Undertemp Delay
    (9, Type::I8, -40, 120),          // Discharge Overtemp Threshold
    (10, Type::I8, -40, 120),         // Discharge Overtemp Recovery
    (11, Type::U8, 0, 255),           // Discharge Overtemp Delay
    (12, Type::I8, -40, 120),         // Discharge Undertemp Threshold
    (13, Type::I8, -40, 120),         // Discharge Undertemp Recovery
    (14, Type::U8, 0, 255),           // Discharge Undertemp Delay
    (15, Type::U8, 20, 110),          // Cell Overvoltage Threshold
    (16, Type::U8, 2, 20),            // Cell Overvoltage Recovery Hysteresis
    (17, Type::U16, 1, 2047),         // Cell Overvoltage Delay
    (18, Type::U8, 20, 90),           // Cell Undervoltage Threshold
    (19, Type::U8, 2, 20),            // Cell Undervoltage Recovery Hysteresis
    (20, Type::U16, 1, 2047),         // Cell Undervoltage Delay
    (21, Type::U8, 2, 62),            // Charge Overcurrent Threshold
    (22, Type::U8, 1, 127),           // Charge Overcurrent Delay
    (23, Type::I16, -32_768, 0),      // Discharge Overcurrent Threshold
    (24, Type::U8, 0, 255),           // Discharge Overcurrent Delay
    (25, Type::U8, 1, 255),           // Fault Recovery Time (shared)
    (26, Type::U8, 2, 100),           // L2 Discharge Overcurrent Threshold
    (27, Type::U8, 1, 127),           // L2 Discharge Overcurrent Delay
    (28, Type::U8, 0, 150),           // L2 FET Overtemp Threshold
    (29, Type::U8, 0, 150),           // L2 FET Overtemp Recovery
    (30, Type::U8, 0, 255),           // L2 FET Overtemp Delay
    (31, Type::U8, 0, 15),            // L3 Short Circuit Threshold
    (32, Type::U8, 1, 31),            // L3 Short Circuit Delay
    (33, Type::U8, 0, 255),           // L3 Short Circuit Recovery
    (34, Type::I16, -32_768, 32_767), // PF Charge Overcurrent
    (35, Type::U8, 0, 255),           // PF Charge Overcurrent Delay
    (36, Type::I16, -32_768, 32_767), // PF Discharge Overcurrent
    (37, Type::U8, 0, 255),           // PF Discharge Overcurrent Delay
    (38, Type::I16, 0, 32_767),       // PF Cell Overvoltage Threshold
    (39, Type::U8, 0, 255),           // PF Cell Overvoltage Delay
    (40, Type::I16, 0, 32_767),       // PF Cell Undervoltage Threshold
    (41, Type::U8, 0, 255),           // PF Cell Undervoltage Delay
    (42, Type::U32, 0, 0xFFFF_FFFF),  // Design Capacity
    (43, Type::U8, 0, 1),             // NTC1 Active
    (44, Type::U8, 0, 1),             // NTC2 Active
    (45, Type::U8, 0, 1),             // NTC3 Active
    (46, Type::U8, 0, 1),             // NTC4 Active
    (48, Type::U8, 0, 0x03),          // FET Command (bitfield)
    (49, Type::U32, 200, 10_000),     // Pre-discharge Timeout
    (50, Type::U8, 10, 90),           // Pre-discharge Percent
    (51, Type::U32, 10_000, 600_000), // Pre-discharge Retry time
];

/// Whether a value may be written to a register (refusals 10, 9).
pub fn writable(register: usize, value: i64) -> Result<(), Refusal> {
    let row = REGISTERS.iter().find(|row| row.0 == register);
    let &(_, kind, least, most) = row.ok_or(Refusal::Register)?;
    if (least..=most).contains(&kind.whole(value)) {
        Ok(())
    } else {
        Err(Refusal::Value)
    }
}

/// The least and the greatest number of the type of a setting, 0 to 49.
pub fn limits_of_setting(setting: usize) -> (i64, i64) {
    let kind = rows(0x02)[setting];
    (kind.least(), kind.most())
}

/// Whether a word is one of the type of a setting, 0 to 49.
pub fn fits_setting(setting: usize, word: i64) -> bool {
    let (least, most) = limits_of_setting(setting);
    (least..=most).contains(&rows(0x02)[setting].whole(word))
}

/// A request.
#[derive(Clone, Copy, Debug, PartialEq, Eq)]
pub enum Request {
    Ask(u8),
    Set(usize, i64),
}

/// Reads a request.
pub fn parse(input: &[u8]) -> Result<Request, Refusal> {
    match unframe(input)? {
        (opcode @ 0x01..=0x05, []) => Ok(Request::Ask(opcode)),
        (WRITE, [register, value @ ..]) if value.len() == 4 => {
            let (register, value) = (usize::from(*register), i64::from(word(value)));
            writable(register, value)?;
            Ok(Request::Set(register, value))
        }
        (0x01..=0x05 | WRITE, _) => Err(Refusal::Shape),
        _ => Err(Refusal::Request),
    }
}

/// Writes a request into so much room.
pub fn write(room: usize, request: Request) -> Result<Vec<u8>, Refusal> {
    let frame = match request {
        Request::Ask(opcode @ 0x01..=0x05) => frame(opcode, &[]),
        Request::Ask(WRITE) => return Err(Refusal::Shape),
        Request::Ask(_) => return Err(Refusal::Request),
        Request::Set(register, value) => {
            writable(register, value)?;
            let mut data = vec![register as u8];
            data.extend_from_slice(&(value as i32).to_le_bytes());
            frame(WRITE, &data)
        }
    };
    if room < frame.len() {
        return Err(Refusal::Room);
    }
    Ok(frame)
}

/// The smallest place at which a frame lies wholly in the input, and the frame's length.
fn find(input: &[u8]) -> Option<(usize, usize)> {
    (0..input.len()).find_map(|place| {
        let rest = &input[place..];
        let length = usize::from(*rest.get(1)?) + 5;
        unframe(rest.get(..length)?).ok()?;
        Some((place, length))
    })
}

/// Answers a line whose first word is `pf`.
pub fn answer(line: &Words) -> Result<String, NoCall> {
    match line.at(1)? {
        b"read" => {
            line.count(5)?;
            let (asked, room, input) = (line.byte(2)?, line.room(3)?, line.hex(4)?);
            Ok(refusable(read(asked, room, &input).map(shown_reply)))
        }
        b"row" => {
            line.count(5)?;
            let reply = line.byte(2)?;
            let place = line.number(3, 0, 255)? as usize;
            let word = line.number(4, i32::MIN.into(), i32::MAX.into())?;
            Ok(refusable(row(reply, place, word)))
        }
        b"millivolts" => {
            line.count(3)?;
            let count = line.number(2, i16::MIN.into(), i16::MAX.into())?;
            Ok(format!("ok millivolts {}", count * 10))
        }
        b"parse" => {
            line.count(3)?;
            Ok(refusable(parse(&line.hex(2)?).map(shown_request)))
        }
        b"write" => {
            let asks = match line.at(3)? {
                b"ask" => true,
                b"set" => false,
                _ => return Err(NoCall::UnknownWord),
            };
            line.count(if asks { 5 } else { 6 })?;
            let room = line.room(2)?;
            let request = if asks {
                Request::Ask(line.byte(4)?)
            } else {
                let register = line.number(4, 0, 255)? as usize;
                Request::Set(register, line.number(5, i32::MIN.into(), i32::MAX.into())?)
            };
            Ok(refusable(write(room, request).map(shown_frame)))
        }
        b"find" => {
            line.count(3)?;
            Ok(match find(&line.hex(2)?) {
                Some((place, length)) => format!("ok at {place} {length}"),
                None => "ok none".to_string(),
            })
        }
        _ => Err(NoCall::UnknownWord),
    }
}

fn shown_reply(reply: Reply) -> String {
    match reply {
        Reply::Words(words) => words.iter().fold("words".to_string(), |text, word| format!("{text} {word}")),
        Reply::Name(name) => format!("name {}", shown(&name)),
        Reply::Written => "written".to_string(),
        Reply::Failure(code) => format!("failure {code:02X}"),
    }
}

fn shown_request(request: Request) -> String {
    match request {
        Request::Ask(opcode) => format!("ask {opcode:02X}"),
        Request::Set(register, value) => format!("write {register} {value}"),
    }
}

fn shown_frame(frame: Vec<u8>) -> String {
    format!("frame {}", shown(&frame))
}

#[cfg(test)]
mod tests {
    use super::*;
    use crate::examples;

    #[test]
    fn the_example_replies_close_with_the_printed_checksums() {
        for (opcode, words, printed) in [
            (0x01, &examples::MAKER[..], [0x52, 0xCB]),
            (0x02, &examples::SETTINGS, [0x62, 0x53]),
            (0x03, &examples::LIVE, [0xE0, 0xF3]),
        ] {
            let frame = frame(opcode, &examples::bytes(words));
            assert_eq!(frame[frame.len() - 3..frame.len() - 1], printed);
            let count = words.len();
            assert_eq!(read(opcode, count, &frame), Ok(Reply::Words(words.to_vec())));
            assert_eq!(read(opcode, count - 1, &frame), Err(Refusal::Room));
        }
        let name = frame(0x05, b"PATHFINDER BMS");
        assert_eq!(name[17..], [0x7A, 0x5E, 0xFD]);
        assert_eq!(read(0x05, 14, &name), Ok(Reply::Name(b"PATHFINDER BMS".to_vec())));
        assert_eq!(read(0x05, 13, &name), Err(Refusal::Room));
    }

    #[test]
    fn the_example_requests() {
        let ask_name = [0xFE, 0x01, 0x05, 0x63, 0x94, 0xFD];
        assert_eq!(parse(&ask_name), Ok(Request::Ask(5)));
        assert_eq!(write(6, Request::Ask(5)), Ok(ask_name.to_vec()));
        let set = [0xFE, 0x06, 0x0E, 0x03, 0x38, 0, 0, 0, 0x66, 0x7E, 0xFD];
        assert_eq!(parse(&set), Ok(Request::Set(3, 56)));
        assert_eq!(write(11, Request::Set(3, 56)), Ok(set.to_vec()));
        let done = [0xFE, 0x01, 0x0E, 0xD2, 0xFF, 0xFD];
        assert_eq!(read(WRITE, 0, &done), Ok(Reply::Written));
    }

    #[test]
    fn refusals_of_writes() {
        assert_eq!(write(8192, Request::Set(3, 128)), Err(Refusal::Value));
        assert_eq!(write(0, Request::Set(47, i32::MAX.into())), Err(Refusal::Register));
        assert_eq!(write(10, Request::Set(3, 120)), Err(Refusal::Room));
        assert_eq!(write(0, Request::Ask(0x0E)), Err(Refusal::Shape));
        assert_eq!(write(0, Request::Ask(0x06)), Err(Refusal::Request));
        assert_eq!(write(5, Request::Ask(0x01)), Err(Refusal::Room));
    }

    /// 000, "Target register definitions", read once more: the registers of each range.
    #[test]
    fn every_register_takes_its_range_and_nothing_beyond() {
        let ranges = [
            (0, 5000, &[0][..]),
            (0, 255, &[1, 5, 8, 11, 14, 24, 30, 33, 35, 37, 39, 41]),
            (0, 16, &[2]),
            (-40, 120, &[3, 4, 6, 7, 9, 10, 12, 13]),
            (20, 110, &[15]),
            (2, 20, &[16, 19]),
            (1, 2047, &[17, 20]),
            (20, 90, &[18]),
            (2, 62, &[21]),
            (1, 127, &[22, 27]),
            (-32_768, 0, &[23]),
            (1, 255, &[25]),
            (2, 100, &[26]),
            (0, 150, &[28, 29]),
            (0, 15, &[31]),
            (1, 31, &[32]),
            (-32_768, 32_767, &[34, 36]),
            (0, 32_767, &[38, 40]),
            (0, 1, &[43, 44, 45, 46]),
            (0, 3, &[48]),
            (200, 10_000, &[49]),
            (10, 90, &[50]),
            (10_000, 600_000, &[51]),
        ];
        let mut known = vec![42];
        for (least, most, registers) in ranges {
            for &register in registers {
                known.push(register);
                for value in [least, most] {
                    assert_eq!(writable(register, value), Ok(()), "{value} to register {register}");
                }
                for value in [least - 1, most + 1, i32::MIN.into(), i32::MAX.into()] {
                    assert_eq!(writable(register, value), Err(Refusal::Value), "{value} to register {register}");
                }
            }
        }
        known.sort();
        assert!(known.into_iter().eq((0..=46).chain(48..=51)));
        for register in [47].into_iter().chain(52..=255) {
            assert_eq!(writable(register, 0), Err(Refusal::Register), "register {register}");
        }
    }

    #[test]
    fn a_range_lies_within_its_type_and_that_of_its_setting() {
        for (register, kind, least, most) in REGISTERS {
            assert!(kind.least() <= least && least < most && most <= kind.most(), "register {register}");
            if register <= 46 {
                let setting = rows(0x02)[register];
                assert!(setting.least() <= least && most <= setting.most(), "setting {register}");
                let others = [21, 23, 26, 31, 32, 34, 36, 43, 44, 45, 46];
                assert_eq!(kind != setting, others.contains(&register), "setting {register}");
            }
        }
    }

    #[test]
    fn a_u32_is_tested_unsigned() {
        let ends = [0, 1, i32::MAX.into(), i32::MIN.into(), -1];
        for value in ends {
            assert_eq!(writable(42, value), Ok(()), "{value}");
            let setting = Request::Set(42, value);
            assert_eq!(parse(&write(11, setting).unwrap()), Ok(setting));
            for (register, within) in [(49, 200), (51, 10_000)] {
                assert_eq!(writable(register, value), Err(Refusal::Value), "{value} to register {register}");
                assert_eq!(writable(register, within - (1 << 32)), Ok(()), "the same bits");
            }
        }
        let all_ones = |register| frame(WRITE, &[register, 0xFF, 0xFF, 0xFF, 0xFF]);
        assert_eq!(parse(&all_ones(42)), Ok(Request::Set(42, -1)));
        assert_eq!(parse(&all_ones(49)), Err(Refusal::Value));
        assert_eq!(parse(&all_ones(47)), Err(Refusal::Register));
    }

    /// 000, "Data definitions for 0x02 Request All Settings".
    #[test]
    fn a_setting_fits_its_type() {
        let words = i64::from(i32::MIN)..=i32::MAX.into();
        for setting in 0..50 {
            let (least, most) = match setting {
                0 | 38 | 40 => (-32_768, 32_767),
                3 | 4 | 6 | 7 | 9 | 10 | 12 | 13 => (-128, 127),
                17 | 20 => (0, 65_535),
                21 | 23 | 31 | 32 | 34 | 36 | 26 | 42 | 47 | 49 => (*words.start(), *words.end()),
                43..=46 => (0, 1),
                _ => (0, 255),
            };
            for word in [least, most, least - 1, most + 1, -1, 2].into_iter().filter(|word| words.contains(word)) {
                let within = (least..=most).contains(&word);
                assert_eq!(fits_setting(setting, word), within, "{word} in setting {setting}");
            }
        }
    }

    #[test]
    fn rows_of_the_examples() {
        for (place, word) in examples::SETTINGS.iter().enumerate() {
            let expected = match place {
                43..=46 => "truth 1".to_string(),
                _ => format!("number {word}"),
            };
            assert_eq!(row(0x02, place, (*word).into()), Ok(expected));
        }
        for (place, word) in examples::LIVE.iter().enumerate() {
            let expected = match place {
                0 | 52 => format!("ten_millivolts {word}"),
                25 | 28 | 30 | 47 | 48 => "missing".to_string(),
                _ => format!("number {word}"),
            };
            assert_eq!(row(0x03, place, (*word).into()), Ok(expected));
        }
    }

    #[test]
    fn rows_narrow_and_miss() {
        for (reply, place, word, expected) in [
            (0x02, 12, -20, "number -20"),
            (0x02, 12, 236, "number -20"),
            (0x02, 1, -1, "number 255"),
            (0x02, 26, -1, "number 4294967295"),
            (0x02, 43, 256, "truth 1"),
            (0x02, 43, 0, "truth 0"),
            (0x03, 5, 0x1FFFF, "missing"),
            (0x03, 5, 0x10000, "number 0"),
            (0x03, 1, -1, "number -1"),
            (0x03, 1, i32::MAX.into(), "missing"),
            (0x03, 2, -1, "missing"),
            (0x03, 2, i32::MIN.into(), "number 2147483648"),
            (0x03, 6, -1, "number 4294967295"),
            (0x03, 7, -1, "number 4294967295"),
            (0x03, 0, 0x8000, "missing"),
            (0x03, 0, 0x7FFF, "missing"),
            (0x03, 52, -0x8001, "missing"),
            (0x03, 10, 255, "missing"),
            (0x03, 10, 0, "number 0"),
            (0x04, 15, i32::MIN.into(), "number -2147483648"),
            (0x01, 0, i32::MAX.into(), "number 2147483647"),
        ] {
            assert_eq!(row(reply, place, word), Ok(expected.to_string()));
        }
        assert_eq!(row(0x05, 0, 0), Err(Refusal::Request));
        assert_eq!(row(0x00, 255, 0), Err(Refusal::Request));
        assert_eq!(row(0x01, 3, 0), Err(Refusal::Shape));
        assert_eq!(row(0x02, 50, 0), Err(Refusal::Shape));
        assert_eq!(row(0x03, 53, 0), Err(Refusal::Shape));
        assert_eq!(row(0x04, 16, 0), Err(Refusal::Shape));
    }

    /// 02, request 1: all alarm counts (32 to 44) and the reset count (45); the time rows (47, 48) keep theirs.
    #[test]
    fn counts_are_never_missing() {
        for place in 32..=45 {
            for (word, number) in [(0xFFFF, 65_535), (0, 0), (1, 1), (-1, 65_535), (0x1FFFF, 65_535), (0x10000, 0)] {
                assert_eq!(row(0x03, place, word), Ok(format!("number {number}")), "row {place}");
            }
        }
        for (place, word) in
            [(31, i32::MAX.into()), (31, i32::MIN.into()), (46, 0xFF), (47, 0xFFFF), (48, 0xFFFF), (48, -1)]
        {
            assert_eq!(row(0x03, place, word), Ok("missing".to_string()), "row {place}");
        }
        for (place, word) in [(31, 0xFFFF), (46, 0), (46, 1), (47, 0), (47, 1), (48, 0), (48, 1)] {
            assert_eq!(row(0x03, place, word), Ok(format!("number {word}")), "row {place}");
        }
    }

    #[test]
    fn refusals_of_replies_come_in_their_order() {
        let mut input = frame(0x01, &[0; 12]);
        let last = input.len() - 1;
        assert_eq!(read(0x02, 0, &input), Err(Refusal::Request));
        input[last - 1] ^= 1;
        assert_eq!(read(0x02, 0, &input), Err(Refusal::Checksum));
        input[last] = 0xFE;
        assert_eq!(read(0x02, 0, &input), Err(Refusal::LastMark));
        input[1] = 0;
        assert_eq!(read(0x02, 0, &input), Err(Refusal::Length));
        input[0] = 0xFD;
        assert_eq!(read(0x02, 0, &input), Err(Refusal::FirstMark));
        assert_eq!(read(0x02, 0, &input[..5]), Err(Refusal::TooShort));
        assert_eq!(read(0x02, 0, &[0xFE, 0, 0, 0, 0xFD]), Err(Refusal::TooShort));
    }

    #[test]
    fn failures() {
        for code in 0..=255 {
            let plain = read(0x02, 0, &frame(code, &[]));
            let more = read(0x02, 0, &frame(code, &[0]));
            match code {
                0x02 => {
                    assert_eq!(plain, Err(Refusal::Shape));
                    assert_eq!(more, Err(Refusal::Shape));
                }
                0x20..=0x24 | 0x26 | 0x27 | 0x2D => {
                    assert_eq!(plain, Ok(Reply::Failure(code)));
                    assert_eq!(more, Err(Refusal::Shape));
                    assert_eq!(read(0x06, 0, &frame(code, &[])), Err(Refusal::Request));
                }
                _ => {
                    assert_eq!(plain, Err(Refusal::Request));
                    assert_eq!(more, Err(Refusal::Request));
                }
            }
        }
    }

    #[test]
    fn the_search_goes_on_behind_a_start_mark() {
        let mut log = b"boot \xFE\xFE\x00\x00\x00\xFD ok ".to_vec();
        let place = log.len();
        assert_eq!(find(&log), None);
        log.extend(frame(0x05, b"x"));
        log.extend(frame(0x05, b""));
        assert_eq!(find(&log), Some((place, 7)));
        assert_eq!(find(&log[..place + 6]), None);
        assert_eq!(find(&log[place + 1..]), Some((6, 6)));
        assert_eq!(find(&[]), None);
        assert_eq!(find(&[0xFE]), None);
    }
}
