//! PACE: replies and requests of the commands 42, 44, C1, C2, D0, D1, DA and DB (004; 01, "PACE").

use crate::checks::sum16;
use crate::fields::Fields;
use crate::line::{shown, NoCall, Words};
use crate::refusal::{answer as refusable, Refusal};

const START: u8 = b'~';
const END: u8 = b'\r';
const VERSION: u8 = 0x25;
const CID1: u8 = 0x46;

/// Start, four bytes and LENGTH and CHKSUM in characters, end.
const SMALLEST: usize = 18;

/// What stands in a frame: the address, the command or return code, and INFO as characters.
struct Frame<'a> {
    address: u8,
    code: u8,
    info: &'a [u8],
}

impl Frame<'_> {
    /// INFO as bytes, each of two characters.
    fn info_bytes(&self) -> Result<Vec<u8>, Refusal> {
        if !self.info.len().is_multiple_of(2) {
            return Err(Refusal::Shape);
        }
        Ok(self.info.chunks(2).map(|pair| value(pair) as u8).collect())
    }
}

/// The number that a character is, if it is one of 0-9 and A-F.
fn digit(character: u8) -> Option<u8> {
    b"0123456789ABCDEF".iter().position(|&known| known == character).map(|place| place as u8)
}

/// The number that some characters are. All of them are known to be digits.
fn value(characters: &[u8]) -> u16 {
    characters
        .iter()
        .map(|&character| u16::from(digit(character).unwrap_or(0)))
        .fold(0, |value, digit| value * 16 + digit)
}

/// LENGTH for so many INFO characters: the count, and above it the digit that makes the digits' sum 0 modulo 16.
fn length(count: u16) -> u16 {
    let sum = count / 256 + count / 16 % 16 + count % 16;
    (16 - sum % 16) % 16 * 4096 + count
}

/// A frame with this address, this command and this INFO.
fn frame(address: u8, code: u8, info: &[u8]) -> Vec<u8> {
    let mut summed = format!("{VERSION:02X}{address:02X}{CID1:02X}{code:02X}");
    summed += &format!("{:04X}", length(2 * info.len() as u16));
    for byte in info {
        summed += &format!("{byte:02X}");
    }
    let sum = sum16(summed.as_bytes());
    format!("~{summed}{sum:04X}\r").into_bytes()
}

/// Takes an input that is one frame apart (refusals 1, 2, 3, 13, 4, 5 and 6, but for the address).
fn unframe(input: &[u8]) -> Result<Frame<'_>, Refusal> {
    let total = input.len();
    if total < SMALLEST {
        return Err(Refusal::TooShort);
    }
    if input[0] != START {
        return Err(Refusal::FirstMark);
    }
    if input[total - 1] != END {
        return Err(Refusal::LastMark);
    }
    let characters = &input[1..total - 1];
    if characters.iter().any(|&character| digit(character).is_none()) {
        return Err(Refusal::Character);
    }
    let (summed, sum) = characters.split_at(characters.len() - 4);
    let (head, info) = summed.split_at(12);
    if info.len() > 0xFFF || value(&head[8..]) != length(info.len() as u16) {
        return Err(Refusal::Length);
    }
    if value(sum) != sum16(summed) {
        return Err(Refusal::Checksum);
    }
    let byte = |place: usize| value(&head[place..place + 2]) as u8;
    if byte(0) != VERSION || byte(4) != CID1 {
        return Err(Refusal::Address);
    }
    Ok(Frame { address: byte(2), code: byte(6), info })
}

/// Reads the reply of an address to a command into the text of the answer.
fn read(address: u8, asked: u8, input: &[u8]) -> Result<String, Refusal> {
    let frame = unframe(input)?;
    if frame.address != address {
        return Err(Refusal::Address);
    }
    if !matches!(asked, 0x42 | 0x44 | 0xC1 | 0xC2 | 0xD0 | 0xD1 | 0xDA | 0xDB) {
        return Err(Refusal::Request);
    }
    if frame.code != 0x00 {
        return Ok(format!("failure {:02X}", frame.code));
    }
    let info = frame.info_bytes()?;
    let mut fields = Fields::high_first(&info);
    let text = match asked {
        0x42 => analog(address, &mut fields)?,
        0x44 => warnings(address, &mut fields)?,
        0xC1 => format!("hardware {}", shown(fields.bytes(20)?)),
        0xC2 => match info.len() {
            40 => format!("serial {}", shown(fields.bytes(40)?)),
            _ => format!("serial {}", shown(fields.bytes(20)?)),
        },
        0xD1 => {
            let (amounts, delay) = limits(3, &mut fields)?;
            format!(
                "cell_overvoltage alarm_mv {} protect_mv {} release_mv {} delay_100ms {delay}",
                amounts[0], amounts[1], amounts[2]
            )
        }
        0xDB => {
            let (amounts, delay) = limits(2, &mut fields)?;
            fields.end()?;
            let alarm = discharge(amounts[0])?;
            let protect = discharge(amounts[1])?;
            format!("slow_discharge alarm_a {alarm} protect_a {protect} delay_100ms {delay}")
        }
        _ => "accepted".to_string(),
    };
    fields.end()?;
    Ok(text)
}

/// 004, "Get Analog Information".
fn analog(address: u8, fields: &mut Fields) -> Result<String, Refusal> {
    fields.constant(0x00)?;
    fields.constant(address)?;
    let cells = fields.count(1, 16)?;
    let mut text = format!("analog cells {cells}");
    for _ in 0..cells {
        text += &format!(" {}", fields.number(2)?);
    }
    let sensors = fields.count(0, 8)?;
    text += &format!(" temperatures {sensors}");
    for _ in 0..sensors {
        text += &format!(" {}", fields.number(2)? - 2730);
    }
    text += &format!(" current_10ma {}", fields.signed(2)?);
    text += &format!(" total_mv {}", fields.number(2)?);
    text += &format!(" remaining_10mah {}", fields.number(2)?);
    fields.constant(0x03)?;
    for name in ["full_10mah", "cycles", "design_10mah"] {
        text += &format!(" {name} {}", fields.number(2)?);
    }
    Ok(text)
}

/// 004, "Get Status".
fn warnings(address: u8, fields: &mut Fields) -> Result<String, Refusal> {
    fields.constant(0x00)?;
    fields.constant(address)?;
    let mut text = "warnings".to_string();
    for (name, least, most) in [("cells", 1, 16), ("temperatures", 0, 8)] {
        let count = fields.count(least, most)?;
        text += &format!(" {name} {count}");
        for _ in 0..count {
            text += &format!(" {}", fields.byte()?);
        }
    }
    for name in [
        "charge_current",
        "total_voltage",
        "discharge_current",
        "protection1",
        "protection2",
        "system",
        "configuration",
        "fault",
        "balance_high",
        "balance_low",
        "warning1",
        "warning2",
    ] {
        text += &format!(" {name} {}", fields.byte()?);
    }
    Ok(text)
}

/// What D0, D1, DA and DB hold: 01, so many amounts, and the delay.
fn limits(amounts: usize, fields: &mut Fields) -> Result<(Vec<i64>, u8), Refusal> {
    fields.constant(0x01)?;
    let amounts = (0..amounts).map(|_| fields.number(2)).collect::<Result<_, _>>()?;
    Ok((amounts, fields.byte()?))
}

/// A discharge limit that was read: the negated amount in two's complement.
fn discharge(read: i64) -> Result<i64, Refusal> {
    match read {
        0 => Ok(0),
        0x8000..=0xFFFF => Ok(0x10000 - read),
        _ => Err(Refusal::Value),
    }
}

/// A request. An amount is in millivolts or amperes, a delay in 100 ms.
#[derive(Clone, Debug, PartialEq, Eq)]
enum Request {
    Ask(u8),
    CellOvervoltage([i64; 3], u8),
    SlowDischarge([i64; 2], u8),
}

impl Request {
    /// Whether its values may be written (004, the ranges beside D0 and DA).
    fn in_range(&self) -> bool {
        match self {
            Request::Ask(_) => true,
            Request::CellOvervoltage(amounts, delay) => {
                amounts.iter().all(|amount| (2500..=4500).contains(amount) && amount % 10 == 0)
                    && (10..=50).contains(delay)
                    && delay % 5 == 0
            }
            Request::SlowDischarge(amounts, delay) => {
                amounts.iter().all(|amount| (1..=150).contains(amount)) && (5..=100).contains(delay) && delay % 5 == 0
            }
        }
    }
}

/// Reads a request and the address it goes to.
fn parse(input: &[u8]) -> Result<(u8, Request), Refusal> {
    let frame = unframe(input)?;
    if !matches!(frame.code, 0x42 | 0x44 | 0xC1 | 0xC2 | 0xD0 | 0xD1 | 0xDA | 0xDB) {
        return Err(Refusal::Request);
    }
    let info = frame.info_bytes()?;
    let mut fields = Fields::high_first(&info);
    let request = match frame.code {
        0xD0 => {
            let (amounts, delay) = limits(3, &mut fields)?;
            Request::CellOvervoltage([amounts[0], amounts[1], amounts[2]], delay)
        }
        0xDA => {
            let (amounts, delay) = limits(2, &mut fields)?;
            Request::SlowDischarge([amounts[0], amounts[1]], delay)
        }
        0x42 | 0x44 => {
            fields.constant(frame.address)?;
            Request::Ask(frame.code)
        }
        code => Request::Ask(code),
    };
    fields.end()?;
    if !request.in_range() {
        return Err(Refusal::Value);
    }
    Ok((frame.address, request))
}

/// Writes a request to an address into so much room.
fn write(room: usize, address: u8, request: &Request) -> Result<Vec<u8>, Refusal> {
    let (code, info) = match request {
        Request::Ask(code @ (0x42 | 0x44)) => (*code, vec![address]),
        Request::Ask(code @ (0xC1 | 0xC2 | 0xD1 | 0xDB)) => (*code, vec![]),
        Request::Ask(0xD0 | 0xDA) => return Err(Refusal::Shape),
        Request::Ask(_) => return Err(Refusal::Request),
        Request::CellOvervoltage(amounts, delay) => (0xD0, limits_info(amounts, *delay)),
        Request::SlowDischarge(amounts, delay) => (0xDA, limits_info(amounts, *delay)),
    };
    if !request.in_range() {
        return Err(Refusal::Value);
    }
    let frame = frame(address, code, &info);
    if room < frame.len() {
        return Err(Refusal::Room);
    }
    Ok(frame)
}

fn limits_info(amounts: &[i64], delay: u8) -> Vec<u8> {
    let mut info = vec![0x01];
    for amount in amounts {
        info.extend([(amount / 256) as u8, (amount % 256) as u8]);
    }
    info.push(delay);
    info
}

/// Answers a line whose first word is `pace`.
pub fn answer(line: &Words) -> Result<String, NoCall> {
    match line.at(1)? {
        b"read" => {
            line.count(5)?;
            let (address, asked, input) = (line.byte(2)?, line.byte(3)?, line.hex(4)?);
            Ok(refusable(read(address, asked, &input)))
        }
        b"parse" => {
            line.count(3)?;
            Ok(refusable(parse(&line.hex(2)?).map(shown_request)))
        }
        b"write" => {
            let choice = line.at(4)?;
            line.count(match choice {
                b"ask" => 6,
                b"cell_overvoltage" => 9,
                b"slow_discharge" => 8,
                _ => return Err(NoCall::UnknownWord),
            })?;
            let (room, address) = (line.room(2)?, line.byte(3)?);
            let amount = |place: usize| line.number(place, 0, 65_535);
            let delay = |place: usize| line.number(place, 0, 255).map(|delay| delay as u8);
            let request = match choice {
                b"ask" => Request::Ask(line.byte(5)?),
                b"cell_overvoltage" => Request::CellOvervoltage([amount(5)?, amount(6)?, amount(7)?], delay(8)?),
                _ => Request::SlowDischarge([amount(5)?, amount(6)?], delay(7)?),
            };
            let frame = write(room, address, &request);
            Ok(refusable(frame.map(|frame| format!("frame {}", shown(&frame)))))
        }
        _ => Err(NoCall::UnknownWord),
    }
}

fn shown_request((address, request): (u8, Request)) -> String {
    match request {
        Request::Ask(code) => format!("ask {address:02X} {code:02X}"),
        Request::CellOvervoltage([alarm, protect, release], delay) => {
            format!("cell_overvoltage {address:02X} {alarm} {protect} {release} {delay}")
        }
        Request::SlowDischarge([alarm, protect], delay) => {
            format!("slow_discharge {address:02X} {alarm} {protect} {delay}")
        }
    }
}

#[cfg(test)]
mod tests {
    use super::*;

    #[test]
    fn the_example_requests() {
        for (printed, address, request) in [
            ("~25014642E00201FD30\r", 1, Request::Ask(0x42)),
            ("~25014644E00201FD2E\r", 1, Request::Ask(0x44)),
            ("~250146C10000FD9A\r", 1, Request::Ask(0xC1)),
            ("~250146C20000FD99\r", 1, Request::Ask(0xC2)),
            ("~250046D10000FD9A\r", 0, Request::Ask(0xD1)),
            ("~250046DB0000FD89\r", 0, Request::Ask(0xDB)),
            ("~250046D0F010010E100E740D340AFA21\r", 0, Request::CellOvervoltage([3600, 3700, 3380], 10)),
            ("~250046DA400C010069006E0AFAF7\r", 0, Request::SlowDischarge([105, 110], 10)),
        ] {
            let printed = printed.as_bytes().to_vec();
            assert_eq!(parse(&printed), Ok((address, request.clone())));
            let room = printed.len();
            assert_eq!(write(room - 1, address, &request), Err(Refusal::Room));
            assert_eq!(write(room, address, &request), Ok(printed));
        }
    }

    #[test]
    fn the_example_replies() {
        for (address, asked, printed, expected) in [
            (
                1,
                0x42,
                "~25014600F07A0001100CC70CC80CC70CC70CC70CC50CC60CC70CC70CC60CC70CC60CC60CC70CC60CC7060B9B0B990B990B99\
                 0BB30BBCFF1FCCCD12D303286A008C2710E1E4\r",
                "analog cells 16 3271 3272 3271 3271 3271 3269 3270 3271 3271 3270 3271 3270 3270 3271 3270 3271 \
                 temperatures 6 241 239 239 239 265 274 current_10ma -225 total_mv 52429 remaining_10mah 4819 \
                 full_10mah 10346 cycles 140 design_10mah 10000",
            ),
            (
                1,
                0x44,
                "~25014600004C000110000000000000000000000000000000000600000000000000000000000E000000000000EF3A\r",
                "warnings cells 16 0 0 0 0 0 0 0 0 0 0 0 0 0 0 0 0 temperatures 6 0 0 0 0 0 0 charge_current 0 \
                 total_voltage 0 discharge_current 0 protection1 0 protection2 0 system 14 configuration 0 fault 0 \
                 balance_high 0 balance_low 0 warning1 0 warning2 0",
            ),
            (
                1,
                0xC1,
                "~25014600602850313653313030412D313831322D312E30302000F58E\r",
                "hardware 50313653313030412D313831322D312E30302000",
            ),
            (
                1,
                0xC2,
                "~25014600B05031383132313031333830333039442020202020202020202020202020202020202020202020202020EE0F\r",
                "serial 31383132313031333830333039442020202020202020202020202020202020202020202020202020",
            ),
            (
                0,
                0xD1,
                "~25004600F010010E100E740D340AFA35\r",
                "cell_overvoltage alarm_mv 3600 protect_mv 3700 release_mv 3380 delay_100ms 10",
            ),
            (0, 0xDB, "~25004600400C01FF97FF920AFAD3\r", "slow_discharge alarm_a 105 protect_a 110 delay_100ms 10"),
            (0, 0xD0, "~250046000000FDAF\r", "accepted"),
            (0, 0xDA, "~250046000000FDAF\r", "accepted"),
            (0, 0xD0, "~25004609E00204FD2B\r", "failure 09"),
        ] {
            let printed: String = printed.split(' ').collect();
            assert_eq!(read(address, asked, printed.as_bytes()).as_deref(), Ok(expected));
        }
    }

    #[test]
    fn lengths() {
        assert_eq!(length(0), 0);
        assert_eq!(length(2), 0xE002);
        assert_eq!(length(0x7A), 0xF07A);
        assert_eq!(length(0x4C), 0x004C);
        assert_eq!(length(0x28), 0x6028);
        assert_eq!(length(0x50), 0xB050);
        assert_eq!(length(0x10), 0xF010);
        assert_eq!(length(0x0C), 0x400C);
        assert_eq!(length(0xFFF), 0x3FFF);
    }

    #[test]
    fn refusals_come_in_their_order() {
        let changed = |changes: &[(usize, u8)]| {
            let mut input = b"~25014642E00201FD30\r".to_vec();
            for (place, byte) in changes {
                input[*place] = *byte;
            }
            parse(&input)
        };
        assert_eq!(changed(&[(15, b'f'), (16, b'd')]), Err(Refusal::Character));
        assert_eq!(changed(&[(19, b'\n'), (16, b'd')]), Err(Refusal::LastMark));
        assert_eq!(changed(&[(0, b'!'), (19, b'\n')]), Err(Refusal::FirstMark));
        assert_eq!(changed(&[(9, b'D'), (16, b'd')]), Err(Refusal::Character));
        assert_eq!(changed(&[(9, b'D'), (18, b'1')]), Err(Refusal::Length));
        assert_eq!(changed(&[(1, b'3'), (18, b'1')]), Err(Refusal::Checksum));
        assert_eq!(changed(&[(1, b'3'), (18, b'F'), (17, b'2')]), Err(Refusal::Address));
        assert_eq!(parse(b"~25014642E0020FD30"), Err(Refusal::LastMark));
        assert_eq!(parse(b"~25014642E0020FD3"), Err(Refusal::TooShort));
        assert_eq!(parse(&frame(1, 0x99, &[0x0D])), Err(Refusal::Request));
        assert_eq!(parse(&frame(1, 0x42, &[2])), Err(Refusal::Shape));
        let other_address = read(2, 0x99, &frame(1, 0, &[]));
        assert_eq!(other_address, Err(Refusal::Address));
        assert_eq!(read(1, 0x99, &frame(1, 9, &[])), Err(Refusal::Request));
    }

    #[test]
    fn discharge_limits() {
        assert_eq!(discharge(0xFF97), Ok(105));
        assert_eq!(discharge(0x8000), Ok(32_768));
        assert_eq!(discharge(0), Ok(0));
        assert_eq!(discharge(1), Err(Refusal::Value));
        assert_eq!(discharge(0x7FFF), Err(Refusal::Value));
    }

    #[test]
    fn an_odd_info() {
        let odd = |code: &str| {
            let summed = format!("250146{code}D003{}", "012");
            let sum = sum16(summed.as_bytes());
            format!("~{summed}{sum:04X}\r").into_bytes()
        };
        assert_eq!(read(1, 0xD0, &odd("00")), Err(Refusal::Shape));
        assert_eq!(read(1, 0xD0, &odd("09")).as_deref(), Ok("failure 09"));
        assert_eq!(parse(&odd("C1")), Err(Refusal::Shape));
        assert_eq!(parse(&odd("C3")), Err(Refusal::Request));
    }
}
