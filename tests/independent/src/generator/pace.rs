//! PACE lines (docs/CONSOLE.md; 004; 01, "PACE"): the examples of 004, every refusal, one to three errors at once.

use super::lines::{hex, Draft};
use super::random::{Errors, Random};
use super::{Area, Sample};
use crate::checks::sum16;

pub const AREA: Area = Area { name: "pace", chosen, start: || Box::new(draft) };

const LISTED: [u8; 8] = [0x42, 0x44, 0xC1, 0xC2, 0xD1, 0xDB, 0xD0, 0xDA];

/// The commands next to those that mean something, and some others.
const OTHERS: [u8; 12] = [0x00, 0x41, 0x43, 0x45, 0x99, 0xA1, 0xC0, 0xC3, 0xD2, 0xD9, 0xDC, 0xFF];

/// Characters that are no digits, those next to the digits among them.
const NO_DIGITS: &[u8] = b"abcdefgG/:@`~ \r\n\x00\x7F\xB0\xFF";

fn draft(random: &mut Random) -> Draft {
    match random.below(10) {
        0..=5 => read(random),
        6..=7 => parse(random),
        _ => write(random),
    }
}

/// A frame before it is written down.
struct Frame {
    version: u8,
    address: u8,
    cid1: u8,
    code: u8,
    /// INFO in characters.
    info: String,
}

impl Frame {
    fn new(address: u8, code: u8, info: &[u8]) -> Frame {
        Frame {
            version: 0x25,
            address,
            cid1: 0x46,
            code,
            info: info.iter().map(|byte| format!("{byte:02X}")).collect(),
        }
    }

    /// The characters that are summed up.
    fn summed(&self) -> Vec<u8> {
        let count = self.info.len();
        let digits = count / 256 + count / 16 % 16 + count % 16;
        let top = (16 - digits % 16) % 16;
        format!(
            "{:02X}{:02X}{:02X}{:02X}{top:X}{count:03X}{}",
            self.version, self.address, self.cid1, self.code, self.info
        )
        .into_bytes()
    }

    fn right(&self) -> Vec<u8> {
        closed(self.summed())
    }

    /// The frame with the errors of its marks, characters, length, check and head, 1 to 6 and 13, that it shall have.
    fn framed(mut self, errors: &Errors, random: &mut Random) -> Vec<u8> {
        if errors.has(6) {
            match random.below(3) {
                0 => self.version = random.pick(&[0x20, 0x24, 0x26, 0x52]),
                1 => self.cid1 = random.pick(&[0x00, 0x45, 0x47, 0x64]),
                _ => self.address = self.address.wrapping_add(1),
            }
        }
        let mut summed = self.summed();
        if errors.has(4) {
            let place = 8 + random.below(4);
            match random.below(5) {
                0..=1 => summed[place] = other_digit(summed[place], random),
                2 => {
                    // Another count with the digit that belongs to it.
                    self.info.push_str(random.pick(&["0", "00", "0000"]));
                    let longer = self.summed();
                    summed[8..12].copy_from_slice(&longer[8..12]);
                }
                3 => summed.push(b'0'),
                _ => summed.truncate(summed.len() - random.below(3).min(summed.len() - 12)),
            }
        }
        if errors.has(13) && random.one_in(2) {
            let place = random.below(summed.len());
            summed[place] = random.pick(NO_DIGITS);
        }
        let mut frame = closed(summed);
        let last = frame.len() - 1;
        if errors.has(5) {
            let place = last - 1 - random.below(4);
            frame[place] = other_digit(frame[place], random);
        }
        if errors.has(13) && random.one_in(2) {
            match random.below(3) {
                0 => frame[last - 4..last].make_ascii_lowercase(),
                1 => frame[1..last].make_ascii_lowercase(),
                _ => frame[last - 1] = random.pick(NO_DIGITS),
            }
        }
        if errors.has(3) {
            frame[last] = random.pick(b"\n\x00D~0\x8D");
        }
        if errors.has(2) {
            frame[0] = random.pick(b"!}\x00\x7F\r2\xFE");
        }
        if errors.has(1) {
            frame.truncate(random.below(18));
        }
        frame
    }
}

/// Marks and check around the characters.
fn closed(summed: Vec<u8>) -> Vec<u8> {
    let mut frame = vec![b'~'];
    frame.extend_from_slice(&summed);
    frame.extend_from_slice(format!("{:04X}\r", sum16(&summed)).as_bytes());
    frame
}

fn other_digit(not: u8, random: &mut Random) -> u8 {
    loop {
        let digit = random.pick(b"0123456789ABCDEF");
        if digit != not {
            return digit;
        }
    }
}

fn address(random: &mut Random) -> u8 {
    random.pick(&[0x00, 0x01, 0x01, 0x02, 0x0F, 0x10, 0x2A, 0xFF])
}

/// A reply, right or with some errors.
fn read(random: &mut Random) -> Draft {
    let errors = random.errors(&[1, 2, 3, 13, 4, 5, 6, 7, 8, 8, 9]);
    let mut asked = random.pick(&[0x42, 0x44, 0xC1, 0xC2, 0xD1, 0xD1, 0xDB, 0xDB, 0xDB, 0xD0, 0xDA]);
    if errors.has(9) {
        asked = 0xDB;
    } else if errors.has(8) && random.one_in(2) {
        asked = random.pick(&[0x42, 0x44]);
    }
    let address = address(random);
    let by_content = errors.has(8) && random.one_in(2);
    let mut info = reply_info(asked, address, by_content, errors.has(9), random);
    if errors.has(8) && !by_content {
        let length = random.length_but(info.len());
        info.resize(length, random.byte());
    }
    let mut frame = Frame::new(address, 0x00, &info);
    if errors.has(8) && random.one_in(3) {
        frame.info.push('0');
    }
    if random.one_in(8) {
        frame.code = random.pick(&[0x01, 0x02, 0x04, 0x09, 0x90, 0xFF]);
        match random.below(3) {
            0 => frame.info.clear(),
            1 => frame.info.push('5'),
            _ => {}
        }
    }
    if errors.has(7) {
        asked = random.pick(&OTHERS);
    }
    Draft::of("pace read").byte(address, random).byte(asked, random).hex(&frame.framed(&errors, random), random)
}

/// The INFO of a reply, with a wrong count, constant or address if it shall be of the wrong shape.
fn reply_info(asked: u8, address: u8, shape: bool, value: bool, random: &mut Random) -> Vec<u8> {
    match asked {
        0x42 | 0x44 => {
            let width = if asked == 0x42 { 2 } else { 1 };
            let mut cells = random.pick(&[1, 2, 4, 8, 15, 16]);
            let mut sensors = random.pick(&[0, 1, 2, 4, 7, 8]);
            let fault = if shape { random.below(5) } else { 9 };
            match fault {
                0 => cells = random.pick(&[0, 17]),
                1 => sensors = 9,
                _ => {}
            }
            let mut info = vec![0x00, address];
            match fault {
                2 => info[0] = random.pick(&[0x01, address.wrapping_add(1), 0xFF]),
                3 => info[1] = address.wrapping_add(1),
                _ => {}
            }
            info.push(cells as u8);
            info.extend(content(random, width * cells));
            info.push(sensors as u8);
            info.extend(content(random, width * sensors));
            if asked == 0x44 {
                info.extend(content(random, 12));
            } else {
                info.extend(content(random, 6));
                info.push(if fault == 4 { 0x02 } else { 0x03 });
                info.extend(content(random, 6));
            }
            info
        }
        0xC1 => content(random, 20),
        0xC2 => {
            let length = random.pick(&[20, 40]);
            content(random, length)
        }
        0xD1 | 0xDB => {
            let mut info = vec![if shape { random.pick(&[0, 2, 0xFF]) } else { 1 }];
            if asked == 0xD1 {
                info.extend(content(random, 6));
            } else {
                let mut amounts = [0, 1].map(|_| match random.below(3) {
                    0 => random.pick(&[0x0000, 0xFFFF, 0x8000, 0x8001, 0xFF97, 0xFF92]),
                    _ => random.within(0x8000, 0xFFFF) as u16,
                });
                if value {
                    let positive = random.pick(&[0x0001, 0x0069, 0x7FFF, 0x6E00]);
                    amounts[random.below(2)] = positive;
                }
                info.extend(amounts.iter().flat_map(|amount| amount.to_be_bytes()));
            }
            info.push(random.byte());
            info
        }
        _ if shape => vec![0x00],
        _ => vec![],
    }
}

fn content(random: &mut Random, size: usize) -> Vec<u8> {
    (0..size)
        .map(|_| match random.below(5) {
            0 => random.pick(&[0x00, 0x0A, 0x0B, 0x7F, 0x80, 0xAA, 0xFF]),
            _ => random.byte(),
        })
        .collect()
}

/// Amounts and a delay that may be written with D0 or DA, or with one to three of them out of range.
fn limits(command: u8, right: bool, random: &mut Random) -> (Vec<i64>, i64) {
    let (count, least, most, step) = if command == 0xD0 { (3, 2500, 4500, 10) } else { (2, 1, 150, 1) };
    let (short, long) = if command == 0xD0 { (10, 50) } else { (5, 100) };
    let mut amounts: Vec<i64> = (0..count)
        .map(|_| match random.below(4) {
            0 => least,
            1 => most,
            _ => least + step * random.within(0, (most - least) / step),
        })
        .collect();
    let mut delay = match random.below(4) {
        0 => short,
        1 => long,
        _ => short + 5 * random.within(0, (long - short) / 5),
    };
    if !right {
        for _ in 0..random.pick(&[1, 1, 2, 3]) {
            if random.one_in(3) {
                delay = random.pick(&[0, 4, 6, 9, 11, short - 5, long + 5, long - 1, 101, 255]);
            } else {
                let place = random.below(amounts.len());
                amounts[place] = match random.below(6) {
                    0 => least - step,
                    1 => most + step,
                    2 if command == 0xD0 => amounts[place] ^ 1,
                    3 => random.pick(&[0, 65_535, 0xFF97, 2499, 4501, 151, 256]),
                    4 => most + 1,
                    _ => least - 1,
                };
            }
        }
    }
    (amounts, delay)
}

/// A request, right or with some errors.
fn parse(random: &mut Random) -> Draft {
    let errors = random.errors(&[1, 2, 3, 13, 4, 5, 6, 7, 8, 9, 9]);
    let code = random.pick(&[0x42, 0x44, 0xC1, 0xC2, 0xD1, 0xDB, 0xD0, 0xD0, 0xD0, 0xDA, 0xDA, 0xDA]);
    let address = address(random);
    let mut info = match code {
        0x42 | 0x44 => vec![address],
        0xD0 | 0xDA => {
            let (amounts, delay) = limits(code, !errors.has(9), random);
            let mut info = vec![0x01];
            for amount in amounts {
                info.extend((amount as u16).to_be_bytes());
            }
            info.push(delay as u8);
            info
        }
        _ => vec![],
    };
    let mut odd = false;
    if errors.has(8) {
        match random.below(4) {
            0 if !info.is_empty() => info[0] = info[0].wrapping_add(1),
            1 => odd = true,
            _ => {
                let length = random.length_but(info.len());
                info.resize(length, 0x05);
            }
        }
    }
    let mut frame = Frame::new(address, code, &info);
    if odd {
        frame.info.push('0');
    }
    if errors.has(7) {
        frame.code = random.pick(&OTHERS);
    }
    Draft::of("pace parse").hex(&frame.framed(&errors, random), random)
}

fn write(random: &mut Random) -> Draft {
    let errors = random.errors(&[7, 8, 9, 9, 11]);
    let start = Draft::of("pace write");
    if random.one_in(3) || errors.has(7) || errors.has(8) {
        let command = if errors.has(7) {
            random.pick(&OTHERS)
        } else if errors.has(8) {
            random.pick(&[0xD0, 0xDA])
        } else {
            random.pick(&LISTED[..6])
        };
        let needed = if command < 0x80 { 20 } else { 18 };
        return start
            .number(random.room(needed, errors.has(11)), random)
            .byte(address(random), random)
            .word("ask")
            .byte(command, random);
    }
    let (command, name, needed) = random.pick(&[(0xD0, "cell_overvoltage", 34), (0xDA, "slow_discharge", 30)]);
    let (amounts, delay) = limits(command, !errors.has(9), random);
    let mut draft = start.number(random.room(needed, errors.has(11)), random).byte(address(random), random).word(name);
    for amount in amounts {
        draft = draft.number(amount, random);
    }
    draft.number(delay, random)
}

fn chosen(sample: &mut Sample) {
    replies(sample);
    refused_replies(sample);
    more_refused_replies(sample);
    requests(sample);
    writes(sample);
    no_calls(sample);
}

fn replies(sample: &mut Sample) {
    let mut read = |comment: &str, address: u8, asked: u8, frame: &str| {
        let line = format!("pace read {address:02X} {asked:02X} {}", hex(frame.as_bytes()));
        sample.show(comment, line);
    };
    read(
        "004: analog information; LENGTH is F07A (P5), a temperature of 0B9B is 241 (P9)",
        0x01,
        0x42,
        "~25014600F07A0001100CC70CC80CC70CC70CC70CC50CC60CC70CC70CC60CC70CC60CC60CC70CC60CC7060B9B0B990B990B990BB30BBC\
         FF1FCCCD12D303286A008C2710E1E4\r",
    );
    read(
        "004: the status",
        0x01,
        0x44,
        "~25014600004C000110000000000000000000000000000000000600000000000000000000000E000000000000EF3A\r",
    );
    read("004: the hardware version", 0x01, 0xC1, "~25014600602850313653313030412D313831322D312E30302000F58E\r");
    read(
        "004: the serial number, 40 bytes",
        0x01,
        0xC2,
        "~25014600B05031383132313031333830333039442020202020202020202020202020202020202020202020202020EE0F\r",
    );
    read("004: the cell overvoltage", 0x00, 0xD1, "~25004600F010010E100E740D340AFA35\r");
    read("004: the slow discharge limit; FF97 is 105 A (P7)", 0x00, 0xDB, "~25004600400C01FF97FF920AFAD3\r");
    read("004: a write is accepted", 0x00, 0xD0, "~250046000000FDAF\r");
    read("and the other one", 0x00, 0xDA, "~250046000000FDAF\r");
    read("004: a failure 09 with INFO, which is not read", 0x00, 0xDA, "~25004609E00204FD2B\r");
    let right =
        |address: u8, code: u8, info: &[u8]| String::from_utf8(Frame::new(address, code, info).right()).unwrap();
    read("A failure to every command", 0x01, 0x42, &right(0x01, 0x04, &[]));
    for asked in LISTED {
        read("", 0xFF, asked, &right(0xFF, 0xFF, &[0x01]));
    }
    read("A serial number of 20 bytes", 0x01, 0xC2, &right(0x01, 0x00, b"18121013803090      "));
    read("One cell and no temperature", 0xFE, 0x42, &right(0xFE, 0x00, &analog(0xFE, 1, 0)));
    read("Sixteen cells and eight temperatures", 0x00, 0x42, &right(0x00, 0x00, &analog(0x00, 16, 8)));
    read("and their warnings", 0x00, 0x44, &right(0x00, 0x00, &warnings(0x00, 16, 8)));
    read("and of one cell", 0x10, 0x44, &right(0x10, 0x00, &warnings(0x10, 1, 0)));
    for (comment, alarm, protect, delay) in [
        ("Discharge limits of 32768 A and 0 A", 0x8000_u16, 0x0000_u16, 0xFF),
        ("of 1 A and 32767 A, any delay", 0xFFFF, 0x8001, 0x00),
        ("A positive one: 9", 0x0001, 0xFF97, 0x0A),
        ("and the other: 9", 0xFF97, 0x7FFF, 0x0A),
    ] {
        let mut info = vec![0x01];
        info.extend(alarm.to_be_bytes());
        info.extend(protect.to_be_bytes());
        info.push(delay);
        read(comment, 0x00, 0xDB, &right(0x00, 0x00, &info));
    }
    read(
        "Reads of D1 keep all values",
        0x00,
        0xD1,
        &right(0x00, 0x00, &[0x01, 0xFF, 0xFF, 0x00, 0x00, 0x80, 0x01, 0xFF]),
    );
    let coldest = {
        let mut info = analog(0x01, 1, 2);
        info[6..10].copy_from_slice(&[0x00, 0x00, 0xFF, 0xFF]);
        info
    };
    read("The least and the greatest temperature", 0x01, 0x42, &right(0x01, 0x00, &coldest));
}

/// The INFO of analog information with these counts.
fn analog(address: u8, cells: usize, sensors: usize) -> Vec<u8> {
    let mut info = vec![0x00, address, cells as u8];
    info.extend((0..cells).flat_map(|cell| (3271 + cell as u16).to_be_bytes()));
    info.push(sensors as u8);
    info.extend((0..sensors).flat_map(|sensor| (2700 + 10 * sensor as u16).to_be_bytes()));
    info.extend([0xFF, 0x1F, 0xCC, 0xCD, 0x12, 0xD3, 0x03, 0x28, 0x6A, 0x00, 0x8C, 0x27, 0x10]);
    info
}

/// The INFO of the status with these counts.
fn warnings(address: u8, cells: usize, sensors: usize) -> Vec<u8> {
    let mut info = vec![0x00, address, cells as u8];
    info.extend((0..cells).map(|cell| cell as u8));
    info.push(sensors as u8);
    info.extend((0..sensors).map(|sensor| 0xF0 + sensor as u8));
    info.extend([1, 2, 3, 4, 5, 6, 7, 8, 9, 10, 11, 255]);
    info
}

fn refused_replies(sample: &mut Sample) {
    let mut read = |comment: &str, address: u8, asked: u8, frame: &[u8]| {
        sample.show(comment, format!("pace read {address:02X} {asked:02X} {}", hex(frame)));
    };
    let accepted = b"~250046000000FDAF\r";
    let changed = |changes: &[(usize, u8)]| {
        let mut frame = accepted.to_vec();
        for (place, byte) in changes {
            frame[*place] = *byte;
        }
        frame
    };
    let summed = |text: &str| closed(text.as_bytes().to_vec());
    read("Shorter than 18 characters: 1", 0x00, 0xD0, b"");
    read("", 0x00, 0xD0, b"~");
    read("", 0x00, 0xD0, b"~\r");
    read("", 0x00, 0xD0, &accepted[..17]);
    read("", 0x00, 0xD0, b"~25004600000FDAF\r");
    read("The first mark wrong: 2", 0x00, 0xD0, &changed(&[(0, b'!')]));
    read("The last mark wrong: 3", 0x00, 0xD0, &changed(&[(17, b'\n')]));
    read("A line feed behind the frame: 3", 0x00, 0xD0, &[&accepted[..], b"\n"].concat());
    read("A lower-case check: 13", 0x00, 0xD0, b"~250046000000fdaf\r");
    read("Other characters: 13", 0x00, 0xD0, &summed("25004600000g"));
    for character in *b"/:@G`~ \x00\xFF\r" {
        let mut text = b"250046000000".to_vec();
        text[9] = character;
        read("", 0x00, 0xD0, &closed(text));
    }
    read("The length digit wrong: 4", 0x00, 0xD0, &summed("250046001000"));
    read("The count wrong, its digit right: 4", 0x00, 0xD0, &summed("25004600E002"));
    read("", 0x00, 0xD0, &summed("25004600F001"));
    read("More characters than counted: 4", 0x00, 0xD0, &summed("250046000000AB"));
    read("Fewer: 4", 0x00, 0xD0, &summed("25004600C004AB"));
    read("The check wrong: 5", 0x00, 0xD0, &changed(&[(16, b'E')]));
    read("Another version: 6", 0x00, 0xD0, &summed("200046000000"));
    read("Another CID1: 6", 0x00, 0xD0, &summed("250047000000"));
    read("Another address: 6", 0x01, 0xD0, accepted);
    read("although it is a failure", 0x01, 0xD0, &summed("250046090000"));
    read("A command that is not listed: 7", 0x00, 0xD2, accepted);
    read("although it is a failure", 0x00, 0x99, &summed("250046090000"));
    read("also of an odd count", 0x00, 0x99, &summed("25004609F0015"));
    read("An odd count of characters: 8", 0x00, 0xD0, &summed("25004600F0015"));
    read("a failure is not tested for it", 0x00, 0xD0, &summed("25004609F0015"));
    let (longest, longer) = ("5".repeat(0xFFF), "5".repeat(0x1000));
    read("The longest INFO, of a failure", 0x00, 0xD0, &summed(&format!("250046093FFF{longest}")));
    read("One character more cannot be counted: 4", 0x00, 0xD0, &summed(&format!("250046090000{longer}")));
    read("INFO behind a write: 8", 0x00, 0xD0, &summed("25004600E00201"));
    read("", 0x00, 0xDA, &summed("25004600E00200"));
    read("Two errors, start and end wrong: 2", 0x00, 0xD0, &changed(&[(0, 0), (17, 0)]));
    read("End and a character wrong: 3", 0x00, 0xD0, &changed(&[(17, 0), (9, b'a')]));
    read("A character and the length wrong: 13", 0x00, 0xD0, &changed(&[(9, b'1'), (10, b'a')]));
    read("Length and check wrong: 4", 0x00, 0xD0, &changed(&[(9, b'1'), (16, b'0')]));
    read("Check and address wrong: 5", 0x01, 0xD0, &changed(&[(16, b'0')]));
    read("Address and command wrong: 6", 0x01, 0xD2, accepted);
    read("Command and shape wrong: 7", 0x00, 0xD2, &summed("25004600F0015"));
    read("Everything wrong: 2", 0x01, 0xD2, &changed(&[(0, 0), (17, 0), (9, b'a'), (16, b'0')]));
}

fn more_refused_replies(sample: &mut Sample) {
    let mut read = |comment: &str, asked: u8, info: &[u8]| {
        let frame = Frame::new(0x01, 0x00, info).right();
        sample.show(comment, format!("pace read 01 {asked:02X} {}", hex(&frame)));
    };
    let with = |mut info: Vec<u8>, place: usize, byte: u8| {
        info[place] = byte;
        info
    };
    read("Analog information without a cell: 8", 0x42, &analog(1, 0, 0));
    read("with 17 cells: 8", 0x42, &analog(1, 17, 0));
    read("with nine temperatures: 8", 0x42, &analog(1, 4, 9));
    read("its constant 00 another: 8", 0x42, &with(analog(1, 1, 0), 0, 0x01));
    read("its address another: 8", 0x42, &with(analog(1, 1, 0), 1, 0x02));
    read("its constant 03 another: 8", 0x42, &with(analog(1, 1, 0), 12, 0x04));
    read("a byte too many: 8", 0x42, &[analog(1, 1, 1), vec![0]].concat());
    let whole = analog(1, 2, 1);
    read("cut anywhere: 8", 0x42, &[]);
    for length in [1, 2, 3, 4, 7, 8, 10, 16, 17, whole.len() - 1] {
        read("", 0x42, &whole[..length]);
    }
    read("The status without a cell: 8", 0x44, &warnings(1, 0, 0));
    read("with 17 cells: 8", 0x44, &warnings(1, 17, 0));
    read("with nine temperatures: 8", 0x44, &warnings(1, 4, 9));
    read("its constant another: 8", 0x44, &with(warnings(1, 4, 1), 0, 0x02));
    read("its address another: 8", 0x44, &with(warnings(1, 4, 1), 1, 0x00));
    read("a byte too many or too few: 8", 0x44, &[warnings(1, 4, 1), vec![0]].concat());
    read("", 0x44, &warnings(1, 4, 1)[..19]);
    read("A hardware version of 19, 21, 40 and 0 bytes: 8", 0xC1, &[0x41; 19]);
    for length in [21, 40, 0] {
        read("", 0xC1, &vec![0x41; length]);
    }
    read("A serial number of 0, 19, 21, 39 and 41 bytes: 8", 0xC2, &[]);
    for length in [19, 21, 39, 41] {
        read("", 0xC2, &vec![0x41; length]);
    }
    read("Limits with another constant: 8", 0xD1, &[0, 0, 0, 0, 0, 0, 0, 0]);
    read("", 0xDB, &[2, 0, 0, 0, 0, 0]);
    read("a byte too few or too many: 8", 0xD1, &[1, 0, 0, 0, 0, 0, 0]);
    read("", 0xD1, &[1, 0, 0, 0, 0, 0, 0, 0, 0]);
    read("", 0xDB, &[1, 0, 0, 0, 0]);
    read("A positive amount and a byte too many: 8", 0xDB, &[1, 0, 1, 0, 0, 0, 0]);
    read("A positive amount and another constant: 8", 0xDB, &[0, 0, 1, 0, 0, 0]);
}

fn requests(sample: &mut Sample) {
    let mut parse = |comment: &str, frame: &[u8]| {
        sample.show(comment, format!("pace parse {}", hex(frame)));
    };
    parse("004: the request for analog information (P6)", b"~25014642E00201FD30\r");
    parse("and with a lower-case check: 13", b"~25014642E00201fd30\r");
    parse("004: for the status", b"~25014644E00201FD2E\r");
    parse("004: for the hardware version", b"~250146C10000FD9A\r");
    parse("004: for the serial number", b"~250146C20000FD99\r");
    parse("004: for the cell overvoltage", b"~250046D10000FD9A\r");
    parse("004: and its write", b"~250046D0F010010E100E740D340AFA21\r");
    parse("004: for the slow discharge limit", b"~250046DB0000FD89\r");
    parse("004: and its write", b"~250046DA400C010069006E0AFAF7\r");
    parse("The limit as it was read, FF97: 9", &Frame::new(0, 0xDA, &[1, 0xFF, 0x97, 0xFF, 0x92, 10]).right());
    for (comment, frame) in [
        ("004: commands that are not listed: 7", &b"~25004699E0020DFD12\r"[..]),
        ("", b"~2500469AE00200FD1E\r"),
        ("", b"~2500469CE00201FD1B\r"),
        ("", b"~250046A1C004018FFCA7\r"),
        ("", b"~250046D50000FD96\r"),
        ("", b"~250046D4F01001E10AE740D2F00AF9FB\r"),
        ("", b"~250046D30000FD98\r"),
        ("", b"~250046D90000FD92\r"),
        ("", b"~250046E30000FD97\r"),
        ("", b"~250046B60000FD97\r"),
        ("", b"~250046DD0000FD87\r"),
        ("", b"~250046A60000FD98\r"),
    ] {
        parse(comment, frame);
    }
    parse("A reply is no request: 7", b"~250046000000FDAF\r");
    parse("Every address may be asked", &Frame::new(0xFF, 0xC1, &[]).right());
    parse("and repeats itself in 42", &Frame::new(0xFF, 0x42, &[0xFF]).right());
    parse("Another address in INFO: 8", &Frame::new(0x01, 0x42, &[0x02]).right());
    parse("No address in INFO: 8", &Frame::new(0x01, 0x44, &[]).right());
    parse("Two: 8", &Frame::new(0x01, 0x44, &[0x01, 0x01]).right());
    parse("INFO where none belongs: 8", &Frame::new(0x01, 0xC1, &[0x01]).right());
    parse("Another version: 6", &closed(b"240146C10000".to_vec()));
    parse("Another CID1: 6", &closed(b"250145C10000".to_vec()));
    parse("Another version and a command not listed: 6", &closed(b"240146C30000".to_vec()));
    parse("An odd count: 8", &closed(b"250146C1F0010".to_vec()));
    parse("of a command not listed: 7", &closed(b"250146C3F0010".to_vec()));
    parse("of a write: 8", &closed(b"250046D0E011010E100E740D340A0".to_vec()));
    let mut limits = |comment: &str, code: u8, info: &[u8]| {
        parse(comment, &Frame::new(0x00, code, info).right());
    };
    limits("A write with another constant: 8", 0xD0, &[0, 0x0E, 0x10, 0x0E, 0x74, 0x0D, 0x34, 10]);
    limits("and values out of range: 8", 0xD0, &[0, 0, 0, 0, 0, 0, 0, 0]);
    limits("A byte too few: 8", 0xD0, &[1, 0x0E, 0x10, 0x0E, 0x74, 0x0D, 0x34]);
    limits("The other write's shape: 8", 0xDA, &[1, 0x0E, 0x10, 0x0E, 0x74, 0x0D, 0x34, 10]);
    limits("", 0xD0, &[1, 0, 105, 0, 110, 10]);
    limits("An alarm of 3601 mV: 9", 0xD0, &[1, 0x0E, 0x11, 0x0E, 0x74, 0x0D, 0x34, 10]);
    limits("A delay of 12: 9", 0xD0, &[1, 0x0E, 0x10, 0x0E, 0x74, 0x0D, 0x34, 12]);
    limits("An alarm of 0 A: 9", 0xDA, &[1, 0, 0, 0, 110, 10]);
    limits("Limits of 1 A and 150 A, a delay of 100", 0xDA, &[1, 0, 1, 0, 150, 100]);
}

fn writes(sample: &mut Sample) {
    sample.show("004: the requests, written", "pace write 20 01 ask 42");
    for line in [
        "pace write 20 01 ask 44",
        "pace write 18 01 ask C1",
        "pace write 18 01 ask C2",
        "pace write 18 00 ask D1",
        "pace write 18 00 ask DB",
        "pace write 34 00 cell_overvoltage 3600 3700 3380 10",
        "pace write 30 00 slow_discharge 105 110 10",
        "pace write 8192 ff ask 42",
    ] {
        sample.more(line);
    }
    sample.show("One byte of room too little: 11", "pace write 19 01 ask 42");
    for line in [
        "pace write 17 01 ask C1",
        "pace write 33 00 cell_overvoltage 3600 3700 3380 10",
        "pace write 29 00 slow_discharge 105 110 10",
        "pace write 0 00 ask DB",
    ] {
        sample.more(line);
    }
    sample.show("A write has no request without values: 8, before 11", "pace write 34 00 ask D0");
    sample.more("pace write 0 00 ask da");
    sample.show("A command that is not listed: 7, before 11", "pace write 18 00 ask 00");
    for line in ["pace write 0 00 ask 43", "pace write 0 00 ask D2", "pace write 8192 00 ask FF"] {
        sample.more(line);
    }
    sample
        .show("Cell overvoltage at its edges, and 9 before 11", "pace write 34 00 cell_overvoltage 2500 2500 2500 10");
    for values in [
        "4500 4500 4500 50",
        "2490 2500 2500 10",
        "2500 2499 2500 10",
        "2500 2500 2501 10",
        "4510 4500 4500 50",
        "4500 4501 4500 50",
        "4500 4500 4509 50",
        "3600 3700 3380 5",
        "3600 3700 3380 9",
        "3600 3700 3380 11",
        "3600 3700 3380 12",
        "3600 3700 3380 15",
        "3600 3700 3380 55",
        "3600 3700 3380 0",
        "3600 3700 3380 255",
        "65535 3700 3380 10",
        "0 3700 3380 10",
        "3605 3700 3380 10",
        "65535 65535 65535 255",
    ] {
        sample.more(format!("pace write 34 00 cell_overvoltage {values}"));
        sample.more(format!("pace write 33 00 cell_overvoltage {values}"));
    }
    sample.show("Slow discharge at its edges, and 9 before 11", "pace write 30 00 slow_discharge 1 1 5");
    for values in [
        "150 150 100",
        "0 1 5",
        "1 0 5",
        "151 150 100",
        "150 151 100",
        "105 110 0",
        "105 110 4",
        "105 110 6",
        "105 110 7",
        "105 110 105",
        "105 110 95",
        "105 110 255",
        "65431 65426 10",
        "65535 1 5",
        "256 256 5",
    ] {
        sample.more(format!("pace write 30 00 slow_discharge {values}"));
        sample.more(format!("pace write 0 00 slow_discharge {values}"));
    }
}

fn no_calls(sample: &mut Sample) {
    sample.show("No calls: unknown words", "pace show 01 42 -");
    for line in [
        "Pace read 01 42 -",
        "pace find -",
        "pace write 18 00 asks C1",
        "pace write x y set 3 56",
        "pace write 18 ask C1 00",
    ] {
        sample.more(line);
    }
    sample.show("Too few words", "pace");
    for line in [
        "pace read 01 42",
        "pace parse",
        "pace write",
        "pace write 18",
        "pace write 18 00",
        "pace write 18 00 ask",
        "pace write 34 00 cell_overvoltage 3600 3700 3380",
        "pace write 30 00 slow_discharge 105 110",
    ] {
        sample.more(line);
    }
    sample.show("Too many words", "pace read 01 42 - -");
    for line in [
        "pace parse - -",
        "pace write 18 00 ask C1 C2",
        "pace write 34 00 cell_overvoltage 3600 3700 3380 10 0",
        "pace write 30 00 slow_discharge 105 110 10 0",
    ] {
        sample.more(line);
    }
    sample.show("Parameters from left to right", "pace read 1 2 3");
    for line in [
        "pace read 01 2 3",
        "pace read 01 42 3",
        "pace read 01 42 -",
        "pace read - 42 -",
        "pace write 8193 x ask y",
        "pace write x x ask y",
        "pace write 18 x ask y",
        "pace write 18 00 ask y",
        "pace write 34 00 cell_overvoltage 65536 x 3380 10",
        "pace write 34 00 cell_overvoltage 3600 x 65536 10",
        "pace write 34 00 cell_overvoltage 3600 3700 -1 10",
        "pace write 34 00 cell_overvoltage 3600 3700 3380 256",
        "pace write 30 00 slow_discharge 105 -1 10",
        "pace write 30 00 slow_discharge 0105 110 -10",
        "pace write 30 00 slow_discharge 0105 00110 010",
    ] {
        sample.more(line);
    }
}

#[cfg(test)]
mod tests {
    use crate::generator::tests::assert_kinds;

    #[test]
    fn the_lines_reach_every_answer() {
        let mut expected: Vec<String> = [
            "? line too long",
            "? not a number",
            "? not hex",
            "? number out of range",
            "? too few words",
            "? too many words",
            "? unknown word",
            "pace read: ok analog",
            "pace read: ok warnings",
            "pace read: ok hardware",
            "pace read: ok serial",
            "pace read: ok cell_overvoltage",
            "pace read: ok slow_discharge",
            "pace read: ok accepted",
            "pace read: ok failure",
            "pace parse: ok ask",
            "pace parse: ok cell_overvoltage",
            "pace parse: ok slow_discharge",
            "pace write: ok frame",
        ]
        .map(String::from)
        .to_vec();
        for (call, refusals) in [
            ("read", &[1, 2, 3, 13, 4, 5, 6, 7, 8, 9][..]),
            ("parse", &[1, 2, 3, 13, 4, 5, 6, 7, 8, 9]),
            ("write", &[7, 8, 9, 11]),
        ] {
            expected.extend(refusals.iter().map(|n| format!("pace {call}: refused {n}")));
        }
        let expected: Vec<&str> = expected.iter().map(String::as_str).collect();
        assert_kinds("pace", 30_000, &expected);
    }
}
