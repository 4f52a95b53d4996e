//! Pathfinder lines (docs/CONSOLE.md; 000; 01, "Pathfinder"): the examples of 000, every refusal, one to three errors
//! at once, and log text with frames in it.

use super::lines::{hex, Draft};
use super::random::{Errors, Random};
use super::{Area, Sample};
use crate::checks::crc;
use crate::examples;
use crate::pathfinder::{frame, REGISTERS};
use std::ops::RangeInclusive;

pub const AREA: Area = Area { name: "pf", chosen, start: || Box::new(draft) };

const LISTED: [u8; 6] = [0x01, 0x02, 0x03, 0x04, 0x05, 0x0E];
pub const FAILURES: [u8; 8] = [0x20, 0x21, 0x22, 0x23, 0x24, 0x26, 0x27, 0x2D];

/// The opcodes next to those that mean something, and some others.
const OTHERS: [u8; 14] = [0x00, 0x06, 0x0D, 0x0F, 0x11, 0x16, 0x1F, 0x25, 0x28, 0x2C, 0x2E, 0x30, 0x8E, 0xFF];

/// Registers that there are not: the reserved one, and those behind the last.
const UNKNOWN: [u8; 7] = [47, 52, 53, 64, 0x83, 0xAF, 255];

/// A number as the signed word with the same 32 bits, which is how a line has it.
pub fn as_word(number: i64) -> i64 {
    (number as i32).into()
}

fn draft(random: &mut Random) -> Draft {
    match random.below(20) {
        0..=7 => read(random),
        8..=10 => row(random),
        11 => {
            let count = random.pick(&[0, 1, -1, 5308, 32767, -32768, 32768, -32769, 3276, -3277]);
            Draft::of("pf millivolts").number(count, random)
        }
        12..=14 => parse(random),
        15..=17 => write(random),
        _ => find(random),
    }
}

/// A reply, right or with some errors.
fn read(random: &mut Random) -> Draft {
    let errors = random.errors(&[1, 2, 4, 3, 5, 7, 8, 11]);
    let mut asked = random.pick(&[1, 1, 1, 1, 2, 3, 4, 5, 5, 5, 5, 0x0E, 0x0E, 0x0E]);
    let size = match asked {
        0x01 => 12,
        0x02 => 200,
        0x03 => 212,
        0x04 => 64,
        0x05 => random.pick(&[0, 1, 14, 14, 20, 30, 253, 254]),
        _ => 0,
    };
    let mut opcode = asked;
    let mut data = content(random, size);
    if random.one_in(8) {
        data = example(asked).map_or(data, examples::bytes);
    }
    if random.one_in(5) {
        opcode = random.pick(&FAILURES);
        data.clear();
    }
    if errors.has(8) {
        if asked == 0x05 {
            opcode = random.pick(&FAILURES);
        }
        let wrong = random.length_but(data.len()).min(254);
        data = content(random, wrong);
    }
    if errors.has(7) {
        match random.below(4) {
            0 => opcode = random.pick(&LISTED),
            1 => opcode = random.pick(&OTHERS),
            2 => asked = random.pick(&OTHERS),
            _ => {
                asked = random.pick(&OTHERS);
                opcode = asked;
            }
        }
    }
    let needed = match opcode {
        0x01..=0x04 => data.len() / 4,
        0x05 => data.len(),
        _ => random.below(3),
    };
    Draft::of("pf read")
        .byte(asked, random)
        .number(random.room(needed, errors.has(11)), random)
        .hex(&framed(opcode, &data, &errors, random), random)
}

/// The words of the reply that 000 has as an example.
fn example(asked: u8) -> Option<&'static [i32]> {
    match asked {
        0x01 => Some(&examples::MAKER),
        0x02 => Some(&examples::SETTINGS),
        0x03 => Some(&examples::LIVE),
        _ => None,
    }
}

/// Data of a size: words with all kinds of values, or text.
fn content(random: &mut Random, size: usize) -> Vec<u8> {
    let mut data = Vec::new();
    while data.len() < size {
        match random.below(4) {
            0 => data.extend((word(random) as i32).to_le_bytes()),
            1 => data.extend(random.pick(&[0, 1, -1, 20, i32::MIN, i32::MAX]).to_le_bytes()),
            2 => data.extend(random.bytes(4)),
            _ => data.extend(b"PACK"),
        }
    }
    data.truncate(size);
    data
}

/// A frame with the errors of its marks, length and checksum, from 1 to 5, that it shall have.
pub fn framed(opcode: u8, data: &[u8], errors: &Errors, random: &mut Random) -> Vec<u8> {
    let mut checked = vec![data.len() as u8 + 1, opcode];
    checked.extend_from_slice(data);
    let way = random.below(4);
    if errors.has(4) && way < 2 {
        checked[0] = match random.below(4) {
            0 => checked[0].wrapping_add(1),
            1 => checked[0].wrapping_sub(1),
            2 => 0,
            _ => random.byte_but(&[checked[0]]),
        };
    }
    let mut sum = crc(&checked);
    if errors.has(5) {
        sum = match random.below(4) {
            0 => sum ^ 1 << random.below(16),
            1 => sum.swap_bytes(),
            2 => !sum,
            _ => sum.wrapping_add(1),
        };
    }
    let mut frame = vec![0xFE];
    frame.extend_from_slice(&checked);
    frame.extend_from_slice(&sum.to_be_bytes());
    frame.push(0xFD);
    if errors.has(4) {
        match way {
            0 | 1 => {}
            2 if random.one_in(4) => frame.extend([0xFD; 256]),
            2 => frame.push(random.pick(&[0x00, 0xFD, 0xFE])),
            _ if random.one_in(2) && frame.len() > 6 => {
                frame.remove(3 + random.below(frame.len() - 6));
            }
            _ => frame.insert(3, random.byte()),
        }
    }
    let last = frame.len() - 1;
    if errors.has(3) {
        frame[last] = random.pick(&[0xFE, 0x00, 0xFF, 0x0D, 0x7D, 0xFC]);
    }
    if errors.has(2) {
        frame[0] = random.pick(&[0xFD, 0x00, 0xFF, 0x7F, 0x7E, 0x01]);
    }
    if errors.has(1) {
        frame.truncate(random.below(6));
    }
    frame
}

/// A word on the edge of a type, or any.
fn word(random: &mut Random) -> i64 {
    let edge = match random.below(14) {
        0 => 0,
        1 => 1 << 7,
        2 => 1 << 8,
        3 => 1 << 15,
        4 => 1 << 16,
        5 => 1 << 31,
        6 => random.within(0, 0xFFFF) << 16,
        7 => random.within(i32::MIN.into(), i32::MAX.into()),
        _ => return random.pick(&EDGES).into(),
    };
    let near = edge + random.within(-2, 1);
    let signed = if random.one_in(3) { -near } else { near };
    signed.clamp(i32::MIN.into(), i32::MAX.into())
}

/// Words that tell the types apart: the ends of each, and those that become one of them by their low bits.
const EDGES: [i32; 12] = [-1, i32::MIN, i32::MAX, 255, 256, 128, 127, 65_535, 32_768, 32_767, -128, -32_768];

/// The rows of reply 03 that count events and never miss (02, request 1), and the three behind them, which may: the
/// confidence and the times; and the words that tell them apart.
const COUNTS_TO_TIMES: RangeInclusive<i64> = 32..=48;
const COUNTED: [i64; 3] = [0xFFFF, 0, 1];

fn row(random: &mut Random) -> Draft {
    let (reply, place, word) = match random.below(12) {
        0 | 1 => (3, random.within(*COUNTS_TO_TIMES.start(), *COUNTS_TO_TIMES.end()), random.pick(&COUNTED)),
        2 => {
            let place = random.below(examples::LIVE.len());
            (3, place as i64, examples::LIVE[place].into())
        }
        _ => any_row(random),
    };
    Draft::of("pf row").byte(reply, random).number(place, random).number(word, random)
}

fn any_row(random: &mut Random) -> (u8, i64, i64) {
    let reply = random.pick(&[1, 2, 2, 2, 3, 3, 3, 3, 3, 4, 4, 0, 5, 0x0E, 0xFF]);
    let place = match random.below(10) {
        0 => random.within(0, 255),
        1 => random.pick(&[2, 3, 15, 16, 49, 50, 52, 53, 255]),
        2 | 3 if reply == 3 => random.pick(&[0, 5, 6, 7, 10, 25, 52]),
        _ if reply == 1 => random.within(0, 2),
        _ if reply == 4 => random.within(0, 15),
        _ => random.within(0, 52),
    };
    (reply, place, word(random))
}

/// A register and a value, right or with the errors 10 and 9.
fn setting(errors: &Errors, random: &mut Random) -> (u8, i64) {
    let (register, _, least, most) = random.pick(&REGISTERS);
    let value = if errors.has(9) {
        match random.below(6) {
            0 => least - 1,
            1 => most + 1,
            2 => random.within(least, most) + 256,
            3 => random.within(least, most) - 65_536,
            4 => -random.within(1, 300),
            _ => word(random),
        }
    } else {
        match random.below(4) {
            0 => least,
            1 => most,
            _ => random.within(least, most),
        }
    };
    let register = if errors.has(10) { random.pick(&UNKNOWN) } else { register as u8 };
    (register, as_word(value))
}

/// A request, right or with some errors.
fn parse(random: &mut Random) -> Draft {
    let errors = random.errors(&[1, 2, 4, 3, 5, 7, 8, 10, 9, 9]);
    let mut opcode = random.pick(&[1, 2, 3, 4, 5, 0x0E, 0x0E, 0x0E, 0x0E, 0x0E, 0x0E]);
    let mut data = Vec::new();
    if opcode == 0x0E {
        let (register, value) = setting(&errors, random);
        data.push(register);
        data.extend((value as i32).to_le_bytes());
    }
    if errors.has(8) {
        let length = random.length_but(data.len());
        data.resize(length, 0);
    }
    if errors.has(7) {
        opcode = random.pick(&OTHERS);
    }
    Draft::of("pf parse").hex(&framed(opcode, &data, &errors, random), random)
}

fn write(random: &mut Random) -> Draft {
    let errors = random.errors(&[7, 10, 8, 9, 11]);
    if random.one_in(2) {
        let opcode = if errors.has(7) {
            random.pick(&OTHERS)
        } else if errors.has(8) {
            0x0E
        } else {
            random.pick(&LISTED[..5])
        };
        return Draft::of("pf write").number(random.room(6, errors.has(11)), random).word("ask").byte(opcode, random);
    }
    let (register, value) = setting(&errors, random);
    Draft::of("pf write")
        .number(random.room(11, errors.has(11)), random)
        .word("set")
        .number(register.into(), random)
        .number(value, random)
}

/// Log text with frames in it, whole, broken, cut and one within another.
fn find(random: &mut Random) -> Draft {
    let mut log = Vec::new();
    for _ in 0..random.below(5) {
        match random.below(9) {
            0 => log.extend(b"I (312) BMS: "),
            1 => log.extend(random.bytes(3)),
            2 => log.extend([0xFE; 3]),
            3 => log.extend([0xFE, random.pick(&[0, 1, 2, 9, 255])]),
            4 => log.extend([0xFE, 0, 0, 0, 0xFD]),
            5 => log.extend(small_frame(random)),
            6 => {
                let errors = random.errors(&[2, 4, 3, 5]);
                log.extend(framed(random.byte(), &random.bytes(2), &errors, random));
            }
            7 => {
                let frame = small_frame(random);
                log.extend(&frame[..random.below(frame.len())]);
            }
            _ => {
                let inner = small_frame(random);
                let errors = random.errors(&[2, 4, 3, 5]);
                log.extend(framed(0x05, &inner, &errors, random));
            }
        }
    }
    Draft::of("pf find").hex(&log, random)
}

fn small_frame(random: &mut Random) -> Vec<u8> {
    let opcode = random.pick(&[0x01, 0x02, 0x0E, 0x24, 0xFE, 0xFD, 0x00]);
    let size = random.pick(&[0, 0, 1, 2, 5]);
    frame(opcode, &random.bytes(size))
}

fn chosen(sample: &mut Sample) {
    requests(sample);
    replies(sample);
    refused_replies(sample);
    rows(sample);
    counts(sample);
    writes(sample);
    searches(sample);
    no_calls(sample);
}

fn requests(sample: &mut Sample) {
    sample.show("000: the requests 01, 02, 03 and 05", "pf parse FE01012310FD");
    sample.more("pf parse FE01021373FD");
    sample.more("pf parse FE01030352FD");
    sample.more("pf parse FE01056394FD");
    sample.show("000: register 3 is set to 56", "pf parse FE060E0338000000667EFD");
    let mut parse = |comment: &str, input: &[u8]| {
        sample.show(comment, format!("pf parse {}", hex(input)));
    };
    let set = |register: u8, value: i32| {
        let mut data = vec![register];
        data.extend(value.to_le_bytes());
        frame(0x0E, &data)
    };
    parse("Request 04", &frame(0x04, &[]));
    parse("The word EC FF FF FF is -20 (P12)", &set(12, -20));
    parse("Register 3 with 128: 9", &set(3, 128));
    parse("Register 47: 10", &set(47, 0));
    parse("Register 52: 10", &set(52, 0));
    parse("Register 47 and a value out of every range: 10", &set(47, i32::MIN));
    parse("Register 2 goes to 16", &set(2, 16));
    parse("and not to 17", &set(2, 17));
    parse("Register 0 goes to 5000", &set(0, 5000));
    parse("and not to 5001", &set(0, 5001));
    parse("nor below 0", &set(0, -1));
    parse("A low byte that would be in range does not help", &set(3, 256 + 50));
    parse("Register 42 takes FFFFFFFF, which is -1 in a line", &set(42, -1));
    parse("Register 49 does not: 9", &set(49, -1));
    for (register, _, least, most) in REGISTERS.into_iter().filter(|row| row.0 > 47) {
        let to = |value: i64| set(register as u8, value as i32);
        parse(&format!("Register {register} goes from {least}"), &to(least));
        parse(&format!("to {most}"), &to(most));
        parse("and not below: 9", &to(least - 1));
        parse("nor above: 9", &to(most + 1));
    }
    parse("A request that is not listed: 7", &frame(0x06, &[]));
    parse("also with data", &frame(0x11, b"Zoidberg, MD"));
    parse("A failure is no request: 7", &frame(0x24, &[]));
    parse("Request 05 with data: 8", &frame(0x05, &[0]));
    parse("A write with no data: 8", &frame(0x0E, &[]));
    parse("with a register alone: 8", &frame(0x0E, &[3]));
    parse("with four bytes: 8", &frame(0x0E, &[3, 56, 0, 0]));
    parse("with six bytes: 8", &frame(0x0E, &[3, 56, 0, 0, 0, 0]));
    parse("of six bytes to register 47: 8", &frame(0x0E, &[47, 56, 0, 0, 0, 0]));
    parse("No input: 1", &[]);
}

fn replies(sample: &mut Sample) {
    let reply = |asked: u8, room: usize, opcode: u8, data: &[u8]| {
        format!("pf read {asked:02X} {room} {}", hex(&frame(opcode, data)))
    };
    sample.show(
        "000: reply 01 is lot 2, version 0.223, and closes with 52CB",
        reply(1, 3, 1, &examples::bytes(&examples::MAKER)),
    );
    sample.show(
        "000: reply 02, rebuilt from its table, closes with 6253",
        reply(2, 50, 2, &examples::bytes(&examples::SETTINGS)),
    );
    sample.show(
        "000: reply 03, rebuilt from its table, closes with E0F3",
        reply(3, 53, 3, &examples::bytes(&examples::LIVE)),
    );
    let cells: Vec<i32> = (0..16).map(|cell| 3300 + cell * 3 - 7).collect();
    sample.show("Reply 04, sixteen cells", reply(4, 16, 4, &examples::bytes(&cells)));
    sample.show("000: the name is PATHFINDER BMS", "pf read 05 14 FE0F055041544846494E44455220424D537A5EFD");
    sample.show("A name of no bytes", reply(5, 0, 5, b""));
    sample.show("A name of 254 bytes", reply(5, 254, 5, &[b'n'; 254]));
    sample.show("and too little room for it: 11", reply(5, 253, 5, &[b'n'; 254]));
    sample.show("000: a write has been done", "pf read 0E 0 FE010ED2FFFD");
    sample.show("Every failure", reply(2, 0, 0x20, b""));
    for code in &FAILURES[1..] {
        sample.more(reply(0x0E, 8192, *code, b""));
    }
    sample.show("More room than words", reply(1, 5, 1, &[0xFF; 12]));
    sample.show("One word of room too little: 11", reply(1, 2, 1, &[0xFF; 12]));
    sample.more(reply(2, 49, 2, &[0; 200]));
    sample.more(reply(3, 52, 3, &[0; 212]));
    sample.more(reply(4, 15, 4, &[0; 64]));
}

fn refused_replies(sample: &mut Sample) {
    let mut read = |comment: &str, asked: u8, room: usize, input: &[u8]| {
        sample.show(comment, format!("pf read {asked:02X} {room} {}", hex(input)));
    };
    let changed = |changes: &[(usize, u8)]| {
        let mut input = frame(0x05, b"PATHFINDER BMS");
        for (place, byte) in changes {
            input[*place] = *byte;
        }
        input
    };
    let name = changed(&[]);
    read("Shorter than 6 bytes: 1", 5, 14, &[]);
    for length in 1..6 {
        read("", 5, 14, &name[..length]);
    }
    read("A length of 0 makes no frame: 1", 5, 14, &[0xFE, 0, 0, 0, 0xFD]);
    read("and 4 where another byte makes it long enough", 5, 14, &[0xFE, 0, 0, 0, 0, 0xFD]);
    read("The first mark wrong: 2", 5, 14, &changed(&[(0, 0xFD)]));
    read("The length wrong: 4", 5, 14, &changed(&[(1, 14)]));
    read("", 5, 14, &changed(&[(1, 16)]));
    read("", 5, 14, &name[..18]);
    read("", 5, 14, &[&name[..], &[0xFD]].concat());
    read("", 5, 14, &[&name[..], &name[..]].concat());
    read("The last mark wrong: 3", 5, 14, &changed(&[(19, 0xFE)]));
    read("The checksum wrong: 5", 5, 14, &changed(&[(18, 0x5F)]));
    read("its bytes the other way round: 5", 5, 14, &changed(&[(17, 0x5E), (18, 0x7A)]));
    read("a byte of the data changed: 5", 5, 14, &changed(&[(3, b'p')]));
    read("the opcode changed: 5", 5, 14, &changed(&[(2, 0x24)]));
    read("The reply to another request: 7", 4, 14, &name);
    read("A request that is not listed: 7", 6, 14, &name);
    read("although its reply has the same opcode", 0x16, 14, &frame(0x16, b"Overkill"));
    read("although the device reports a failure", 0x16, 14, &frame(0x24, b""));
    read("also with more data", 0x16, 14, &frame(0x24, b"x"));
    read("No failures: 7", 5, 14, &frame(0x25, b""));
    for code in [0x28, 0x29, 0x2A, 0x2B, 0x2C, 0x2E, 0x2F, 0x1F] {
        read("", 5, 14, &frame(code, b""));
    }
    read("A failure with more data: 8", 5, 14, &frame(0x24, b"x"));
    read("A word too few: 8", 1, 8192, &frame(0x01, &[0; 8]));
    read("a byte too many: 8", 1, 8192, &frame(0x01, &[0; 13]));
    read("no words: 8", 2, 8192, &frame(0x02, &[]));
    read("53 words for 50: 8", 2, 8192, &frame(0x02, &[0; 212]));
    read("50 words for 53: 8", 3, 8192, &frame(0x03, &[0; 200]));
    read("17 cells: 8", 4, 8192, &frame(0x04, &[0; 68]));
    read("data behind a write: 8", 0x0E, 8192, &frame(0x0E, &[0]));
    read("Two errors, start and end wrong: 2", 5, 14, &changed(&[(0, 0), (19, 0)]));
    read("Length and end wrong: 4", 5, 14, &changed(&[(1, 9), (19, 0)]));
    read("End and checksum wrong: 3", 5, 14, &changed(&[(17, 0), (19, 0)]));
    read("Checksum and opcode wrong: 5", 4, 14, &changed(&[(17, 0)]));
    read("Opcode, shape and room wrong: 7", 4, 0, &frame(0x01, &[0; 3]));
    read("Shape and room wrong: 8", 1, 0, &frame(0x01, &[0; 16]));
    read("Everything wrong: 2", 4, 0, &changed(&[(0, 0), (1, 0), (17, 0), (19, 0)]));
    read("Everything but the first mark: 4", 4, 0, &changed(&[(1, 0), (17, 0), (19, 0)]));
    read("More bytes than a frame can have: 4", 5, 8192, &[0xFE; 300]);
    read("256 bytes too many: 4", 5, 14, &[&name[..], &[0xFD; 256]].concat());
}

fn rows(sample: &mut Sample) {
    sample.show("000: the rows of reply 01", "pf row 01 0 2");
    sample.more("pf row 01 1 0");
    sample.more("pf row 01 2 223");
    sample.show("000: the rows of reply 02", "pf row 02 0 3100");
    for (place, word) in examples::SETTINGS.iter().enumerate().skip(1) {
        sample.more(format!("pf row 02 {place} {word}"));
    }
    sample.show("000: the rows of reply 03", "pf row 03 0 5308");
    for (place, word) in examples::LIVE.iter().enumerate().skip(1) {
        sample.more(format!("pf row 03 {place} {word}"));
    }
    sample.show("Reply 04 has sixteen rows", "pf row 04 0 3300");
    sample.more("pf row 04 15 -3");
    sample.more("pf row 04 15 2147483647");
    sample.more("pf row 04 16 0");
    for (comment, reply, count) in [
        ("Every row of reply 03 at the edges of the types", "03", 53),
        ("and of reply 02, where nothing is missing", "02", 50),
        ("and of reply 01", "01", 3),
    ] {
        sample.show(comment, format!("pf row {reply} 0 131071"));
        for place in 0..count {
            for word in EDGES {
                sample.more(format!("pf row {reply} {place} {word}"));
            }
        }
    }
    sample.show("No such reply: 7, before no such row", "pf row 00 0 0");
    for line in ["pf row 05 0 0", "pf row 05 255 0", "pf row 0E 0 0", "pf row FF 255 -1"] {
        sample.more(line);
    }
    sample.show("No such row: 8", "pf row 01 3 0");
    for line in ["pf row 02 50 0", "pf row 02 255 0", "pf row 03 53 0", "pf row 04 16 1"] {
        sample.more(line);
    }
    sample.show("Ten millivolts times ten", "pf millivolts 5308");
    for count in [0, 1, -1, 32_767, -32_768] {
        sample.more(format!("pf millivolts {count}"));
    }
}

fn counts(sample: &mut Sample) {
    sample.show("A count that has stopped at 65,535 is not missing", "pf row 03 44 65535");
    sample.show("and is narrowed first", "pf row 03 45 131071");
    sample.show("A time of 65,535 is missing", "pf row 03 47 65535");
    sample.more("# Rows 32 to 48 with FFFF, 0 and 1");
    for place in COUNTS_TO_TIMES {
        for word in COUNTED {
            sample.more(format!("pf row 03 {place} {word}"));
        }
    }
}

fn writes(sample: &mut Sample) {
    sample.show("000: the requests, written", "pf write 6 ask 01");
    for line in ["pf write 6 ask 02", "pf write 6 ask 03", "pf write 6 ask 04", "pf write 8192 ask 05"] {
        sample.more(line);
    }
    sample.show("000: register 3 gets 56", "pf write 11 set 3 56");
    sample.show("One byte of room too little: 11", "pf write 10 set 3 56");
    sample.more("pf write 5 ask 05");
    sample.more("pf write 0 ask 01");
    sample.show("A write has no request without values: 8, before 11", "pf write 11 ask 0E");
    sample.more("pf write 0 ask 0e");
    sample.show("A request that is not listed: 7, before 11", "pf write 6 ask 06");
    for line in ["pf write 0 ask 00", "pf write 0 ask 11", "pf write 8192 ask 24", "pf write 0 ask FF"] {
        sample.more(line);
    }
    sample.show("The least and greatest value of every register, and those beyond", "pf write 11 set 0 0");
    for (register, _, least, most) in REGISTERS {
        for value in [least - 1, least, most, most + 1].map(as_word) {
            sample.more(format!("pf write 11 set {register} {value}"));
        }
    }
    sample.show("Register 42 takes every word", "pf write 11 set 42 -1");
    sample.more("pf write 11 set 42 -2147483648");
    sample.more("pf write 11 set 42 2147483647");
    sample.show("but a line has it signed", "pf write 11 set 42 2147483648");
    sample.more("pf write 11 set 42 4294967295");
    sample.show("Register 49 with FFFFFFFF: 9", "pf write 11 set 49 -1");
    sample.more("pf write 11 set 51 -1");
    sample.more("pf write 11 set 49 -2147483648");
    sample.show("Register 47: 10, before 9 and 11", "pf write 11 set 47 0");
    sample.show("Register 52: 10, before 9 and 11", "pf write 11 set 52 0");
    for line in ["pf write 0 set 47 2147483647", "pf write 0 set 255 -2147483648", "pf write 0 set 52 -1"] {
        sample.more(line);
    }
    sample.show("Register 3 with 128: 9, before 11", "pf write 11 set 3 128");
    sample.more("pf write 0 set 3 128");
}

fn searches(sample: &mut Sample) {
    let mut find = |comment: &str, log: &[u8]| {
        sample.show(comment, format!("pf find {}", hex(log)));
    };
    let small = frame(0x05, b"");
    let done = frame(0x0E, b"");
    let name = frame(0x05, b"PATHFINDER BMS");
    find("Nothing to search", b"");
    find("Log text without a frame", b"I (312) BMS: cell 3 at 3312 mV\r\n");
    find("A frame alone", &name);
    find("A frame among log text", &[b"I (312) BMS: ok\r\n", &name[..], b"I (313)"].concat());
    find("The first of two", &[&done[..], &name[..]].concat());
    find("A start mark before the frame", &[b"\xFE", &name[..]].concat());
    find("and one whose length goes beyond the input", &[b"\xFE\xFF", &name[..]].concat());
    find("Start marks only", &[0xFE; 40]);
    find("A frame cut at its end", &name[..19]);
    find("and a whole one behind it", &[&name[..19], &done[..]].concat());
    find("A frame without its start, and a whole one", &[&name[1..], &done[..]].concat());
    find("A length of 0 is no frame", &[0xFE, 0, 0, 0, 0xFD]);
    let mut broken = frame(0x05, &small);
    find("A frame within a frame: the outer one", &broken);
    broken[10] ^= 1;
    find("The outer one's checksum wrong: the inner one", &broken);
    broken[10] ^= 1;
    broken[11] = 0;
    find("The outer one's end wrong: the inner one", &broken);
    find("An opcode that means nothing", &frame(0x77, &[1, 2, 3]));
    find("The longest frame", &frame(0x05, &[0xFE; 254]));
    let late = [&vec![0xFE; 1000][..], &frame(0x05, &[0xFD; 254])].concat();
    find("The longest frame behind a thousand start marks", &late);
}

fn no_calls(sample: &mut Sample) {
    sample.show("No calls: unknown words", "pf reads 01 3 -");
    for line in ["PF read 01 3 -", "pf write x given 01", "pf write 6 asks", "pf write 6 set_time 1 2 3 4 5 6"] {
        sample.more(line);
    }
    sample.show("Too few words", "pf");
    for line in
        ["pf read", "pf read 01 3", "pf row 02 0", "pf write", "pf write 6", "pf write 6 ask", "pf write 6 set 3"]
    {
        sample.more(line);
    }
    sample.show("Too many words", "pf find - -");
    for line in ["pf write 6 ask 01 02", "pf write 6 set 3 56 1", "pf millivolts 1 2", "pf parse - x"] {
        sample.more(line);
    }
    let zeros = "0".repeat(3000);
    sample.show("A number may have many digits", format!("pf write {zeros}11 set {zeros}3 -{zeros}40"));
    sample.more(format!("pf millivolts -{zeros}"));
    sample.more(format!("pf millivolts 1{zeros}"));
    sample.show("Parameters from left to right", "pf read 1 x 0");
    for line in [
        "pf read 01 x 0",
        "pf read 01 8193 0",
        "pf read 01 -1 0",
        "pf read 01 0 0",
        "pf read 01 8192 -",
        "pf row 02 256 x",
        "pf row 02 255 x",
        "pf row 02 -0 2147483648",
        "pf row 02 0 -2147483649",
        "pf row - 0 0",
        "pf row 02 - 0",
        "pf millivolts 32768",
        "pf millivolts -32769",
        "pf millivolts -",
        "pf millivolts +1",
        "pf write x ask x",
        "pf write 8193 ask x",
        "pf write 8192 ask x",
        "pf write 6 ask 1",
        "pf write 6 set 256 x",
        "pf write 6 set 255 x",
        "pf write 6 set x 99999999999",
        "pf write 11 set 003 -00",
        "pf write 11 set 3 99999999999",
    ] {
        sample.more(line);
    }
}

#[cfg(test)]
mod tests {
    use super::*;
    use crate::generator::generate;
    use crate::generator::tests::assert_kinds;
    use crate::pathfinder::writable;
    use crate::refusal::Refusal;
    use std::collections::BTreeSet;

    #[test]
    fn the_lines_reach_every_answer() {
        let mut expected: Vec<String> = [
            "? line too long",
            "? not a number",
            "? not hex",
            "? number out of range",
            "? too few words",
            "? too many words",
            "? unknown word",
            "pf read: ok words",
            "pf read: ok name",
            "pf read: ok written",
            "pf read: ok failure",
            "pf row: ok number",
            "pf row: ok ten_millivolts",
            "pf row: ok truth",
            "pf row: ok missing",
            "pf millivolts: ok millivolts",
            "pf parse: ok ask",
            "pf parse: ok write",
            "pf write: ok frame",
            "pf find: ok at",
            "pf find: ok none",
        ]
        .map(String::from)
        .to_vec();
        for (call, refusals) in [
            ("read", &[1, 2, 4, 3, 5, 7, 8, 11][..]),
            ("row", &[7, 8]),
            ("parse", &[1, 2, 4, 3, 5, 7, 8, 10, 9]),
            ("write", &[7, 10, 8, 9, 11]),
        ] {
            expected.extend(refusals.iter().map(|n| format!("pf {call}: refused {n}")));
        }
        let expected: Vec<&str> = expected.iter().map(String::as_str).collect();
        assert_kinds("pf", 30_000, &expected);
    }

    /// Of the registers' limits, and of the numbers next to them.
    #[test]
    fn the_lines_reach_every_register_and_its_limits() {
        let mut random = Random::new(2);
        let draw = |errors: &[u8], random: &mut Random| -> BTreeSet<(u8, i64)> {
            (0..30_000).map(|_| setting(&Errors::of(errors), random)).collect()
        };
        let (right, beyond, unknown) = (draw(&[], &mut random), draw(&[9], &mut random), draw(&[10], &mut random));
        for &(register, value) in &right {
            assert_eq!(writable(register.into(), value), Ok(()), "{value} to register {register}");
        }
        for (register, _, least, most) in REGISTERS {
            for (drawn, ends) in [(&right, [least, most]), (&beyond, [least - 1, most + 1])] {
                for value in ends.map(as_word) {
                    assert!(drawn.contains(&(register as u8, value)), "{value} to register {register}");
                }
            }
        }
        for (register, _) in unknown {
            assert_eq!(writable(register.into(), 0), Err(Refusal::Register), "register {register}");
        }
    }

    #[test]
    fn the_lines_reach_every_count_and_the_example() {
        let mut input = Vec::new();
        generate(30_000, 2, &[&AREA], &mut input).unwrap();
        let lines = String::from_utf8_lossy(&input).to_uppercase();
        let lines: BTreeSet<&str> = lines.lines().collect();
        for place in COUNTS_TO_TIMES {
            for word in COUNTED {
                let line = format!("PF ROW 03 {place} {word}");
                assert!(lines.contains(line.as_str()), "{line}");
            }
        }
        let example = hex(&frame(0x03, &examples::bytes(&examples::LIVE)));
        assert!(lines.iter().any(|line| line.starts_with("PF READ 03 ") && line.ends_with(&example)));
    }
}
