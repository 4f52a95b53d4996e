//! Tongzhu lines (docs/CONSOLE.md; 002; 01, "Tongzhu"): the examples of 002, every refusal, one to three errors at
//! once, and times that are none.

use super::lines::{hex, Draft};
use super::random::{Errors, Random};
use super::{Area, Sample};
use crate::checks::sum8;

pub const AREA: Area = Area { name: "tz", chosen, start: || Box::new(draft) };

const LISTED: [u8; 5] = [0x11, 0x12, 0x14, 0x15, 0x30];

/// The functions next to those that mean something, and some others.
const OTHERS: [u8; 12] = [0x01, 0x10, 0x13, 0x16, 0x17, 0x1C, 0x20, 0x22, 0x23, 0x31, 0x32, 0xFF];

fn draft(random: &mut Random) -> Draft {
    match random.below(10) {
        0..=5 => read(random),
        6..=7 => parse(random),
        _ => write(random),
    }
}

/// A reply, right or with some errors.
fn read(random: &mut Random) -> Draft {
    let errors = random.errors(&[1, 2, 4, 5, 6, 7, 8, 8, 9]);
    let mut asked = random.pick(&[0x11, 0x11, 0x12, 0x12, 0x12, 0x14, 0x15, 0x30, 0x30]);
    if errors.has(9) {
        asked = 0x30;
    }
    let mut function = asked;
    let mut message = match asked {
        0x11 => content(random, 21),
        0x12 => monitor3(errors.has(8) && random.one_in(2), random),
        0x14 => content(random, 4),
        0x15 => content(random, 2),
        _ if errors.has(9) => vec![random.pick(&[0x00, 0x03, 0x10, 0x81, 0xFF])],
        _ => vec![random.pick(&[1, 2])],
    };
    if random.one_in(8) {
        function = 0x00;
        message.clear();
    }
    if errors.has(8) && (function != 0x12 || random.one_in(4)) {
        let length = random.length_but(message.len());
        message.resize(length, random.byte());
    }
    if errors.has(7) {
        match random.below(4) {
            0 => function = random.pick(&LISTED),
            1 => function = random.pick(&OTHERS),
            2 => asked = random.pick(&OTHERS),
            _ => {
                asked = random.pick(&[0x00, 0x13, 0x16, 0x22, 0xFF]);
                function = asked;
            }
        }
    }
    Draft::of("tz read").byte(asked, random).hex(&framed(function, &message, &errors, random), random)
}

fn content(random: &mut Random, size: usize) -> Vec<u8> {
    (0..size)
        .map(|_| match random.below(6) {
            0 => random.pick(&[0x00, 0x7F, 0x80, 0xFF]),
            _ => random.byte(),
        })
        .collect()
}

/// The message of a reply to 12, with its counts within their limits or one of them beyond.
fn monitor3(beyond: bool, random: &mut Random) -> Vec<u8> {
    let mut cells = random.pick(&[1, 2, 4, 7, 8, 9, 16, 17, 24, 25, 31, 32]);
    let mut sensors = [0, 1].map(|_| random.pick(&[0, 0, 1, 2, 3, 4, 15, 16]));
    let mut balance = usize::div_ceil(cells, 8);
    if beyond {
        match random.below(6) {
            0 => cells = 0,
            1 => cells = 33,
            2 => sensors[0] = 17,
            3 => sensors[1] = 17,
            4 => balance = cells / 8,
            _ => balance += 1,
        }
        if cells == 0 || cells == 33 {
            balance = cells.div_ceil(8);
        }
    }
    let mut message = content(random, 6);
    message.push(cells as u8);
    message.extend(content(random, 2 * cells + balance));
    for count in sensors {
        message.push(count as u8);
        message.extend(content(random, count));
    }
    message.extend(content(random, 7));
    message
}

/// A frame with the errors of its mark, length, check and head, 1, 2, 4, 5 and 6, that it shall have.
fn framed(function: u8, message: &[u8], errors: &Errors, random: &mut Random) -> Vec<u8> {
    let mut frame = vec![0x7F, 0x10, 0x02, message.len() as u8 + 6, function];
    frame.extend_from_slice(message);
    let way = random.below(4);
    if errors.has(6) {
        match random.below(4) {
            0 => frame[1] = random.pick(&[0x00, 0x11, 0x02, 0xFF]),
            1 => frame[2] = random.pick(&[0x00, 0x01, 0x03, 0x10]),
            2 => frame.swap(1, 2),
            _ => frame[1] = random.byte_but(&[0x10]),
        }
    }
    if errors.has(4) && way < 2 {
        frame[3] = match random.below(4) {
            0 => frame[3].wrapping_add(1),
            1 => frame[3].wrapping_sub(1),
            2 => random.pick(&[0, 5, 6, 255]),
            _ => random.byte(),
        };
    }
    if errors.has(2) {
        frame[0] = random.pick(&[0x00, 0x7E, 0xFE, 0x80, 0x10, 0xFF]);
    }
    frame.push(sum8(&frame));
    let last = frame.len() - 1;
    if errors.has(5) {
        frame[last] = match random.below(4) {
            0 => !frame[last],
            1 => frame[last].wrapping_sub(1),
            2 => frame[last].wrapping_neg(),
            _ => frame[last] ^ 1 << random.below(8),
        };
    }
    if errors.has(4) && way >= 2 {
        match random.below(4) {
            0 => frame.push(0),
            1 => {
                frame.pop();
            }
            2 => frame.extend(vec![0; 256]),
            _ => frame.insert(last, 0),
        }
    }
    if errors.has(1) {
        frame.truncate(random.below(6));
    }
    frame
}

/// A time, or numbers that are none but close to one.
fn time(right: bool, random: &mut Random) -> [u8; 6] {
    let year = match random.below(2) {
        0 => random.pick(&[0, 4, 17, 23, 24, 96, 99]),
        _ => random.below(100) as u8,
    };
    let month = random.within(1, 12) as u8;
    let days = match month {
        2 if year % 4 == 0 => 29,
        2 => 28,
        4 | 6 | 9 | 11 => 30,
        _ => 31,
    };
    let day = match random.below(4) {
        0 => 1,
        1 | 2 => days,
        _ => random.within(1, days.into()) as u8,
    };
    let mut time = [
        year,
        month,
        day,
        random.pick(&[0, 9, 10, 19, 20, 23]),
        random.pick(&[0, 9, 10, 30, 59]),
        random.pick(&[0, 9, 10, 50, 59]),
    ];
    if !right {
        for _ in 0..random.pick(&[1, 1, 1, 2, 3]) {
            match random.below(8) {
                0 => time[0] = random.pick(&[100, 101, 124, 153, 255]),
                1 => time[1] = random.pick(&[0, 13, 20, 99, 255]),
                2 => time[2] = 0,
                3 | 4 => time[2] = days + random.pick(&[1, 1, 1, 10]),
                5 => time[3] = random.pick(&[24, 25, 60, 255]),
                6 => time[4] = random.pick(&[60, 61, 99, 255]),
                _ => time[5] = random.pick(&[60, 61, 99, 255]),
            }
        }
    }
    time
}

/// A request, right or with some errors.
fn parse(random: &mut Random) -> Draft {
    let errors = random.errors(&[1, 2, 4, 5, 6, 7, 8, 9, 9]);
    let mut function = random.pick(&[0x11, 0x12, 0x14, 0x15, 0x30, 0x30, 0x30, 0x30]);
    let mut message = Vec::new();
    if function == 0x30 {
        let by_time = errors.has(9) && random.one_in(2);
        let numbers = time(!by_time, random);
        message.extend(numbers.map(|number| (number / 10).wrapping_mul(16) | (number % 10)));
        if errors.has(9) && !by_time {
            let place = random.below(6);
            message[place] = match random.below(4) {
                0 => random.byte() | 0x0A,
                1 => random.byte() | 0xA0,
                2 => random.pick(&[0x0A, 0x1A, 0xA0, 0xFF]),
                _ => numbers[place] | 0x0A,
            };
        }
    }
    if errors.has(8) {
        let length = random.length_but(message.len());
        message.resize(length, 0x01);
    }
    if errors.has(7) {
        function = random.pick(&OTHERS);
        if random.one_in(4) {
            function = 0x00;
        }
    }
    Draft::of("tz parse").hex(&framed(function, &message, &errors, random), random)
}

fn write(random: &mut Random) -> Draft {
    let errors = random.errors(&[7, 8, 9, 9, 11]);
    if random.one_in(3) || errors.has(7) || errors.has(8) {
        let function = if errors.has(7) {
            random.pick(&[0x00, 0x13, 0x16, 0x22, 0x31, 0xFF])
        } else if errors.has(8) {
            0x30
        } else {
            random.pick(&LISTED[..4])
        };
        return Draft::of("tz write").number(random.room(6, errors.has(11)), random).word("ask").byte(function, random);
    }
    let mut draft = Draft::of("tz write").number(random.room(12, errors.has(11)), random).word("set_time");
    for number in time(!errors.has(9), random) {
        draft = draft.number(number.into(), random);
    }
    draft
}

/// A right frame.
fn frame(function: u8, message: &[u8]) -> Vec<u8> {
    let mut frame = vec![0x7F, 0x10, 0x02, message.len() as u8 + 6, function];
    frame.extend_from_slice(message);
    frame.push(sum8(&frame));
    frame
}

/// 002, 6.1.4.2 and 6.2.4.2.
const MONITOR3: &str = "7F10023B1201000000100010A60DEB0DC30DB90DC20DF60DEA0DE50D050EE70DE50DEC0D050EF40DE20DE40D\
                        0000021112011103007800C800C0E5";
const MONITOR2: &str = "7F10021B11010000001400451033101D151E1E0000C201F401C0B0";

fn chosen(sample: &mut Sample) {
    replies(sample);
    refused_replies(sample);
    requests(sample);
    writes(sample);
    no_calls(sample);
}

fn replies(sample: &mut Sample) {
    let read =
        |asked: u8, function: u8, message: &[u8]| format!("tz read {asked:02X} {}", hex(&frame(function, message)));
    sample.show("002, 6.1.4.2: monitoring 3", format!("tz read 12 {MONITOR3}"));
    sample.show("002, 6.2.4.2: monitoring 2; the remaining capacity is C2 01", format!("tz read 11 {MONITOR2}"));
    sample.show("002, 6.11.4.2: the time is set", "tz read 30 7F100207300137");
    sample.show("and is not", read(0x30, 0x30, &[2]));
    sample.show("Status and current", read(0x14, 0x14, &[1, 2, 4, 0x80]));
    sample.more(read(0x15, 0x15, &[0x10, 0x00]));
    sample.show("Current is signed", read(0x15, 0x15, &[0xFF, 0xFF]));
    sample.more(read(0x15, 0x15, &[0x00, 0x80]));
    sample.more(read(0x15, 0x15, &[0xFF, 0x7F]));
    let mut message = vec![0xFF; 21];
    sample.show("Monitoring 2 with the greatest numbers", read(0x11, 0x11, &message));
    message[12] = 0x80;
    message[13] = 0x7F;
    sample.show("Temperatures are signed bytes", read(0x11, 0x11, &message));
    sample.show("Monitoring 3 with one cell and no sensors", read(0x12, 0x12, &monitor(1, 0, 0)));
    sample.show("with eight, nine and 32 cells", read(0x12, 0x12, &monitor(8, 1, 2)));
    sample.more(read(0x12, 0x12, &monitor(9, 2, 1)));
    sample.more(read(0x12, 0x12, &monitor(32, 16, 16)));
    sample.show("Device errors", read(0x11, 0x00, &[]));
    for asked in &LISTED[1..] {
        sample.more(read(*asked, 0x00, &[]));
    }
}

/// A message of a reply to 12 with these counts.
fn monitor(cells: usize, cell_sensors: usize, mos_sensors: usize) -> Vec<u8> {
    let mut message = vec![0x01, 0x00, 0x00, 0x00, 0xF6, 0xFF, cells as u8];
    for cell in 0..cells {
        message.extend((3300 + cell as u16).to_le_bytes());
    }
    message.extend(vec![0xA5; cells.div_ceil(8)]);
    for count in [cell_sensors, mos_sensors] {
        message.push(count as u8);
        message.extend((0..count).map(|sensor| (sensor as u8).wrapping_sub(3)));
    }
    message.extend([0x03, 0x00, 0x78, 0x00, 0xC8, 0x00, 0xC0]);
    message
}

fn refused_replies(sample: &mut Sample) {
    let mut read = |comment: &str, asked: u8, input: &[u8]| {
        sample.show(comment, format!("tz read {asked:02X} {}", hex(input)));
    };
    let status = frame(0x14, &[1, 0, 0, 0]);
    // The frame with some bytes changed, its check made right again.
    let closed = |changes: &[(usize, u8)]| {
        let mut input = status.clone();
        for (place, byte) in changes {
            input[*place] = *byte;
        }
        let last = input.len() - 1;
        input[last] = sum8(&input[..last]);
        input
    };
    // The same with a wrong check.
    let open = |changes: &[(usize, u8)]| {
        let mut input = closed(changes);
        *input.last_mut().unwrap() ^= 0x10;
        input
    };
    read("Shorter than 6 bytes: 1", 0x14, &[]);
    for length in 1..6 {
        read("", 0x14, &status[..length]);
    }
    read("The first mark wrong: 2", 0x14, &closed(&[(0, 0x7E)]));
    read("The length wrong: 4", 0x14, &closed(&[(3, 9)]));
    read("", 0x14, &closed(&[(3, 11)]));
    read("", 0x14, &closed(&[(3, 0)]));
    read("", 0x14, &status[..9]);
    read("", 0x14, &[&status[..], &[0]].concat());
    read("", 0x14, &[&status[..], &[0; 256]].concat());
    read("The check wrong: 5", 0x14, &open(&[]));
    let mut complement = status.clone();
    complement[9] = complement[9].wrapping_sub(1);
    read("The plain complement of the sum: 5", 0x14, &complement);
    read("Another address: 6", 0x14, &closed(&[(1, 0x11)]));
    read("Another version: 6", 0x14, &closed(&[(2, 0x03)]));
    read("The reply to another function: 7", 0x15, &status);
    read("A function that is not listed: 7", 0x16, &frame(0x16, &[1, 0, 0, 0]));
    read("although the device reports an error", 0x22, &frame(0x00, &[]));
    read("also with more data", 0x22, &frame(0x00, &[0]));
    read("Function 00 is not listed: 7", 0x00, &frame(0x00, &[]));
    read("A device error with more data: 8", 0x14, &frame(0x00, &[0]));
    read("A byte too few: 8", 0x14, &frame(0x14, &[1, 0, 0]));
    read("a byte too many: 8", 0x14, &frame(0x14, &[1, 0, 0, 0, 0]));
    read("no byte: 8", 0x15, &frame(0x15, &[]));
    read("Monitoring 2 with 20 and 22 bytes: 8", 0x11, &frame(0x11, &[0; 20]));
    read("", 0x11, &frame(0x11, &[0; 22]));
    read("Monitoring 3 without a cell: 8", 0x12, &frame(0x12, &monitor(0, 0, 0)));
    read("with 33 cells: 8", 0x12, &frame(0x12, &monitor(33, 0, 0)));
    read("with 17 sensors: 8", 0x12, &frame(0x12, &monitor(4, 17, 0)));
    read("", 0x12, &frame(0x12, &monitor(4, 0, 17)));
    let mut more = monitor(8, 1, 1);
    more.insert(6 + 1 + 16, 0);
    read("with two balance bytes for eight cells: 8", 0x12, &frame(0x12, &more));
    let mut less = monitor(9, 1, 1);
    less.remove(6 + 1 + 18);
    read("with one for nine: 8", 0x12, &frame(0x12, &less));
    let whole = monitor(2, 1, 1);
    read("cut anywhere: 8", 0x12, &frame(0x12, &whole[..0]));
    for length in [3, 6, 7, 10, 12, 13, 14, 15, 16, 22] {
        read("", 0x12, &frame(0x12, &whole[..length]));
    }
    read("A result that is none: 9", 0x30, &frame(0x30, &[0]));
    read("", 0x30, &frame(0x30, &[3]));
    read("and of the wrong length: 8", 0x30, &frame(0x30, &[3, 3]));
    read("", 0x30, &frame(0x30, &[]));
    read("Mark and length wrong: 2", 0x14, &closed(&[(0, 0), (3, 0)]));
    read("Length and check wrong: 4", 0x14, &open(&[(3, 0)]));
    read("Check and address wrong: 5", 0x14, &open(&[(1, 0)]));
    read("Version and function wrong: 6", 0x15, &closed(&[(2, 1)]));
    read("Function and shape wrong: 7", 0x11, &status);
    read("Everything wrong: 2", 0x16, &open(&[(0, 0), (1, 0), (2, 0), (3, 0)]));
    read("Everything but the mark: 4", 0x16, &open(&[(1, 0), (2, 0), (3, 0)]));
    read("Everything but mark and length: 5", 0x16, &open(&[(1, 0), (2, 0)]));
    read("A device error of another version: 6", 0x14, &{
        let mut input = vec![0x7F, 0x10, 0x01, 0x06, 0x00];
        input.push(sum8(&input));
        input
    });
}

fn requests(sample: &mut Sample) {
    sample.show("002, 6.1.4.1 and 6.2.4.1: requests 12 and 11", "tz parse 7F1002061257");
    sample.more("tz parse 7F1002061158");
    sample.show("002, 6.11.4.1: the time is set to 2017-05-12 10:30:50", "tz parse 7F10020C3017051210305075");
    sample.show("002: functions that are not listed: 7", "tz parse 7F1002062247");
    for line in [
        "tz parse 7F10020C3201007800C800F0",
        "tz parse 7F10020841808026",
        "tz parse 7F10020841C04026",
        "tz parse 7F1002062049",
        "tz parse 7F1002062148",
    ] {
        sample.more(line);
    }
    let mut parse = |comment: &str, input: &[u8]| {
        sample.show(comment, format!("tz parse {}", hex(input)));
    };
    parse("Requests 14 and 15", &frame(0x14, &[]));
    parse("and the other", &frame(0x15, &[]));
    parse("Function 00 is no request: 7", &frame(0x00, &[]));
    parse("A reply is no request: 8", &frame(0x14, &[0; 4]));
    parse("A time of five bytes: 8", &frame(0x30, &[0x17, 5, 0x12, 0x10, 0x30]));
    parse("of seven: 8", &frame(0x30, &[0x17, 5, 0x12, 0x10, 0x30, 0x50, 0]));
    parse("of none: 8", &frame(0x30, &[]));
    for (comment, time) in [
        ("29 February of year 24 (P10)", [0x24, 0x02, 0x29, 0x23, 0x59, 0x59]),
        ("but not of year 23: 9 (P10)", [0x23, 0x02, 0x29, 0x23, 0x59, 0x59]),
        ("29 February of year 00", [0x00, 0x02, 0x29, 0, 0, 0]),
        ("30 February: 9", [0x24, 0x02, 0x30, 0, 0, 0]),
        ("31 December of year 99", [0x99, 0x12, 0x31, 0x23, 0x59, 0x59]),
        ("31 April: 9", [0x24, 0x04, 0x31, 0, 0, 0]),
        ("Month 00: 9", [0x24, 0x00, 0x01, 0, 0, 0]),
        ("Month 13: 9", [0x24, 0x13, 0x01, 0, 0, 0]),
        ("Day 00: 9", [0x24, 0x01, 0x00, 0, 0, 0]),
        ("Hour 24: 9", [0x24, 0x01, 0x01, 0x24, 0, 0]),
        ("Minute 60: 9", [0x24, 0x01, 0x01, 0, 0x60, 0]),
        ("Second 60: 9", [0x24, 0x01, 0x01, 0, 0, 0x60]),
        ("Month 0A is no BCD, though it would be 10: 9", [0x24, 0x0A, 0x01, 0, 0, 0]),
        ("Second 1F: 9", [0x24, 0x01, 0x01, 0, 0, 0x1F]),
        ("Year A0: 9", [0xA0, 0x01, 0x01, 0, 0, 0]),
        ("All FF: 9", [0xFF; 6]),
    ] {
        parse(comment, &frame(0x30, &time));
    }
}

fn writes(sample: &mut Sample) {
    sample.show("002: the requests, written", "tz write 6 ask 12");
    for line in
        ["tz write 6 ask 11", "tz write 8192 ask 14", "tz write 7 ask 15", "tz write 12 set_time 17 5 12 10 30 50"]
    {
        sample.more(line);
    }
    sample.show("One byte of room too little: 11", "tz write 5 ask 12");
    sample.more("tz write 11 set_time 17 5 12 10 30 50");
    sample.more("tz write 0 ask 15");
    sample.show("Setting the time has no request without values: 8, before 11", "tz write 6 ask 30");
    sample.more("tz write 0 ask 30");
    sample.show("A function that is not listed: 7, before 11", "tz write 6 ask 13");
    for line in ["tz write 0 ask 00", "tz write 0 ask 22", "tz write 8192 ask FF"] {
        sample.more(line);
    }
    sample.show("Times that are none: 9, before 11", "tz write 12 set_time 23 2 29 0 0 0");
    for time in [
        "100 1 1 0 0 0",
        "24 0 1 0 0 0",
        "24 13 1 0 0 0",
        "24 1 0 0 0 0",
        "24 1 32 0 0 0",
        "24 4 31 0 0 0",
        "24 2 30 0 0 0",
        "24 1 1 24 0 0",
        "24 1 1 0 60 0",
        "24 1 1 0 0 60",
        "255 255 255 255 255 255",
        "0 0 0 0 0 0",
    ] {
        sample.more(format!("tz write 12 set_time {time}"));
        sample.more(format!("tz write 0 set_time {time}"));
    }
    sample
        .show("The last day of every month, and the day after, which is refused", "tz write 12 set_time 24 1 31 0 0 0");
    for (month, days) in [31, 28, 31, 30, 31, 30, 31, 31, 30, 31, 30, 31].iter().enumerate() {
        for day in [*days, days + 1] {
            sample.more(format!("tz write 12 set_time 23 {} {day} 0 0 0", month + 1));
        }
    }
    sample.show("The first and the last second, and leap days", "tz write 12 set_time 0 1 1 0 0 0");
    for time in ["99 12 31 23 59 59", "0 2 29 0 0 0", "24 2 29 9 9 9", "96 2 29 19 19 19"] {
        sample.more(format!("tz write 12 set_time {time}"));
    }
}

fn no_calls(sample: &mut Sample) {
    sample.show("No calls: unknown words", "tz show 11 -");
    for line in ["TZ read 11 -", "tz find -", "tz write 6 set 1 2", "tz write x askk 11"] {
        sample.more(line);
    }
    sample.show("Too few words", "tz");
    for line in ["tz read 11", "tz parse", "tz write 6", "tz write 6 ask", "tz write 12 set_time 17 5 12 10 30"] {
        sample.more(line);
    }
    sample.show("Too many words", "tz read 11 - -");
    for line in ["tz parse - -", "tz write 6 ask 11 12", "tz write 12 set_time 17 5 12 10 30 50 0"] {
        sample.more(line);
    }
    sample.show("Parameters from left to right", "tz read 111 0");
    for line in [
        "tz read 11 0",
        "tz read - -",
        "tz read 11 -",
        "tz write 8193 ask 1",
        "tz write - ask 1",
        "tz write 6 ask 1",
        "tz write 12 set_time 256 x 12 10 30 50",
        "tz write 12 set_time x 256 12 10 30 50",
        "tz write 12 set_time 17 5 12 10 30 256",
        "tz write 12 set_time 17 5 12 10 30 -1",
        "tz write 12 set_time -0 01 012 00 00 -00",
        "tz write 12 set_time 17 5 12 10 30 +50",
    ] {
        sample.more(line);
    }
}

#[cfg(test)]
mod tests {
    use crate::generator::tests::assert_kinds;

    #[test]
    fn the_lines_reach_every_answer() {
        let mut expected: Vec<String> = [
            "? line too long",
            "? not a number",
            "? not hex",
            "? number out of range",
            "? too few words",
            "? too many words",
            "? unknown word",
            "tz read: ok monitor2",
            "tz read: ok monitor3",
            "tz read: ok status",
            "tz read: ok current_100ma",
            "tz read: ok done",
            "tz read: ok not_done",
            "tz read: ok device_error",
            "tz parse: ok ask",
            "tz parse: ok set_time",
            "tz write: ok frame",
        ]
        .map(String::from)
        .to_vec();
        for (call, refusals) in
            [("read", &[1, 2, 4, 5, 6, 7, 8, 9][..]), ("parse", &[1, 2, 4, 5, 6, 7, 8, 9]), ("write", &[7, 8, 9, 11])]
        {
            expected.extend(refusals.iter().map(|n| format!("tz {call}: refused {n}")));
        }
        let expected: Vec<&str> = expected.iter().map(String::as_str).collect();
        assert_kinds("tz", 30_000, &expected);
    }
}
