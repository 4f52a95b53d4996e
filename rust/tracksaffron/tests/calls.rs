//! Every call, with answers that the documents give and with lengths that are wrong.

use tracksaffron::restore::{Job, Outcome, Step};
use tracksaffron::{old58, pace, pathfinder, sums, tongzhu, Refusal};

const SET: [u8; 11] = [0xFE, 0x06, 0x0E, 0x03, 0x38, 0x00, 0x00, 0x00, 0x66, 0x7E, 0xFD];

fn framed(opcode: u8, data: &[u8]) -> Vec<u8> {
    let covered = [&[data.len() as u8 + 1, opcode], data].concat();
    [&[0xFE], &covered[..], &sums::crc16(&covered).to_be_bytes(), &[0xFD]].concat()
}

fn pace_reply(info: &str) -> Vec<u8> {
    let count = info.len();
    let digits = (count >> 8) + (count >> 4 & 15) + (count & 15);
    let covered = format!("25014600{:X}{count:03X}{info}", (16 - digits % 16) % 16);
    let check = sums::close65536(covered.as_bytes());
    format!("~{covered}{check:04X}\r").into_bytes()
}

#[test]
fn refusals() {
    for (place, refusal) in Refusal::ALL.into_iter().enumerate() {
        assert_eq!(usize::from(refusal.number()), place + 1);
    }
    assert_eq!(Refusal::Checksum.to_string(), "refused 5: the checksum is wrong");
}

#[test]
fn sums_of_bytes() {
    assert_eq!((sums::crc16(&[0x01, 0x05]), sums::crc16(&[])), (0x6394, 0));
    assert_eq!((sums::close256(&[0x7F, 0x10, 0x02, 0x06, 0x12]), sums::close256(&[])), (0x57, 0));
    assert_eq!((sums::close65536(b"25014642E00201"), sums::close65536(&[])), (0xFD30, 0));
}

#[test]
fn pathfinder_calls() {
    let mut out = [7; 16];
    assert_eq!(pathfinder::write(3, 56, &mut out[..10]), Err(Refusal::Room));
    assert_eq!(pathfinder::write(3, 128, &mut out), Err(Refusal::Range));
    assert_eq!(pathfinder::write(47, 0, &mut []), Err(Refusal::Register));
    assert_eq!(pathfinder::write(52, 0, &mut []), Err(Refusal::Register));
    assert_eq!(pathfinder::write(49, -1, &mut out), Err(Refusal::Range));
    assert_eq!(out, [7; 16]);
    assert_eq!(pathfinder::write(3, 56, &mut out), Ok(11));
    assert_eq!((&out[..11], &out[11..]), (&SET[..], &[7; 5][..]));
    assert_eq!(pathfinder::ask(5, &mut out), Ok(6));
    assert_eq!(out[..6], [0xFE, 0x01, 0x05, 0x63, 0x94, 0xFD]);
    assert_eq!(pathfinder::ask(5, &mut out[..5]), Err(Refusal::Room));

    let (mut row, mut name) = ([1; 3], [2; 14]);
    let reply = framed(1, &[1, 0, 0, 0, 2, 0, 0, 0, 0xEC, 0xFF, 0xFF, 0xFF]);
    assert_eq!(pathfinder::read(1, &reply, &mut row[..2], &mut name), Err(Refusal::Room));
    assert_eq!(pathfinder::read(1, &[], &mut [], &mut []), Err(Refusal::Short));
    assert_eq!(row, [1; 3]);
    assert_eq!(pathfinder::read(1, &reply, &mut row, &mut name), Ok(pathfinder::Reply::Words(3)));
    assert_eq!(row, [1, 2, -20]);
    let named = framed(5, b"PATHFINDER BMS");
    assert_eq!(pathfinder::read(5, &named, &mut row, &mut name), Ok(pathfinder::Reply::Name(14)));
    assert_eq!(&name, b"PATHFINDER BMS");
    assert_eq!(pathfinder::read(0x0E, &framed(0x24, &[]), &mut [], &mut []), Ok(pathfinder::Reply::Failure(0x24)));
    assert_eq!(pathfinder::read(0x0E, &framed(0x0E, &[]), &mut [], &mut []), Ok(pathfinder::Reply::Written));

    assert_eq!(pathfinder::row(1, 0, -20), Ok(pathfinder::Row::Number(-20)));
    assert_eq!(pathfinder::row(3, 0, 5000), Ok(pathfinder::Row::TenMillivolts(5000)));
    assert_eq!(pathfinder::row(2, 43, 7), Ok(pathfinder::Row::Truth(true)));
    assert_eq!(pathfinder::row(3, 10, 255), Ok(pathfinder::Row::Missing));
    for count in 32..=45 {
        assert_eq!(pathfinder::row(3, count, 65535), Ok(pathfinder::Row::Number(65535)));
    }
    for (row, word) in [(31, i32::MAX), (46, 255), (47, 65535), (48, 65535)] {
        assert_eq!(pathfinder::row(3, row, word), Ok(pathfinder::Row::Missing));
    }
    assert_eq!(pathfinder::millivolts(-5000), -50000);
    assert_eq!(pathfinder::row(5, 0, 0), Err(Refusal::Request));
    assert_eq!(pathfinder::row(1, 3, 0), Err(Refusal::Shape));

    let log = [b"log \xFE text ", &SET[..], b" more"].concat();
    assert_eq!(pathfinder::find(&log), Some(11..22));
    assert_eq!(pathfinder::find(&log[..21]), None);
    assert_eq!(pathfinder::find(&[]), None);

    assert_eq!(pathfinder::parse(&SET), Ok(pathfinder::Request::Set { register: 3, value: 56 }));
    assert_eq!(pathfinder::parse(&framed(2, &[])), Ok(pathfinder::Request::Ask(2)));
    assert_eq!(pathfinder::parse(&SET[..10]), Err(Refusal::Length));
    assert_eq!(pathfinder::parse(&framed(0x0E, &[47, 0, 0, 0, 0])), Err(Refusal::Register));
    let capacity = pathfinder::Request::Set { register: 42, value: -1 };
    assert_eq!(pathfinder::parse(&framed(0x0E, &[42, 255, 255, 255, 255])), Ok(capacity));
}

#[test]
fn tongzhu_calls() {
    let two = [
        0x7F, 0x10, 0x02, 0x1B, 0x11, 0x01, 0x00, 0x00, 0x00, 0x14, 0x00, 0x45, 0x10, 0x33, 0x10, 0x1D, 0x15, 0x1E,
        0x1E, 0x00, 0x00, 0xC2, 0x01, 0xF4, 0x01, 0xC0, 0xB0,
    ];
    let mut row = [-1; tongzhu::monitor2::NUMBERS];
    assert_eq!(tongzhu::read(0x11, &two, &mut row[..13]), Err(Refusal::Room));
    assert_eq!(tongzhu::read(0x11, &two[..26], &mut row), Err(Refusal::Length));
    assert_eq!(tongzhu::read(0x11, &[], &mut []), Err(Refusal::Short));
    assert_eq!(row, [-1; 14]);
    assert_eq!(tongzhu::read(0x11, &two, &mut row), Ok(tongzhu::Reply::Monitor2));
    assert_eq!(row, [1, 0, 0, 0, 20, 4165, 4147, 5405, 30, 30, 0, 450, 500, 192]);
    let error = [0x7F, 0x10, 0x02, 0x06, 0x00, 0x69];
    assert_eq!(tongzhu::read(0x12, &error, &mut []), Ok(tongzhu::Reply::DeviceError));

    let mut out = [0; 12];
    let time = tongzhu::Time { year: 17, month: 5, day: 12, hour: 10, minute: 30, second: 50 };
    assert_eq!(tongzhu::set_time(time, &mut out[..11]), Err(Refusal::Room));
    assert_eq!(tongzhu::set_time(tongzhu::Time { month: 13, ..time }, &mut out), Err(Refusal::Range));
    assert_eq!(tongzhu::set_time(time, &mut out), Ok(12));
    assert_eq!(out, [0x7F, 0x10, 0x02, 0x0C, 0x30, 0x17, 0x05, 0x12, 0x10, 0x30, 0x50, 0x75]);
    assert_eq!(tongzhu::ask(0x12, &mut out[..5]), Err(Refusal::Room));
    assert_eq!(tongzhu::parse(&out), Ok(tongzhu::Request::SetTime(time)));
    assert_eq!(tongzhu::ask(0x12, &mut out), Ok(6));
    assert_eq!(tongzhu::parse(&out[..6]), Ok(tongzhu::Request::Ask(0x12)));
    assert_eq!(tongzhu::parse(&out[..5]), Err(Refusal::Short));

    let mut framed = |function: u8, message: &[u8]| {
        let covered = [&[0x7F, 0x10, 0x02, message.len() as u8 + 6, function], message].concat();
        let frame = [&covered[..], &[sums::close256(&covered)]].concat();
        tongzhu::read(function, &frame, &mut row)
    };
    assert_eq!(framed(0x14, &[1, 2, 3, 4]), Ok(tongzhu::Reply::Status));
    assert_eq!(framed(0x15, &[0xEC, 0xFF]), Ok(tongzhu::Reply::Current));
    assert_eq!(framed(0x30, &[1]), Ok(tongzhu::Reply::Done));
    assert_eq!(framed(0x30, &[2]), Ok(tongzhu::Reply::NotDone));
    assert_eq!(row[..4], [-20, 2, 3, 4]);
}

#[test]
fn pace_calls() {
    let (mut out, mut row, mut text) = ([0; 40], [-1; pace::warnings::NUMBERS], [0; 40]);
    assert_eq!(pace::ask(1, 0x42, &mut out[..19]), Err(Refusal::Room));
    assert_eq!(pace::ask(1, 0x42, &mut out), Ok(20));
    assert_eq!(&out[..20], b"~25014642E00201FD30\r");
    assert_eq!(pace::parse(&out[..20]), Ok((1, pace::Request::Ask(0x42))));
    assert_eq!(pace::parse(&out[..19]), Err(Refusal::LastMark));
    assert_eq!(pace::cell_overvoltage(1, 3600, 3700, 3500, 20, &mut out), Ok(34));
    let limits = pace::Request::CellOvervoltage { alarm_mv: 3600, protect_mv: 3700, release_mv: 3500, delay_100ms: 20 };
    assert_eq!(pace::parse(&out[..34]), Ok((1, limits)));
    assert_eq!(pace::cell_overvoltage(1, 3600, 3700, 3500, 20, &mut out[..33]), Err(Refusal::Room));
    assert_eq!(pace::slow_discharge(1, 100, 105, 10, &mut out), Ok(30));
    assert_eq!(&out[13..25], b"01006400690A");
    let limits = pace::Request::SlowDischarge { alarm_a: 100, protect_a: 105, delay_100ms: 10 };
    assert_eq!(pace::parse(&out[..30]), Ok((1, limits)));
    assert_eq!(pace::slow_discharge(1, 151, 105, 10, &mut []), Err(Refusal::Range));

    let limits = pace_reply("01FF9CFF970A");
    assert_eq!(pace::read(1, 0xDB, &limits, &mut row[..2], &mut []), Err(Refusal::Room));
    assert_eq!(pace::read(2, 0xDB, &limits, &mut row, &mut []), Err(Refusal::Address));
    assert_eq!(pace::read(1, 0xDB, &[], &mut [], &mut []), Err(Refusal::Short));
    assert_eq!(row, [-1; 38]);
    assert_eq!(pace::read(1, 0xDB, &limits, &mut row, &mut []), Ok(pace::Reply::SlowDischarge));
    assert_eq!(row[..3], [100, 105, 10]);
    let analog = pace_reply("0001020D480D49010B9BFF9C1A9003E803138800021388");
    assert_eq!(pace::read(1, 0x42, &analog, &mut row, &mut []), Ok(pace::Reply::Analog));
    assert_eq!(row[pace::analog::CELLS_MV..][..3], [3400, 3401, 0]);
    assert_eq!((row[pace::analog::TEMPERATURES_DC], row[pace::analog::CURRENT_10MA]), (241, -100));
    let status = pace_reply("0001010701020102030405060708090A0B0C");
    assert_eq!(pace::read(1, 0x44, &status, &mut row, &mut []), Ok(pace::Reply::Warnings));
    assert_eq!((row[pace::warnings::CELLS], row[pace::warnings::WARNING2]), (7, 12));
    let serial = pace_reply(&"41".repeat(40));
    assert_eq!(pace::read(1, 0xC2, &serial, &mut [], &mut text[..39]), Err(Refusal::Room));
    assert_eq!(pace::read(1, 0xC2, &serial, &mut [], &mut text), Ok(pace::Reply::Serial(40)));
    assert_eq!(text, [b'A'; 40]);
    let hardware = pace_reply(&"42".repeat(20));
    assert_eq!(pace::read(1, 0xC1, &hardware, &mut [], &mut text), Ok(pace::Reply::Hardware));
    assert_eq!((text[19], text[20]), (b'B', b'A'));
    let cells = pace_reply("010E100E740DAC14");
    assert_eq!(pace::read(1, 0xD1, &cells, &mut row, &mut []), Ok(pace::Reply::CellOvervoltage));
    assert_eq!(row[..4], [3600, 3700, 3500, 20]);
    assert_eq!(pace::read(1, 0xD0, &pace_reply(""), &mut [], &mut []), Ok(pace::Reply::Accepted));
    let failed = b"~25014609E0000000FDA8\r";
    assert_eq!(pace::read(1, 0xD0, failed, &mut [], &mut []), Err(Refusal::Length));
}

#[test]
fn old58_calls() {
    let mut record = [0; 58];
    record[..12].copy_from_slice(b"\x00\x0A\x00+\x01\x00-\x01\x00X\x00\x00");
    record[57] = record[..57].iter().fold(0u8, |sum, &b| sum.wrapping_add(b));
    let mut row = [-1; old58::record::NUMBERS];
    assert_eq!(old58::read(&record, &mut row[..31]), Err(Refusal::Room));
    assert_eq!(old58::read(&record[..57], &mut row), Err(Refusal::Short));
    assert_eq!(old58::read(&[0; 59], &mut row), Err(Refusal::Length));
    assert_eq!(row, [-1; 32]);
    assert_eq!(old58::read(&record, &mut row), Ok(()));
    assert_eq!(row[..7], [12800, 1, 32000, 1, -32000, 0, 0]);
}

/// The settings with some of them changed.
fn with(mut settings: [i32; 50], changes: &[(usize, i32)]) -> [i32; 50] {
    for &(setting, value) in changes {
        settings[setting] = value;
    }
    settings
}

#[test]
fn restore_calls() {
    // The example pack of 000, but for 21, 26, 31 and 32, which are in range here.
    let present = [
        3100, 20, 4, 55, 50, 2, 0, 5, 2, 60, 55, 2, -20, -15, 2, 72, 2, 301, 49, 2, 301, 62, 88, -170, 2, 15, 100, 88,
        80, 65, 2, 14, 1, 30, 1000, 1, -1500, 1, 4500, 0, 1000, 0, 229995, 1, 1, 1, 1, 3000, 50, 10000,
    ];
    let mut wanted = present;
    (wanted[3], wanted[4]) = (45, 40);
    assert_eq!(Job::open(&present[..49], &wanted), Err(Refusal::Shape));
    assert_eq!(Job::open(&present, &wanted[..49]), Err(Refusal::Shape));
    assert_eq!(Job::open(&present, &with(wanted, &[(2, 17)])), Err(Refusal::Range));
    assert_eq!(Job::open(&present, &with(wanted, &[(2, 17), (48, 51)])), Err(Refusal::Register));
    assert_eq!(Job::open(&with(present, &[(43, 2)]), &with(wanted, &[(48, 51)])), Err(Refusal::Shape));
    let mut job = Job::open(&present, &with(present, &[(28, 90), (29, 85), (42, -1)])).unwrap();
    for register in [28, 29, 42] {
        let mut out = [0; 11];
        assert_eq!((job.next(&mut out), out[3]), (Ok(Step::Frame(11)), register));
        assert_eq!(job.reply(&framed(0x0E, &[])), Ok(Outcome::Written));
    }
    let mut job = Job::open(&present, &wanted).unwrap();
    let (mut out, written) = ([0; 11], framed(0x0E, &[]));
    assert_eq!(job.left(), Ok(2));
    assert_eq!(job.reply(&written), Err(Refusal::Turn));
    assert_eq!(job.next(&mut out[..10]), Err(Refusal::Room));
    for register in [4, 3] {
        assert_eq!(job.next(&mut out), Ok(Step::Frame(11)));
        assert_eq!((out[3], i32::from(out[4])), (register, wanted[usize::from(register)]));
        assert_eq!(job.reply(&[]), Err(Refusal::Short));
        assert_eq!(job.reply(&written), Ok(Outcome::Written));
    }
    assert_eq!((job.next(&mut out), job.left()), (Ok(Step::Done), Ok(0)));

    let mut job = Job::open(&present, &wanted).unwrap();
    assert_eq!(job.next(&mut out), Ok(Step::Frame(11)));
    for other in [3, 0, 47, 49, 50, 255] {
        let mut lost = job.clone();
        lost.0[401] = other;
        assert_eq!((lost.next(&mut out), lost.left()), (Err(Refusal::Shape), Err(Refusal::Shape)));
        assert_eq!(lost.reply(&written), Err(Refusal::Shape));
    }
    assert_eq!(job.reply(&framed(0x24, &[])), Ok(Outcome::Failure(0x24)));
    assert_eq!(job.next(&mut out), Err(Refusal::Turn));
    job.0[400] = 3;
    assert_eq!((job.next(&mut out), job.left()), (Err(Refusal::Shape), Err(Refusal::Shape)));
}
