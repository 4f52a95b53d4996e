//! Times the library's calls against plain Rust that does the same, in one run: a line for each measure.
//! See docs/PERFORMANCE.md for what is measured and how to repeat it.

mod measure;
mod ours;
mod plain;

use measure::{bytes, compare};
use std::cell::RefCell;
use std::hint::black_box;

fn main() {
    checksums();
    pathfinder();
    tongzhu();
    pace();
    old58();
    restore();
}

fn checksums() {
    for size in [8, 256, 65_536] {
        let input = bytes(size, 7);
        assert_eq!(ours::crc16(&input), plain::crc16(&input));
        compare(
            &format!("crc16 of {size} bytes"),
            size,
            || plain::crc16(black_box(&input)),
            || ours::crc16(black_box(&input)),
        );
    }
}

fn pathfinder() {
    let reply = framed(0x02, &bytes(200, 3));
    let (mut one, mut other, mut name) = ([0i32; 50], [0i32; 50], [0u8; 1]);
    assert_eq!(plain::pf_read(0x02, &reply, &mut one), Some(50));
    assert_eq!(ours::pf_read(0x02, &reply, &mut other, &mut name), (1 << 32) + 50);
    assert_eq!(one, other);
    let (row, row2, name) = (RefCell::new(one), RefCell::new(other), RefCell::new(name));
    compare(
        "Pathfinder reply 02 decoded",
        reply.len(),
        || plain::pf_read(0x02, black_box(&reply), &mut *row.borrow_mut()),
        || ours::pf_read(0x02, black_box(&reply), &mut *row2.borrow_mut(), &mut *name.borrow_mut()),
    );

    let (frame, frame2) = (RefCell::new([0u8; 16]), RefCell::new([0u8; 16]));
    assert_eq!(plain::pf_write(3, 56, &mut *frame.borrow_mut()), Some(11));
    assert_eq!(ours::pf_write(3, 56, &mut *frame2.borrow_mut()), (1 << 32) + 11);
    assert_eq!(frame, frame2);
    compare(
        "Pathfinder request written",
        11,
        || plain::pf_write(black_box(3), black_box(56), &mut *frame.borrow_mut()),
        || ours::pf_write(black_box(3), black_box(56), &mut *frame2.borrow_mut()),
    );

    let text: Vec<u8> = bytes(65_536, 11).iter().map(|b| 32 + b % 95).collect();
    let log = [&text[reply.len()..], &reply].concat();
    assert_eq!(plain::pf_find(&log), ours::pf_find(&log));
    compare(
        "Pathfinder search, 64 KiB of log text with one frame at its end",
        log.len(),
        || plain::pf_find(black_box(&log)),
        || ours::pf_find(black_box(&log)),
    );

    // The longest look at each place: a start mark, the longest length and, at every such end, an end mark.
    let marks: Vec<u8> = (0..65_536).map(|i| if i % 2 == 0 { 0xFE } else { 0xFD }).collect();
    let starts = vec![0xFE; 65_536];
    for (name, input) in [("all FE", starts), ("FE and FD by turns", marks)] {
        assert_eq!(plain::pf_find(&input), ours::pf_find(&input));
        compare(
            &format!("Pathfinder search, 64 KiB of {name}"),
            input.len(),
            || plain::pf_find(black_box(&input)),
            || ours::pf_find(black_box(&input)),
        );
    }
}

fn tongzhu() {
    // Monitor 3 with 32 cells and so many sensors and MOSFET sensors: none, those of the example of 6.1.4.2, some more, all.
    for (sensors, mosfets) in [(0, 0), (2, 1), (4, 2), (8, 4), (16, 16)] {
        let reply = monitor3(32, sensors, mosfets);
        let (row, row2) = (RefCell::new([1i32; 80]), RefCell::new([2i32; 80]));
        assert_eq!(plain::tz_read(0x12, &reply, &mut *row.borrow_mut()), Ok(plain::TzReply::Monitor3(80)));
        assert_eq!(ours::tz_read(0x12, &reply, &mut *row2.borrow_mut()), (2 << 32) + 80);
        assert_eq!(row, row2);
        compare(
            &format!("Tongzhu monitor 3 decoded, 32 cells, {sensors} and {mosfets} sensors"),
            reply.len(),
            || plain::tz_read(0x12, black_box(&reply), &mut *row.borrow_mut()),
            || ours::tz_read(0x12, black_box(&reply), &mut *row2.borrow_mut()),
        );
    }
}

/// The reply to function 12 with so many cells, sensors and MOSFET sensors.
fn monitor3(cells: usize, sensors: usize, mosfets: usize) -> Vec<u8> {
    let fixed = bytes(7, 5);
    let listed = bytes(2 * cells + cells.div_ceil(8), 13);
    let temperatures = [&[sensors as u8], &bytes(sensors, 17)[..], &[mosfets as u8], &bytes(mosfets, 19)].concat();
    let payload = [&fixed[..6], &[cells as u8], &listed, &temperatures, &fixed].concat();
    let mut reply = [&[0x7F, 0x10, 0x02, payload.len() as u8 + 6, 0x12], &payload[..]].concat();
    reply.push(reply.iter().fold(0u8, |sum, &b| sum.wrapping_sub(b)));
    reply
}

fn pace() {
    // Analog information with 16 cells and 6 temperatures.
    let info = [&[0, 1, 16], &bytes(32, 29)[..], &[6], &bytes(12, 31), &bytes(6, 37), &[3], &bytes(6, 41)].concat();
    let hex = |b: &[u8]| b.iter().map(|b| format!("{b:02X}")).collect::<String>();
    let count = 2 * info.len() as u16;
    let digits = (count >> 8) + (count >> 4 & 15) + (count & 15);
    let length = (((16 - digits % 16) % 16) << 12) | count;
    let covered = format!("25014600{length:04X}{}", hex(&info));
    let check = covered.bytes().fold(0u16, |sum, c| sum.wrapping_sub(u16::from(c)));
    let reply = format!("~{covered}{check:04X}\r").into_bytes();
    let (row, row2, text) = (RefCell::new([1i32; 32]), RefCell::new([2i32; 32]), RefCell::new([0u8; 0]));
    assert_eq!(plain::pace_read(1, 0x42, &reply, &mut *row.borrow_mut()), Ok(32));
    assert_eq!(ours::pace_read(1, 0x42, &reply, &mut *row2.borrow_mut(), &mut *text.borrow_mut()), (1 << 32) + 32);
    assert_eq!(row, row2);
    compare(
        "PACE analog reply decoded, 16 cells",
        reply.len(),
        || plain::pace_read(1, 0x42, black_box(&reply), &mut *row.borrow_mut()),
        || ours::pace_read(1, 0x42, black_box(&reply), &mut *row2.borrow_mut(), &mut *text.borrow_mut()),
    );
}

fn old58() {
    let mut record = bytes(58, 23);
    (record[3], record[6], record[9], record[47], record[48]) = (b'+', b'-', b'X', 7, 45);
    record[57] = record[..57].iter().fold(0u8, |sum, &b| sum.wrapping_add(b));
    let (row, row2) = (RefCell::new([1i32; 32]), RefCell::new([2i32; 32]));
    assert_eq!(plain::old_read(&record, &mut *row.borrow_mut()), Ok(32));
    assert_eq!(ours::old_read(&record, &mut *row2.borrow_mut()), (1 << 32) + 32);
    assert_eq!(row, row2);
    compare(
        "58-byte record decoded",
        record.len(),
        || plain::old_read(black_box(&record), &mut *row.borrow_mut()),
        || ours::old_read(black_box(&record), &mut *row2.borrow_mut()),
    );
}

/// The words of a pack. Each may be one more.
const SETTINGS: [i32; plain::WORDS] = [
    3100, 20, 4, 55, 50, 2, 0, 5, 2, 60, 55, 2, -20, -15, 2, 72, 3, 300, 49, 4, 300, 20, 10, -100, 10, 30, 40, 10, 90,
    80, 2, 5, 5, 60, 3000, 5, -3000, 5, 3900, 5, 2000, 5, 100_000, 0, 0, 0, 0, 5000, 80, 60_000,
];

fn restore() {
    // All settings differ, fixed ones too, as no opening leaves it; or the last that is written alone, which takes the longest to find.
    let last = plain::WRITABLE - 1;
    for (differ, what) in [(0..plain::WORDS, "50 settings differ"), (last..last + 1, "1 setting differs, the last")] {
        let mut wanted = SETTINGS;
        wanted[differ.clone()].iter_mut().for_each(|value| *value += 1);
        let mut opened = [0; plain::JOB];
        let words = SETTINGS.iter().chain(&wanted).flat_map(|word| word.to_le_bytes());
        opened.iter_mut().zip(words).for_each(|(place, byte)| *place = byte);
        let (job, job2) = (RefCell::new(opened), RefCell::new(opened));
        let (frame, frame2) = (RefCell::new([0u8; 16]), RefCell::new([0u8; 16]));
        // Ready again before each call, which leaves the job waiting.
        let plain_next = || {
            job.borrow_mut()[plain::PHASE..].fill(0);
            plain::restore_next(black_box(&mut *job.borrow_mut()), &mut *frame.borrow_mut())
        };
        let our_next = || {
            job2.borrow_mut()[plain::PHASE..].fill(0);
            ours::restore_next(black_box(&mut *job2.borrow_mut()), &mut *frame2.borrow_mut())
        };
        assert_eq!(plain_next(), Ok(plain::Step::Frame(11)));
        assert_eq!(our_next(), (1 << 32) + 11);
        assert_eq!((&job, &frame), (&job2, &frame2));
        compare(&format!("restore next, {what}"), plain::JOB, plain_next, our_next);

        let waiting = *job.borrow();
        for (phase, job) in [("", opened), (" while waiting", waiting)] {
            assert_eq!(plain::restore_left(&job), Ok(differ.len()));
            assert_eq!(ours::restore_left(&job), (1 << 32) + differ.len() as u64);
            compare(
                &format!("restore left{phase}, {what}"),
                plain::JOB,
                || plain::restore_left(black_box(&job)),
                || ours::restore_left(black_box(&job)),
            );
        }
    }
}

/// The frame with this opcode and these data.
fn framed(opcode: u8, data: &[u8]) -> Vec<u8> {
    let covered = [&[data.len() as u8 + 1, opcode], data].concat();
    [&[0xFE], &covered[..], &plain::crc16(&covered).to_be_bytes(), &[0xFD]].concat()
}
