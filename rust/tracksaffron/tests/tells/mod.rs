//! A frame of tests/fields.txt read into a row.

use tracksaffron::{old58, pace, tongzhu};

/// Whether the frame is read as the reply to what was asked of the device, with its values in the row.
pub fn tells(asked: &str, frame: &str, row: &mut [i32]) -> bool {
    let bytes = || -> Vec<u8> {
        let digits = |place| u8::from_str_radix(&frame[place..place + 2], 16).unwrap();
        (0..frame.len()).step_by(2).map(digits).collect()
    };
    match asked {
        "tz 11" => tongzhu::read(0x11, &bytes(), row) == Ok(tongzhu::Reply::Monitor2),
        "tz 12" => tongzhu::read(0x12, &bytes(), row) == Ok(tongzhu::Reply::Monitor3),
        "pace 42" => pace::read(1, 0x42, format!("{frame}\r").as_bytes(), row, &mut []) == Ok(pace::Reply::Analog),
        "pace 44" => pace::read(1, 0x44, format!("{frame}\r").as_bytes(), row, &mut []) == Ok(pace::Reply::Warnings),
        "old -" => old58::read(&bytes(), row) == Ok(()),
        _ => panic!("{asked}: no such reply"),
    }
}
