//! The 58-byte monitor (001; 01, "The 58-byte monitor").

use crate::fields::Fields;
use crate::line::{NoCall, Words};
use crate::refusal::{answer as refusable, Refusal};

const SIZE: usize = 58;

/// Reads what the monitor sent into the text of the answer, in the order of the bytes.
fn read(input: &[u8]) -> Result<String, Refusal> {
    if input.len() < SIZE {
        return Err(Refusal::TooShort);
    }
    if input.len() > SIZE {
        return Err(Refusal::Length);
    }
    let (summed, check) = input.split_at(SIZE - 1);
    let sum: u32 = summed.iter().map(|&byte| u32::from(byte)).sum();
    if sum % 256 != u32::from(check[0]) {
        return Err(Refusal::Checksum);
    }
    let mut fields = Fields::high_first(summed);
    let mut text = String::new();
    for (name, kind) in LAYOUT {
        let value = match kind {
            Kind::Number(width) => fields.number(*width)?.to_string(),
            Kind::Voltage(width) => (fields.number(*width)? * 5).to_string(),
            Kind::Temperature => (fields.number(2)? - 276).to_string(),
            Kind::Current => {
                let (sign, count) = (fields.byte()?, fields.number(2)?);
                match sign {
                    b'+' => (count * 125).to_string(),
                    b'-' => (count * -125).to_string(),
                    b'X' => "missing".to_string(),
                    _ => return Err(Refusal::Value),
                }
            }
            Kind::AtMost(most) => match fields.number(1)? {
                number if number > *most => return Err(Refusal::Value),
                number => number.to_string(),
            },
        };
        text += &format!(" {name} {value}");
    }
    fields.end()?;
    Ok(text.trim_start().to_string())
}

/// How a field is read.
enum Kind {
    /// A number of so many bytes as it is.
    Number(usize),
    /// A count of 5 mV in so many bytes.
    Voltage(usize),
    /// Degrees with an offset of 276.
    Temperature,
    /// A sign and a count of 125 mA.
    Current,
    /// A byte up to a greatest value.
    AtMost(i64),
}

/// Bytes 1 to 57 (001, the table). A field that is headed 24 bit over two bytes has two.
const LAYOUT: &[(&str, Kind)] = &[
    ("total_mv", Kind::Voltage(3)),
    ("current_ma", Kind::Current),
    ("current2_ma", Kind::Current),
    ("current3_ma", Kind::Current),
    ("lowest_mv", Kind::Voltage(2)),
    ("lowest_cell", Kind::Number(1)),
    ("highest_mv", Kind::Voltage(2)),
    ("highest_cell", Kind::Number(1)),
    ("coldest_c", Kind::Temperature),
    ("coldest_cell", Kind::Number(1)),
    ("hottest_c", Kind::Temperature),
    ("hottest_cell", Kind::Number(1)),
    ("cell", Kind::Number(1)),
    ("cells", Kind::Number(1)),
    ("cell_mv", Kind::Voltage(2)),
    ("cell_c", Kind::Temperature),
    ("status", Kind::Number(1)),
    ("collected_today_wh", Kind::Number(3)),
    ("stored_wh", Kind::Number(3)),
    ("consumed_today_wh", Kind::Number(3)),
    ("soc_percent", Kind::Number(1)),
    ("collected_kwh", Kind::Number(3)),
    ("consumed_kwh", Kind::Number(3)),
    ("hour", Kind::AtMost(23)),
    ("minute", Kind::AtMost(59)),
    ("capacity_100wh", Kind::Number(2)),
    ("vmin_count", Kind::Number(2)),
    ("vmax_count", Kind::Number(2)),
    ("vbypass_count", Kind::Number(2)),
];

/// Answers a line whose first word is `old`.
pub fn answer(line: &Words) -> Result<String, NoCall> {
    match line.at(1)? {
        b"read" => {
            line.count(3)?;
            Ok(refusable(read(&line.hex(2)?)))
        }
        _ => Err(NoCall::UnknownWord),
    }
}

#[cfg(test)]
mod tests {
    use super::*;

    /// The 57 bytes with the examples of 001, and their check.
    fn example() -> Vec<u8> {
        let mut input = vec![
            0x01, 0x05, 0xFF, 0x2B, 0x01, 0x00, 0x2D, 0x01, 0x00, 0x58, 0x01, 0x00, 0x02, 0x30, 0x32, 0x02, 0x30, 0x32,
            0x01, 0x14, 0x32, 0x01, 0x28, 0x32, 0x32, 0xFF, 0x02, 0x30, 0x01, 0x14, 0x03, 0x00, 0x00, 0x64, 0x00, 0xF2,
            0x21, 0x00, 0x00, 0x64, 0x32, 0x00, 0x64, 0x00, 0x00, 0x64, 0x00, 0x16, 0x20, 0x00, 0xA0, 0x15, 0xFF, 0x15,
            0xFF, 0x15, 0xFF,
        ];
        close(&mut input);
        input
    }

    fn close(input: &mut Vec<u8>) {
        input.truncate(57);
        input.push(input.iter().fold(0, |sum, byte| sum.wrapping_add(*byte)));
    }

    #[test]
    fn the_examples_of_the_table() {
        assert_eq!(
            read(&example()).unwrap(),
            "total_mv 335355 current_ma 32000 current2_ma -32000 current3_ma missing lowest_mv 2800 lowest_cell 50 \
             highest_mv 2800 highest_cell 50 coldest_c 0 coldest_cell 50 hottest_c 20 hottest_cell 50 cell 50 \
             cells 255 cell_mv 2800 cell_c 0 status 3 collected_today_wh 100 stored_wh 61985 consumed_today_wh 100 \
             soc_percent 50 collected_kwh 25600 consumed_kwh 25600 hour 22 minute 32 capacity_100wh 160 \
             vmin_count 5631 vmax_count 5631 vbypass_count 5631"
        );
    }

    #[test]
    fn refusals() {
        let with = |place: usize, byte: u8| {
            let mut input = example();
            input[place] = byte;
            close(&mut input);
            read(&input)
        };
        assert_eq!(read(&[]), Err(Refusal::TooShort));
        assert_eq!(read(&example()[..57]), Err(Refusal::TooShort));
        assert_eq!(read(&[example(), vec![0]].concat()), Err(Refusal::Length));
        let mut input = example();
        input[57] = input[57].wrapping_add(1);
        input[3] = 0;
        assert_eq!(read(&input), Err(Refusal::Checksum));
        for place in [3, 6, 9] {
            assert_eq!(with(place, b'x'), Err(Refusal::Value));
        }
        assert_eq!(with(47, 24), Err(Refusal::Value));
        assert!(with(47, 23).is_ok());
        assert_eq!(with(48, 60), Err(Refusal::Value));
        assert!(with(48, 59).is_ok());
    }
}
