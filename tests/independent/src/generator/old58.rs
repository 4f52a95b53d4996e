//! Lines of the 58-byte monitor (docs/CONSOLE.md; 001; 01, "The 58-byte monitor"): the examples of 001, every
//! refusal, one to three errors at once.

use super::lines::{hex, Draft};
use super::random::Random;
use super::{Area, Sample};

pub const AREA: Area = Area { name: "old", chosen, start: || Box::new(draft) };

/// The places of the signs, the hour and the minute, counted from 0.
const SIGNS: [usize; 3] = [3, 6, 9];
const HOUR: usize = 47;
const MINUTE: usize = 48;

fn draft(random: &mut Random) -> Draft {
    let errors = random.errors(&[1, 4, 5, 9, 9]);
    let mut bytes: Vec<u8> = (0..57)
        .map(|_| match random.below(3) {
            0 => random.pick(&[0x00, 0x00, 0x01, 0x7F, 0x80, 0xFF]),
            _ => random.byte(),
        })
        .collect();
    for place in SIGNS {
        bytes[place] = random.pick(b"+-X");
        if random.one_in(8) {
            bytes[place + 1..place + 3].fill(0);
        }
    }
    bytes[HOUR] = random.pick(&[0, 1, 9, 10, 22, 23]);
    bytes[MINUTE] = random.pick(&[0, 1, 9, 24, 32, 59]);
    if errors.has(9) {
        for _ in 0..random.pick(&[1, 1, 2]) {
            match random.below(5) {
                0 => bytes[HOUR] = random.pick(&[24, 25, 59, 0x22, 0x80, 0xFF]),
                1 => bytes[MINUTE] = random.pick(&[60, 61, 0x59, 0x80, 0xFF]),
                _ => {
                    let place = random.pick(&SIGNS);
                    bytes[place] = random.pick(b"*,.WYxVp\x00 \xAB\xFF");
                }
            }
        }
    }
    close(&mut bytes);
    if errors.has(5) {
        bytes[57] = match random.below(3) {
            0 => bytes[57].wrapping_neg(),
            1 => bytes[57].wrapping_add(1),
            _ => bytes[57] ^ 1 << random.below(8),
        };
    }
    if errors.has(4) {
        let more = random.pick(&[1, 1, 2, 58, 300]);
        bytes.resize(58 + more, 0);
    }
    if errors.has(1) {
        let length = match random.below(3) {
            0 => 57,
            1 => random.pick(&[0, 1, 56]),
            _ => random.below(58),
        };
        bytes.truncate(length);
    }
    Draft::of("old read").hex(&bytes, random)
}

/// Adds the check.
fn close(bytes: &mut Vec<u8>) {
    bytes.push(bytes.iter().fold(0, |sum, byte| sum.wrapping_add(*byte)));
}

/// The 57 bytes with the examples of 001.
const EXAMPLE: [u8; 57] = [
    0x01, 0x05, 0xFF, 0x2B, 0x01, 0x00, 0x2D, 0x01, 0x00, 0x58, 0x01, 0x00, 0x02, 0x30, 0x32, 0x02, 0x30, 0x32, 0x01,
    0x14, 0x32, 0x01, 0x28, 0x32, 0x32, 0xFF, 0x02, 0x30, 0x01, 0x14, 0x03, 0x00, 0x00, 0x64, 0x00, 0xF2, 0x21, 0x00,
    0x00, 0x64, 0x32, 0x00, 0x64, 0x00, 0x00, 0x64, 0x00, 0x16, 0x20, 0x00, 0xA0, 0x15, 0xFF, 0x15, 0xFF, 0x15, 0xFF,
];

fn chosen(sample: &mut Sample) {
    let with = |changes: &[(usize, u8)]| {
        let mut bytes = EXAMPLE.to_vec();
        for (place, byte) in changes {
            bytes[*place] = *byte;
        }
        close(&mut bytes);
        bytes
    };
    let mut read = |comment: &str, bytes: &[u8]| {
        sample.show(comment, format!("old read {}", hex(bytes)));
    };
    let right = with(&[]);
    read("001: the examples of the table; 2B 01 00 is 32000 mA, 2D 01 00 is -32000 mA (P8)", &right);
    read("2D 00 00 is 0 mA (P8)", &with(&[(7, 0)]));
    read("Sign X is missing whatever the count", &with(&[(10, 0xFF), (11, 0xFF)]));
    read("The greatest currents", &with(&[(4, 0xFF), (5, 0xFF), (7, 0xFF), (8, 0xFF)]));
    let mut least = vec![0; 57];
    for place in SIGNS {
        least[place] = b'+';
    }
    close(&mut least);
    read("The least numbers; temperatures down to -276", &least);
    let mut most = vec![0xFF; 57];
    for place in SIGNS {
        most[place] = b'-';
    }
    most[HOUR] = 23;
    most[MINUTE] = 59;
    close(&mut most);
    read("The greatest numbers", &most);
    read("Shorter than 58 bytes: 1", &[]);
    read("", &right[..1]);
    read("", &right[..57]);
    read("Longer than 58 bytes: 4", &[&right[..], &[0]].concat());
    read("", &[&right[..], &right[..]].concat());
    let mut open = right.clone();
    open[57] ^= 0x01;
    read("The check wrong: 5", &open);
    open[57] = right[57].wrapping_neg();
    read("the check that would close the sum to 0: 5", &open);
    let comments = ["The first sign wrong: 9", "The second: 9", "The third: 9"];
    for (comment, place) in comments.into_iter().zip(SIGNS) {
        read(comment, &with(&[(place, b'x')]));
        for sign in *b"*,.WY \x00\xFF" {
            read("", &with(&[(place, sign)]));
        }
    }
    read("Hour 24: 9", &with(&[(HOUR, 24)]));
    read("Minute 60: 9", &with(&[(MINUTE, 60)]));
    read("23:59", &with(&[(HOUR, 23), (MINUTE, 59)]));
    read("00:00", &with(&[(HOUR, 0), (MINUTE, 0)]));
    read("A state of charge of 255 has no range", &with(&[(40, 0xFF)]));
    let mut two = with(&[(3, 0), (HOUR, 99)]);
    two[57] ^= 0xFF;
    read("Check, sign and hour wrong: 5", &two);
    read("and too long: 4", &[&two[..], &[0]].concat());
    read("and too short: 1", &two[..57]);
    sample.show("No calls", "old");
    for line in [
        "old reads 00",
        "old parse -",
        "old read",
        "old read - -",
        "old read 0",
        "old read 0g",
        "Old read -",
        "old read -",
    ] {
        sample.more(line);
    }
}

#[cfg(test)]
mod tests {
    use crate::generator::tests::assert_kinds;

    #[test]
    fn the_lines_reach_every_answer() {
        assert_kinds(
            "old",
            30_000,
            &[
                "? line too long",
                "? not hex",
                "? too few words",
                "? too many words",
                "? unknown word",
                "old read: ok total_mv",
                "old read: refused 1",
                "old read: refused 4",
                "old read: refused 5",
                "old read: refused 9",
            ],
        );
    }
}
