//! Lines that ask for the checks (docs/CONSOLE.md, "Checks"): the checksums that 000, 002 and 004 print, published
//! vectors of CRC-16/XMODEM, the bounds of a line, and every kind of line that is no call.

use super::lines::{hex, Draft};
use super::random::Random;
use super::{Area, Sample};
use crate::checks;
use crate::line::LIMIT;

pub const AREA: Area = Area { name: "check", chosen, start: || Box::new(draft) };

fn draft(random: &mut Random) -> Draft {
    let call = random.pick(&["check crc", "check sum8", "check sum16"]);
    Draft::of(call).hex(&content(random), random)
}

/// Bytes to be checked, mostly few.
fn content(random: &mut Random) -> Vec<u8> {
    let length = match random.below(24) {
        0 => 0,
        1..=4 => 1,
        5..=12 => random.below(8) + 1,
        13..=21 => random.below(40) + 1,
        22 => random.below(300) + 1,
        _ => 254 + random.below(8),
    };
    let mut bytes = match random.below(10) {
        0 => vec![0; length],
        1 => vec![0xFF; length],
        2 => vec![random.byte(); length],
        3 => {
            let mut bytes = vec![0; length];
            if length > 0 {
                bytes[random.below(length)] = 1 << random.below(8);
            }
            bytes
        }
        4 => (0..length).map(|_| random.pick(b"0123456789ABCDEF")).collect(),
        _ => random.bytes(length),
    };
    match random.below(12) {
        0 => bytes.extend(checks::crc(&bytes).to_be_bytes()),
        1 => bytes.push(checks::sum8(&bytes)),
        2 => bytes.push(checks::sum8(&bytes).wrapping_add(1)),
        _ => {}
    }
    bytes
}

fn chosen(sample: &mut Sample) {
    vectors(sample);
    sums(sample);
    shapes(sample);
    no_calls(sample);
    limits(sample);
}

fn vectors(sample: &mut Sample) {
    let mut crc = |comment: &str, bytes: &[u8]| {
        sample.show(comment, format!("check crc {}", hex(bytes)));
    };
    crc("CRC-16/XMODEM of 123456789 is 31C3", b"123456789");
    crc("and of no bytes 0000", b"");
    crc("and of the letter A 58E5", b"A");
    crc("000: request 05 has 6394 (P1)", &[0x01, 0x05]);
    crc("000: request 01 has 2310", &[0x01, 0x01]);
    crc("000: request 02 has 1373", &[0x01, 0x02]);
    crc("000: request 03 has 0352", &[0x01, 0x03]);
    crc("000: setting register 3 to 56 has 667E (P2)", &[0x06, 0x0E, 0x03, 0x38, 0x00, 0x00, 0x00]);
    crc("000: its answer has D2FF", &[0x01, 0x0E]);
    crc("000: the name PATHFINDER BMS has 7A5E", b"\x0F\x05PATHFINDER BMS");
    crc("000: reply 01, lot 2 and version 0.223, has 52CB", &[0x0D, 1, 2, 0, 0, 0, 0, 0, 0, 0, 0xDF, 0, 0, 0]);
    crc("000: the advertising name Zoidberg, MD has 5378", b"\x0D\x11Zoidberg, MD");
    crc("000: its answer has 3121", &[0x01, 0x11]);
    crc("A message and its own CRC leave 0000", b"123456789\x31\xC3");
    crc("Zeros leave 0000, however many", &[0; 40]);
    crc("Forty times FF", &[0xFF; 40]);
    crc("A single bit, the lowest", &[0x01]);
    crc("A single bit, the highest", &[0x80]);
    crc("A single byte FF", &[0xFF]);
    let every: Vec<u8> = (0..=255).collect();
    crc("Every byte once", &every);
}

fn sums(sample: &mut Sample) {
    for (comment, bytes) in [
        ("002, 6.1.4.1: request 12 closes with 57 (P3)", &[0x7F, 0x10, 2, 6, 0x12][..]),
        ("002, 6.2.4.1: request 11 closes with 58", &[0x7F, 0x10, 2, 6, 0x11]),
        (
            "002, 6.11.4.1: setting 2017-05-12 10:30:50 closes with 75 (P4)",
            &[0x7F, 0x10, 2, 0x0C, 0x30, 0x17, 5, 0x12, 0x10, 0x30, 0x50],
        ),
        ("002, 6.11.4.2: its answer closes with 37", &[0x7F, 0x10, 2, 7, 0x30, 1]),
        ("No bytes close with 00", &[]),
        ("A sum of 256 closes with 00", &[0xFF, 0x01]),
        ("A sum of 1 closes with FF", &[0x01]),
        ("A sum of 255 closes with 01", &[0xFF]),
        ("Zeros close with 00", &[0; 30]),
        ("Thirty times FF", &[0xFF; 30]),
    ] {
        sample.show(comment, format!("check sum8 {}", hex(bytes)));
    }
    let mut closed = [0xFF; 258];
    closed[257] = 1;
    for (comment, bytes) in [
        ("004: the request for analog information closes with FD30 (P6)", &b"25014642E00201"[..]),
        ("004: the request for the status closes with FD2E", b"25014644E00201"),
        ("004: the request for the hardware version closes with FD9A", b"250146C10000"),
        ("004: the request for the serial number closes with FD99", b"250146C20000"),
        ("004: an accepted write closes with FDAF", b"250046000000"),
        ("004: writing the cell overvoltage closes with FA21", b"250046D0F010010E100E740D340A"),
        ("004: writing the slow discharge limit closes with FAF7", b"250046DA400C010069006E0A"),
        ("No bytes close with 0000", b""),
        ("257 times FF are 65,535 and close with 0001", &closed[..257]),
        ("and with 01 after them they are 65,536 and close with 0000", &closed),
        ("258 times FF are past 65,536", &[0xFF; 258]),
        ("Zeros close with 0000", &[0; 30]),
        ("A single byte 80", &[0x80]),
    ] {
        sample.show(comment, format!("check sum16 {}", hex(bytes)));
    }
}

fn shapes(sample: &mut Sample) {
    sample.show("Digits of either case", "check crc 060e0338000000");
    sample.more("check crc 060E0338000000");
    sample.more("check sum8 fFFf");
    sample.show("More spaces between, before and after", "   check   crc  0105   ");
    sample.show("A carriage return before the line feed", "check crc 0105\r");
    sample.show("A space before that carriage return", "check crc 0105 \r");
    sample.show("A second carriage return is a byte of the last word", "check crc 0105\r\r");
    sample.show("and here a word of its own", "check crc 0105 \r\r");
    sample.show("Lines that answer nothing", "");
    sample.more("\r");
    sample.more("     ");
    sample.more("   \r");
    sample.more("#");
    sample.more("#check crc 0105");
    sample.more("    # check crc 0105");
    sample.show("A carriage return alone before the sign is a word", "\r#");
    sample.show("The sign later in a line is no comment", "check # crc 0105");
    sample.more("check crc 0105 # of request 05");
}

fn no_calls(sample: &mut Sample) {
    sample.show("An unknown first word", "sum 0105");
    for line in ["Check crc 0105", "CHECK", "checks crc 00", "chec", "?", "-", "check\t", "\tcheck crc 00"] {
        sample.more(line);
    }
    sample.more(b"\x00");
    sample.more(b"\xC3\xA9 crc 00");
    sample.more(b"check\xA0crc 00");
    sample.show("An unknown second word, whatever stands behind it", "check crc16 0105");
    for line in ["check CRC 00", "check sum", "check sum8\t00", "check crc8 x y z", "check 0105", "check -"] {
        sample.more(line);
    }
    sample.more(b"check crc\x00 00");
    sample.show("Too few words", "check");
    sample.more("check crc");
    sample.more("check sum8   ");
    sample.more("check sum16\r");
    sample.show("Too many words, whatever they are", "check crc 0105 00");
    for line in ["check crc 0 0", "check sum8 zz zz", "check sum16 - -", "check crc 01 05 63 94"] {
        sample.more(line);
    }
    sample.show("No hex", "check crc 0");
    for word in [
        "012", "0g", "G0", "0x01", "--", "-0", "-00", "+00", "00-", "0,", "00\t", "\t00", "0105h", "0/", "0:", "0@",
        "@0", "0`", "`0", "g0", "\u{660}0", "00\u{0}0",
    ] {
        sample.more(format!("check crc {word}"));
        sample.more(format!("check sum8 {word}"));
    }
    sample.more(b"check sum16 \xFF\xFF");
    sample.show("Words of calls in wrong places", "crc check 00");
    sample.more("check check crc 00");
}

fn limits(sample: &mut Sample) {
    let filled = |start: &str, filling: char, length: usize| -> String {
        let mut line = start.to_string();
        line.extend(std::iter::repeat_n(filling, length - start.len()));
        line
    };
    sample.show("The longest line, with 8,187 bytes", filled("check crc ", 'A', LIMIT));
    sample.show("and with a carriage return in its end", filled("check crc ", '5', LIMIT) + "\r");
    sample.show("One byte more is too long", filled("check crc ", 'A', LIMIT + 1));
    sample.show("The longest sum, past 2,000,000", filled("check sum16 ", 'F', LIMIT));
    sample.show("Spaces count", filled("check sum8 FF", ' ', LIMIT));
    sample.show("and make a line too long", filled("check sum8 FF", ' ', LIMIT + 1));
    sample.show("A comment can be too long", filled("#", '#', LIMIT + 1));
    sample.show("and just not", filled("#", '#', LIMIT));
    sample.show("So can an empty line", filled("", ' ', LIMIT + 1));
    sample.show("and just not", filled("", ' ', LIMIT));
    sample.show("A carriage return too many", filled("check crc ", '0', LIMIT) + "\r\r");
    sample.show("Twice as long", filled("check crc ", '0', 2 * LIMIT));
    sample.show("The line after it is read as always", "check crc 0105");
}

#[cfg(test)]
mod tests {
    use crate::generator::tests::assert_kinds;

    #[test]
    fn the_lines_reach_every_answer() {
        assert_kinds(
            "check",
            30_000,
            &[
                "? line too long",
                "? not hex",
                "? too few words",
                "? too many words",
                "? unknown word",
                "check crc: ok crc",
                "check sum16: ok sum16",
                "check sum8: ok sum8",
            ],
        );
    }
}
