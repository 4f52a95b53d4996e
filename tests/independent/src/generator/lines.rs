//! Lines as words, how they are written down, and the lines that are no calls (docs/CONSOLE.md, "What a line is" to
//! "Parameters").

use super::random::Random;
use crate::line::LIMIT;

/// The words of a line before it is written down.
#[derive(Clone)]
pub struct Draft(pub Vec<Vec<u8>>);

impl Draft {
    /// A draft that begins with these words.
    pub fn of(words: &str) -> Draft {
        Draft(words.split(' ').map(|word| word.into()).collect())
    }

    pub fn word(mut self, word: impl Into<Vec<u8>>) -> Draft {
        self.0.push(word.into());
        self
    }

    /// Adds bytes as HEX of either case, `-` for none.
    pub fn hex(self, bytes: &[u8], random: &mut Random) -> Draft {
        let mut word = hex(bytes).into_bytes();
        match random.below(8) {
            0 => word.make_ascii_lowercase(),
            1 => word.iter_mut().for_each(|digit| {
                if random.one_in(2) {
                    digit.make_ascii_lowercase()
                }
            }),
            _ => {}
        }
        self.word(word)
    }

    /// Adds one byte as two hex digits.
    pub fn byte(self, byte: u8, random: &mut Random) -> Draft {
        self.hex(&[byte], random)
    }

    /// Adds a number, at times with leading zeros or as `-0`.
    pub fn number(self, number: i64, random: &mut Random) -> Draft {
        let mut word = number.to_string();
        if random.one_in(25) {
            let zeros = "0".repeat(random.below(4) + 1);
            let sign = if number < 0 || (number == 0 && random.one_in(2)) { "-" } else { "" };
            word = format!("{sign}{zeros}{}", number.unsigned_abs());
        }
        self.word(word)
    }
}

/// Bytes as HEX, `-` for none.
pub fn hex(bytes: &[u8]) -> String {
    if bytes.is_empty() {
        return "-".to_string();
    }
    bytes.iter().map(|byte| format!("{byte:02X}")).collect()
}

/// Writes a line down with its end: mostly plain, at times with more spaces or a carriage return.
pub fn written(draft: &Draft, random: &mut Random) -> Vec<u8> {
    if !random.one_in(8) {
        let mut line = draft.0.join(&b' ');
        line.push(b'\n');
        return line;
    }
    let mut line = spaces(random, 0);
    for (place, word) in draft.0.iter().enumerate() {
        if place > 0 {
            line.extend(spaces(random, 1));
        }
        line.extend_from_slice(word);
    }
    line.extend(spaces(random, 0));
    let end: &[u8] = random.pick(&[&b"\n"[..], b"\n", b"\r\n", b"\r\n", b" \r\n", b"\r \n", b"\r\r\n"]);
    line.extend_from_slice(end);
    line
}

fn spaces(random: &mut Random, least: usize) -> Vec<u8> {
    let more = if random.one_in(2) { random.below(4) } else { 0 };
    vec![b' '; least + more]
}

/// A line that answers nothing.
pub fn silent(random: &mut Random) -> Vec<u8> {
    let line: &[u8] = random.pick(&[
        &b"\n"[..],
        b"\r\n",
        b"   \n",
        b" \r\n",
        b"#\n",
        b"# check crc 00\r\n",
        b"#check crc 00\n",
        b"   # a comment\n",
        b"## ?\n",
        b"#\t\n",
        b"#\xFF\x00\n",
    ]);
    line.to_vec()
}

/// Spoils a draft in one to three ways. Most of what comes out is no call; some of it still is.
pub fn spoil(draft: &mut Draft, random: &mut Random) {
    for _ in 0..random.pick(&[1, 1, 1, 2, 2, 3]) {
        let count = draft.0.len();
        if count == 0 {
            return;
        }
        // Half of the time a parameter rather than one of the words that choose the call.
        let place = match random.below(2) {
            0 if count > 2 => 2 + random.below(count - 2),
            _ => random.below(count),
        };
        match random.below(10) {
            0 => draft.0.truncate(place.max(1)),
            1 => {
                draft.0.remove(place);
            }
            2 => draft.0.push(junk(random)),
            3 => draft.0.insert(place, junk(random)),
            4..=6 => draft.0[place] = junk(random),
            _ => change(&mut draft.0[place], random),
        }
    }
}

/// Changes one word a little.
fn change(word: &mut Vec<u8>, random: &mut Random) {
    if word.is_empty() {
        return;
    }
    let place = random.below(word.len());
    match random.below(10) {
        0 => word.make_ascii_uppercase(),
        1 => word.make_ascii_lowercase(),
        2 => word.truncate(word.len().saturating_sub(1).max(1)),
        3 => word.push(random.pick(b"0aZ-,\t \r.")),
        4 => word.insert(0, random.pick(b"0-+,#\t x")),
        5 => word.insert(place, random.pick(b"0F-, \t:Gg/@`\x00\x7F\xFF")),
        6 | 7 => word[place] = random.pick(b"gG:/@`+-,.\t\r\x00\xB0"),
        8 => word[place] = random.byte_but(b"\n"),
        _ => word[place] ^= 0x20,
    }
    word.retain(|&byte| byte != b'\n');
}

/// A word that is wrong in most places, and right in some.
fn junk(random: &mut Random) -> Vec<u8> {
    let word: &[u8] = random.pick(&[
        &b"-"[..],
        b"--",
        b"-0",
        b"0",
        b"00",
        b"000",
        b"1",
        b"+1",
        b"-1",
        b"7",
        b"11",
        b"34",
        b"0e",
        b"42",
        b"G0",
        b"0G",
        b"0x10",
        b"1.0",
        b"1e3",
        b"100",
        b"127",
        b"128",
        b"255",
        b"256",
        b"8192",
        b"8193",
        b"-8192",
        b"32768",
        b"-32769",
        b"65535",
        b"65536",
        b"2147483647",
        b"2147483648",
        b"-2147483648",
        b"-2147483649",
        b"4294967296",
        b"18446744073709551615",
        b"18446744073709551616",
        b"340282366920938463463374607431768211456",
        b"-99999999999999999999999999999999999999999",
        b"00000000000000000000000000000000000000000001",
        b",",
        b"1,2",
        b"1,,2",
        b"1,",
        b",1",
        b"-,1",
        b"#",
        b"crc",
        b"sum8",
        b"sum",
        b"sum32",
        b"read",
        b"row",
        b"parse",
        b"write",
        b"find",
        b"ask",
        b"set",
        b"set_time",
        b"open",
        b"next",
        b"reply",
        b"left",
        b"Check",
        b"CHECK",
        b"checks",
        b"chec",
        b"\t",
        b"\r",
        b"\x00",
        b"\xC3\xA9",
        b"\xFF\xFE",
        b"?",
    ]);
    word.to_vec()
}

/// A line of about the greatest length: a draft, a comment, spaces or one word, filled up to just at the limit or
/// beyond it.
pub fn long(draft: &Draft, random: &mut Random) -> Vec<u8> {
    let length = LIMIT - 2 + random.below(5);
    let mut line: Vec<u8> = match random.below(5) {
        0 => b"#".to_vec(),
        1 => b"check crc 00".to_vec(),
        2 => b"check sum16 ".to_vec(),
        3 => Vec::new(),
        _ => draft.0.join(&b' '),
    };
    let filling = if line.ends_with(b"16 ") { b'F' } else { b' ' };
    line.resize(length, filling);
    let end: &[u8] = random.pick(&[&b"\n"[..], b"\r\n", b"\r\r\n"]);
    line.extend_from_slice(end);
    line
}
