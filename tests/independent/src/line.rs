//! What a line is, what its words and parameters may look like, and what a line that is no call answers
//! (docs/CONSOLE.md, "What a line is" to "Parameters").

/// The longest line, its end not counted.
pub const LIMIT: usize = 16_384;

/// The most memory a line may lend.
pub const MOST_ROOM: i64 = 8_192;

/// Why a line is no call.
#[derive(Clone, Copy, Debug, PartialEq, Eq)]
pub enum NoCall {
    LineTooLong,
    UnknownWord,
    TooFewWords,
    TooManyWords,
    NotHex,
    NotANumber,
    OutOfRange,
    NoJob,
}

impl NoCall {
    /// The answer that such a line gets.
    pub fn answer(self) -> &'static str {
        match self {
            NoCall::LineTooLong => "? line too long",
            NoCall::UnknownWord => "? unknown word",
            NoCall::TooFewWords => "? too few words",
            NoCall::TooManyWords => "? too many words",
            NoCall::NotHex => "? not hex",
            NoCall::NotANumber => "? not a number",
            NoCall::OutOfRange => "? number out of range",
            NoCall::NoJob => "? no job",
        }
    }
}

/// One line of the input, without its end.
#[derive(Clone, Copy, Debug, PartialEq, Eq)]
pub enum Line<'a> {
    Bytes(&'a [u8]),
    TooLong,
}

/// Takes the input in pieces of any size and hands on its lines. It holds no more than one line of the greatest
/// length and a carriage return.
#[derive(Default)]
pub struct Splitter {
    held: Vec<u8>,
    dropped: bool,
}

impl Splitter {
    /// Takes the next piece of the input and hands on each line that ends in it.
    pub fn feed(&mut self, mut piece: &[u8], mut each: impl FnMut(Line)) {
        while let Some(end) = piece.iter().position(|&byte| byte == b'\n') {
            self.hold(&piece[..end]);
            if self.held.last() == Some(&b'\r') && !self.dropped {
                self.held.pop();
            }
            each(self.line());
            self.clear();
            piece = &piece[end + 1..];
        }
        self.hold(piece);
    }

    /// Hands on the last line if it lacks its line feed.
    pub fn finish(&mut self, mut each: impl FnMut(Line)) {
        if !self.held.is_empty() {
            each(self.line());
        }
        self.clear();
    }

    fn hold(&mut self, bytes: &[u8]) {
        let room = LIMIT + 1 - self.held.len();
        let taken = bytes.len().min(room);
        self.held.extend_from_slice(&bytes[..taken]);
        self.dropped |= taken < bytes.len();
    }

    fn line(&self) -> Line<'_> {
        if self.held.len() > LIMIT {
            Line::TooLong
        } else {
            Line::Bytes(&self.held)
        }
    }

    fn clear(&mut self) {
        self.held.clear();
        self.dropped = false;
    }
}

/// The words of a line.
pub struct Words<'a>(Vec<&'a [u8]>);

impl<'a> Words<'a> {
    /// The words of a line, or nothing if the line answers nothing.
    pub fn of(line: &'a [u8]) -> Option<Words<'a>> {
        let words: Vec<&[u8]> = line.split(|&byte| byte == b' ').filter(|word| !word.is_empty()).collect();
        if words.first()?.starts_with(b"#") {
            return None;
        }
        Some(Words(words))
    }

    /// The word at a place, counted from 0. The words that choose the call are asked for by this.
    pub fn at(&self, place: usize) -> Result<&'a [u8], NoCall> {
        self.0.get(place).copied().ok_or(NoCall::TooFewWords)
    }

    /// Whether the line has as many words as its call.
    pub fn count(&self, wanted: usize) -> Result<(), NoCall> {
        match self.0.len() {
            found if found < wanted => Err(NoCall::TooFewWords),
            found if found > wanted => Err(NoCall::TooManyWords),
            _ => Ok(()),
        }
    }

    /// HEX: an even number of hex digits, or `-` for no bytes.
    pub fn hex(&self, place: usize) -> Result<Vec<u8>, NoCall> {
        let word = self.at(place)?;
        if word == b"-" {
            return Ok(Vec::new());
        }
        if !word.len().is_multiple_of(2) {
            return Err(NoCall::NotHex);
        }
        word.chunks(2).map(byte_of).collect()
    }

    /// OP, FUN, CMD, ADDR or REPLY: two hex digits.
    pub fn byte(&self, place: usize) -> Result<u8, NoCall> {
        byte_of(self.at(place)?)
    }

    /// A number with the range of its parameter.
    pub fn number(&self, place: usize, least: i64, most: i64) -> Result<i64, NoCall> {
        in_range(number_of(self.at(place)?)?, least, most)
    }

    /// ROOM: how much memory is lent.
    pub fn room(&self, place: usize) -> Result<usize, NoCall> {
        Ok(self.number(place, 0, MOST_ROOM)? as usize)
    }

    /// LIST: numbers with single commas between them, or `-` for none.
    pub fn list(&self, place: usize, least: i64, most: i64) -> Result<Vec<i64>, NoCall> {
        let word = self.at(place)?;
        if word == b"-" {
            return Ok(Vec::new());
        }
        let numbers: Vec<i64> = word.split(|&byte| byte == b',').map(number_of).collect::<Result<_, _>>()?;
        numbers.into_iter().map(|number| in_range(number, least, most)).collect()
    }
}

fn byte_of(word: &[u8]) -> Result<u8, NoCall> {
    match word {
        [high, low] => Ok(digit(*high)? * 16 + digit(*low)?),
        _ => Err(NoCall::NotHex),
    }
}

fn digit(byte: u8) -> Result<u8, NoCall> {
    match byte {
        b'0'..=b'9' => Ok(byte - b'0'),
        b'a'..=b'f' => Ok(byte - b'a' + 10),
        b'A'..=b'F' => Ok(byte - b'A' + 10),
        _ => Err(NoCall::NotHex),
    }
}

/// A number of any length. One too large for every parameter comes back as some number that is too large as well.
fn number_of(word: &[u8]) -> Result<i64, NoCall> {
    const TOO_LARGE: i64 = 1_000_000_000_000;
    let (negative, digits) = match word {
        [b'-', rest @ ..] => (true, rest),
        _ => (false, word),
    };
    if digits.is_empty() || !digits.iter().all(u8::is_ascii_digit) {
        return Err(NoCall::NotANumber);
    }
    let size = digits.iter().fold(0, |size: i64, &digit| (size * 10 + i64::from(digit - b'0')).min(TOO_LARGE));
    Ok(if negative { -size } else { size })
}

fn in_range(number: i64, least: i64, most: i64) -> Result<i64, NoCall> {
    if (least..=most).contains(&number) {
        Ok(number)
    } else {
        Err(NoCall::OutOfRange)
    }
}

/// Bytes as an answer shows them: upper-case hex, `-` for none.
pub fn shown(bytes: &[u8]) -> String {
    if bytes.is_empty() {
        return "-".to_string();
    }
    bytes.iter().map(|byte| format!("{byte:02X}")).collect()
}

#[cfg(test)]
mod tests {
    use super::*;

    /// The lines of an input that comes in pieces of a size, with `None` for one that is too long.
    fn lines(input: &[u8], size: usize) -> Vec<Option<Vec<u8>>> {
        let mut splitter = Splitter::default();
        let mut found = Vec::new();
        let mut take = |line: Line| {
            found.push(match line {
                Line::Bytes(bytes) => Some(bytes.to_vec()),
                Line::TooLong => None,
            })
        };
        for piece in input.chunks(size) {
            splitter.feed(piece, &mut take);
        }
        splitter.finish(&mut take);
        found
    }

    #[test]
    fn a_line_ends_with_a_line_feed_and_one_carriage_return_before_it() {
        for size in 1..9 {
            assert_eq!(
                lines(b"a\nb\r\n\nc\r\r\n\rd\r", size),
                [&b"a"[..], b"b", b"", b"c\r", b"\rd\r"].map(|line| Some(line.to_vec()))
            );
            assert_eq!(lines(b"a\n", size).len(), 1);
        }
        assert_eq!(lines(b"", 1).len(), 0);
    }

    #[test]
    fn the_limit_counts_no_line_end() {
        let most = vec![b'x'; LIMIT];
        for size in [1, 7, 4096, LIMIT, LIMIT + 1, 1 << 20] {
            for (end, fits) in [
                (&b""[..], true),
                (b"\n", true),
                (b"\r\n", true),
                (b"\r", false),
                (b"\r\r\n", false),
                (b"x", false),
                (b"x\n", false),
                (b"x\r\n", false),
                (b"xxxxxxxxx\r\n", false),
            ] {
                let input = [&most[..], end].concat();
                let expected = fits.then(|| most.clone());
                assert_eq!(lines(&input, size), [expected], "end {end:?}");
            }
            let input = [&most[..], b"y\r\r\nz\n"].concat();
            assert_eq!(lines(&input, size), [None, Some(b"z".to_vec())]);
        }
    }

    #[test]
    fn some_lines_answer_nothing() {
        for line in [&b""[..], b" ", b"    ", b"#", b"  # check", b"#check crc 00"] {
            assert!(Words::of(line).is_none());
        }
        assert!(Words::of(b"\t#").is_some());
    }

    #[test]
    fn parameters() {
        let hex = |word: &'static [u8]| Words(vec![word]).hex(0);
        assert_eq!(hex(b"-"), Ok(vec![]));
        assert_eq!(hex(b"00aBFf"), Ok(vec![0, 0xAB, 0xFF]));
        for word in [&b"0"[..], b"0g", b"--", b"-0", b"0x", b"123"] {
            assert_eq!(hex(word), Err(NoCall::NotHex));
        }
        let byte = |word: &'static [u8]| Words(vec![word]).byte(0);
        assert_eq!(byte(b"0e"), Ok(14));
        for word in [&b"-"[..], b"0", b"00e", b"0G"] {
            assert_eq!(byte(word), Err(NoCall::NotHex));
        }
        let number = |word: &'static [u8]| Words(vec![word]).number(0, -5, 70);
        assert_eq!(number(b"-0"), Ok(0));
        assert_eq!(number(b"000000000000000000000000000070"), Ok(70));
        assert_eq!(number(b"-5"), Ok(-5));
        for word in [&b"71"[..], b"-6", b"99999999999999999999999999999"] {
            assert_eq!(number(word), Err(NoCall::OutOfRange));
        }
        for word in [&b"-"[..], b"+1", b"", b"--1", b"1-", b"1.0", b"0x1", b"1,2"] {
            assert_eq!(number(word), Err(NoCall::NotANumber));
        }
        let list = |word: &'static [u8]| Words(vec![word]).list(0, -5, 70);
        assert_eq!(list(b"-"), Ok(vec![]));
        assert_eq!(list(b"1,-2,03"), Ok(vec![1, -2, 3]));
        assert_eq!(list(b"-5"), Ok(vec![-5]));
        assert_eq!(list(b"1,71,2"), Err(NoCall::OutOfRange));
        for word in [&b"1,,2"[..], b",", b"1,", b",1", b"71,x", b"1,-,2", b"--1"] {
            assert_eq!(list(word), Err(NoCall::NotANumber));
        }
    }
}
