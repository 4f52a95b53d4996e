//! The values of the example replies of 000. The frames printed there have lost bytes, so the words are those of the
//! tables beside them; with these the frames close with the printed checksums 52CB, 6253 and E0F3.

/// Reply 01: lot 2, version 0.223.
pub const MAKER: [i32; 3] = [2, 0, 223];

/// Reply 02: the settings.
pub const SETTINGS: [i32; 50] = [
    3100, 20, 4, 55, 50, 2, 0, 5, 2, 60, 55, 2, -20, -15, 2, 72, 2, 301, 49, 2, 301, 172, 88, -170, 2, 15, 400, 88, 80,
    65, 2, 450, 0, 30, 1000, 1, -1500, 1, 4500, 0, 1000, 0, 229_995, 1, 1, 1, 1, 3000, 50, 10_000,
];

/// The settings of the example pack that their registers would not take (000, "Target register definitions"), each with
/// a value that they do: the greatest current, and for the short circuit the codes of 450 mV (note 1) and of 0 µs.
const SETTABLE: [(usize, i64); 4] = [(21, 62), (26, 100), (31, 14), (32, 1)];

/// The settings of the example pack, with some of them changed.
pub fn pack(changes: &[(usize, i64)]) -> Vec<i64> {
    let mut words = SETTINGS.map(i64::from);
    changes.iter().for_each(|&(setting, word)| words[setting] = word);
    words.to_vec()
}

/// The settings of a pack like it that a restore can bring back, with some of them changed.
pub fn settable(changes: &[(usize, i64)]) -> Vec<i64> {
    pack(&[&SETTABLE, changes].concat())
}

/// Reply 03: the live values.
pub const LIVE: [i32; 53] = [
    0x14BC,
    0,
    0,
    229_995,
    0,
    0,
    0,
    0,
    0,
    223,
    0,
    1,
    1,
    1,
    1,
    1,
    16,
    1,
    1,
    1,
    1,
    0x0BA2,
    0x0BA1,
    0x0BA8,
    0x0BE3,
    0xFFFF,
    53_100,
    53_070,
    i32::MIN,
    18,
    i32::MIN,
    955,
    0,
    0,
    0,
    0,
    0,
    0,
    0,
    0,
    0,
    0,
    0,
    0,
    0,
    79,
    0,
    0xFFFF,
    0xFFFF,
    0,
    229,
    0,
    0x147A,
];

/// The words as the bytes of a reply, each low byte first.
pub fn bytes(words: &[i32]) -> Vec<u8> {
    words.iter().flat_map(|word| word.to_le_bytes()).collect()
}
