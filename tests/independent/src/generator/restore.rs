//! Restore lines (docs/CONSOLE.md; 01, "Restore"; 02, request 2): whole dialogues with raising and lowering pairs,
//! replies that are refused, foreign, late or lost, device failures, and every refused opening. A small model of the
//! job tells which lines fit next.

use super::lines::Draft;
use super::pathfinder::{as_word, framed, FAILURES};
use super::random::{Errors, Random};
use super::{Area, Drafts, Sample};
use crate::examples::{pack, settable};
use crate::pathfinder::{frame, limits_of_setting, writable, REGISTERS};
use crate::restore::{is_fixed, PAIRS, SETTINGS};

pub const AREA: Area = Area { name: "restore", chosen, start: || Box::new(Dialogue::Closed(6)) };

/// Numbers from a least to a greatest one.
type Bounds = (i64, i64);

/// Whether every word lies within bounds.
fn is_every_word((least, most): Bounds) -> bool {
    most - least == u32::MAX.into()
}

/// What a setting may be wanted to be: what its register takes, or for a fixed one what its type does.
fn range(setting: usize) -> Bounds {
    match REGISTERS.into_iter().find(|row| row.0 == setting) {
        Some((_, _, least, most)) if !is_fixed(setting) => (least, most),
        _ => limits_of_setting(setting),
    }
}

/// The settings whose register does not take every word.
fn ranged() -> Vec<usize> {
    (0..SETTINGS).filter(|&setting| !is_fixed(setting) && !is_every_word(range(setting))).collect()
}

/// The settings whose type is not every word.
fn narrow() -> Vec<usize> {
    (0..SETTINGS).filter(|&setting| !is_every_word(limits_of_setting(setting))).collect()
}

/// What the generator knows of the job, as long as nothing unforeseen was sent: how many lines are still to come
/// before the first opening, or how many writes are left.
enum Dialogue {
    Closed(usize),
    Ready(usize),
    Waiting(usize),
    Stopped,
}

impl Drafts for Dialogue {
    fn draft(&mut self, random: &mut Random) -> Draft {
        match self {
            Dialogue::Closed(0) => self.open(random),
            Dialogue::Closed(lines) => {
                *lines -= 1;
                any_line(random)
            }
            Dialogue::Ready(left) => match random.below(20) {
                0..=12 => {
                    if *left > 0 {
                        *self = Dialogue::Waiting(*left);
                    } else if random.one_in(2) {
                        return self.open(random);
                    }
                    next(random.room(11, false), random)
                }
                13 => next(random.room(11, true), random),
                14..=15 => Draft::of("restore left"),
                16 => any_reply(random),
                _ if *left > 0 && random.one_in(2) => {
                    *self = Dialogue::Waiting(*left);
                    next(11, random)
                }
                _ => self.open(random),
            },
            Dialogue::Waiting(left) => match random.below(20) {
                0..=10 => {
                    *self = Dialogue::Ready(*left - 1);
                    reply(&frame(0x0E, &[]), random)
                }
                11..=14 => refused_reply(random),
                15 => {
                    *self = Dialogue::Stopped;
                    reply(&frame(random.pick(&FAILURES), &[]), random)
                }
                16 => next(random.pick(&[0, 10, 11, 8192]), random),
                17..=18 => Draft::of("restore left"),
                _ => self.open(random),
            },
            Dialogue::Stopped => match random.below(3) {
                0 => any_line(random),
                _ => self.open(random),
            },
        }
    }
}

impl Dialogue {
    fn open(&mut self, random: &mut Random) -> Draft {
        let errors = if random.one_in(2) { random.errors(&OPENING) } else { Errors::of(&[]) };
        let (mut present, mut wanted) = opening(random);
        if errors.is_empty() {
            *self = Dialogue::Ready(differing(&present, &wanted));
        }
        spoil(&mut present, &mut wanted, &errors, random);
        Draft::of("restore open").word(decorated(&present, random)).word(decorated(&wanted, random))
    }
}

/// The refusals of an opening, in their order (01, "Restore"; 02, request 2).
const OPENING: [u8; 5] = [8, 10, 9, 12, 15];

/// Gives an opening these errors. The first of them in the order is how it is refused.
fn spoil(present: &mut Vec<i64>, wanted: &mut Vec<i64>, errors: &Errors, random: &mut Random) {
    if errors.has(15) {
        cross(present, random.pick(&PAIRS), random);
    }
    if errors.has(12) {
        cross(wanted, random.pick(&PAIRS), random);
    }
    if errors.has(9) {
        let setting = random.pick(&ranged());
        let (least, most) = range(setting);
        wanted[setting] = match random.below(4) {
            0 => least - 1,
            1 => most + 1,
            2 => random.pick(&[i32::MIN.into(), i32::MAX.into()]),
            _ => random.within(least, most) + 65_536,
        };
    }
    if errors.has(10) {
        let setting = random.pick(&[47, 48, 49]);
        wanted[setting] = as_word(wanted[setting] + random.pick(&[1, -1, 256, 65_536, i32::MIN.into()]));
    }
    if errors.has(8) {
        let setting = random.pick(&narrow());
        let (least, most) = limits_of_setting(setting);
        match random.below(7) {
            0 => present[setting] = least - 1,
            1 => present[setting] = most + 1,
            2 => present[setting] += random.pick(&[-65_536, 65_536]),
            3 => present[setting] = random.pick(&[i32::MIN.into(), i32::MAX.into()]),
            4 => present[random.pick(&[43, 44, 45, 46])] = random.pick(&[2, -1, 255, 256]),
            5 => present.resize(random.pick(&[0, 1, 15, 47, 49, 51, 53]), 0),
            _ => wanted.resize(random.pick(&[0, 1, 15, 47, 49, 51, 53]), 0),
        }
    }
}

/// A reading of a pack and the wanted values of its settings, neither with a crossed pair. Half of the packs are as
/// they may be set, so that they can be brought back; of the others a few settings or all may be outside their ranges.
pub fn opening(random: &mut Random) -> (Vec<i64>, Vec<i64>) {
    let odd = random.pick(&[0, 0, SETTINGS / 10, SETTINGS]);
    let of_present = |setting: usize, random: &mut Random| match random.below(SETTINGS) < odd {
        true => limits_of_setting(setting),
        false => range(setting),
    };
    let present = settings(of_present, random);
    let mut wanted = settings(|setting, _| range(setting), random);
    for setting in (0..SETTINGS).filter(|&setting| is_fixed(setting)) {
        wanted[setting] = present[setting];
    }
    for _ in 0..random.pick(&[0, 10, 30, 60, 120, 240]) {
        let setting = random.below(SETTINGS);
        let before = wanted[setting];
        if may_be_wanted(setting, present[setting]) {
            wanted[setting] = present[setting];
        }
        if PAIRS.iter().any(|&pair| is_crossed(&wanted, pair)) {
            wanted[setting] = before;
        }
    }
    (present, wanted)
}

/// Whether a restore may be asked to bring a setting to a word that it has had.
pub fn may_be_wanted(setting: usize, word: i64) -> bool {
    is_fixed(setting) || writable(setting, word).is_ok()
}

/// Words within the bounds of each setting, no pair crossed, and often on the bounds or next to each other.
fn settings(bounds: impl Fn(usize, &mut Random) -> Bounds, random: &mut Random) -> Vec<i64> {
    let bounds: Vec<Bounds> = (0..SETTINGS).map(|setting| bounds(setting, random)).collect();
    let mut values: Vec<i64> = bounds
        .iter()
        .map(|&(least, most)| match random.below(8) {
            0 => least,
            1 => most,
            2 => random.within(-1, 300).clamp(least, most),
            _ => random.within(least, most),
        })
        .map(as_word)
        .collect();
    for (upper, lower) in PAIRS {
        let (least, most) = bounds[lower];
        values[lower] = match random.below(6) {
            0 => least,
            1 => most - 1,
            _ => random.within(least, most - 1),
        };
        values[upper] = match random.below(3) {
            0 => values[lower] + 1,
            _ => random.within(values[lower] + 1, most),
        };
    }
    values
}

fn is_crossed(values: &[i64], (upper, lower): (usize, usize)) -> bool {
    values[upper] <= values[lower]
}

/// Crosses a pair, or makes its members equal.
fn cross(values: &mut [i64], (upper, lower): (usize, usize), random: &mut Random) {
    if random.one_in(2) {
        values.swap(upper, lower);
    } else {
        values[upper] = values[lower];
    }
}

/// How many settings differ.
pub fn differing(present: &[i64], wanted: &[i64]) -> usize {
    present.iter().zip(wanted).filter(|(one, other)| one != other).count()
}

/// Numbers as LIST.
pub fn list(numbers: &[i64]) -> String {
    if numbers.is_empty() {
        return "-".to_string();
    }
    let words: Vec<String> = numbers.iter().map(i64::to_string).collect();
    words.join(",")
}

/// Numbers as LIST, now and then some with leading zeros or as `-0`.
fn decorated(numbers: &[i64], random: &mut Random) -> String {
    let word = list(numbers);
    if random.one_in(10) {
        word.replace(",0,", ",-0,").replace(",2", ",002")
    } else {
        word
    }
}

fn next(room: i64, random: &mut Random) -> Draft {
    Draft::of("restore next").number(room, random)
}

fn reply(input: &[u8], random: &mut Random) -> Draft {
    Draft::of("restore reply").hex(input, random)
}

/// A reply that a waiting job refuses: damaged, foreign, or of the wrong shape.
fn refused_reply(random: &mut Random) -> Draft {
    let mut opcode = 0x0E;
    let mut data = Vec::new();
    match random.below(5) {
        0 => opcode = random.pick(&[0x01, 0x02, 0x05, 0x06, 0x0D, 0x25, 0x28, 0x2C, 0x2E]),
        1 => data = random.bytes(1),
        2 => {
            opcode = random.pick(&FAILURES);
            data = random.bytes(2);
        }
        _ => {
            let number = random.pick(&[1, 2, 4, 3, 5]);
            let errors = Errors::of(&[number, random.pick(&[1, 2, 4, 3, 5, 5])]);
            return reply(&framed(opcode, &data, &errors, random), random);
        }
    }
    reply(&frame(opcode, &data), random)
}

/// A line for a job that answers none of them with a frame.
fn any_line(random: &mut Random) -> Draft {
    match random.below(3) {
        0 => Draft::of("restore left"),
        1 => next(random.pick(&[0, 10, 11, 12, 8192]), random),
        _ => any_reply(random),
    }
}

fn any_reply(random: &mut Random) -> Draft {
    match random.below(3) {
        0 => reply(&frame(0x0E, &[]), random),
        1 => reply(&frame(random.pick(&FAILURES), &[]), random),
        _ => refused_reply(random),
    }
}

/// The reply of a pack that has written.
const WRITTEN: &str = "restore reply FE010ED2FFFD";

fn chosen(sample: &mut Sample) {
    no_job(sample);
    steps(sample);
    pairs(sample);
    the_example(sample);
    fixed(sample);
    replies(sample);
    openings(sample);
    no_calls(sample);
}

/// An opening on a pack like the example one of 000 that is as it may be set, some of its words changed, and with some
/// wanted values other than its own.
fn open(present: &[(usize, i64)], wanted: &[(usize, i64)]) -> String {
    lists(&settable(present), &settable(wanted))
}

fn lists(present: &[i64], wanted: &[i64]) -> String {
    format!("restore open {} {}", list(present), list(wanted))
}

fn no_job(sample: &mut Sample) {
    sample.show("Before the first opening there is no job", "restore next 11");
    sample.more(WRITTEN);
    sample.more("restore reply -");
    sample.more("restore left");
    sample.show("other errors of a line come first", "restore next x");
    sample.more("restore next 8193");
    sample.more("restore reply 0");
    sample.more("restore left 1");
    sample.show("A refused opening makes none", "restore open - -");
    sample.more("restore left");
}

fn steps(sample: &mut Sample) {
    sample.show("A pack that is as it is wanted: done at once, and again", open(&[], &[]));
    for line in ["restore left", "restore next 0", "restore next 11", WRITTEN, "restore left"] {
        sample.more(line);
    }
    sample.show("One setting differs: a frame, a reply, done", open(&[], &[(0, 3000)]));
    for line in [
        "restore left",
        "restore next 0",
        "restore next 10",
        "restore next 11",
        "restore left",
        "restore next 11",
        "restore next 0",
        WRITTEN,
        "restore left",
        WRITTEN,
        "restore next 11",
        "restore next 11",
    ] {
        sample.more(line);
    }
    let every = every();
    uncut(sample, "All 47 settings that may be written differ", &every);
    sample.show("An opening in between begins anew", open(&[], &every));
    sample.more("restore next 11");
    sample.more(open(&[], &[(14, 3)]));
    sample.more("restore left");
    sample.more(WRITTEN);
    sample.more("restore next 11");
    sample.show("A refused opening keeps the job, here a waiting one", open(&[], &[(3, 50), (4, 50)]));
    for line in ["restore left", "restore next 11", WRITTEN, "restore left", "restore next 11"] {
        sample.more(line);
    }
    sample.show("A present temperature may be beyond its range", open(&[(3, 127), (4, 126)], &[]));
    for line in ["restore left", "restore next 11", WRITTEN, "restore next 11", WRITTEN, "restore next 11"] {
        sample.more(line);
    }
}

/// A wanted value other than its own for every setting of the pack that may be written: the greatest one, or the least.
/// In every pair the higher number goes first.
fn every() -> Vec<(usize, i64)> {
    let own = settable(&[]);
    let mut every: Vec<(usize, i64)> = Vec::new();
    for setting in (0..SETTINGS).filter(|&setting| !is_fixed(setting)) {
        let (least, most) = range(setting);
        every.push((setting, as_word(if as_word(most) == own[setting] { least } else { most })));
    }
    for (upper, lower) in PAIRS {
        let (least, most) = range(upper);
        (every[upper].1, every[lower].1) = if upper > lower { (most, most - 1) } else { (least + 1, least) };
    }
    every
}

/// Every setting at one end of its bounds, the members of a pair next to each other.
fn ends(bounds: fn(usize) -> Bounds, greatest: bool) -> Vec<i64> {
    let end = |(least, most)| as_word(if greatest { most } else { least });
    let mut values: Vec<i64> = (0..SETTINGS).map(bounds).map(end).collect();
    for (upper, lower) in PAIRS {
        if greatest {
            values[lower] -= 1;
        } else {
            values[upper] += 1;
        }
    }
    values
}

/// A whole restore of the pack to these values.
fn uncut(sample: &mut Sample, comment: &str, wanted: &[(usize, i64)]) {
    whole(sample, comment, &settable(&[]), &settable(wanted));
}

fn whole(sample: &mut Sample, comment: &str, present: &[i64], wanted: &[i64]) {
    sample.show(comment, lists(present, wanted));
    for _ in 0..differing(present, wanted) {
        sample.more("restore left");
        sample.more("restore next 11");
        sample.more(WRITTEN);
    }
    sample.more("restore left");
    sample.more("restore next 11");
}

fn pairs(sample: &mut Sample) {
    for (comment, wanted) in [
        ("Raising 55, 50 to 70, 60 writes 3 then 4 (P11)", [(3, 70), (4, 60)]),
        ("Lowering 55, 50 to 45, 40 writes 4 then 3 (P11)", [(3, 45), (4, 40)]),
        ("Widening 55, 50 to 60, 40: the upper goes first", [(3, 60), (4, 40)]),
        ("Narrowing 55, 50 to 54, 53: the lower goes first", [(3, 54), (4, 53)]),
        ("The lower member alone", [(3, 55), (4, 54)]),
        ("The upper member alone", [(3, 51), (4, 50)]),
        ("Raising 7 above 6", [(6, 10), (7, 11)]),
        ("Lowering them", [(6, -20), (7, -10)]),
        ("Raising 6 to where 7 was", [(6, 5), (7, 6)]),
        ("Lowering 7 to where 6 was", [(6, -1), (7, 0)]),
        ("Raising 9 above 10", [(9, 80), (10, 70)]),
        ("Lowering them", [(9, 54), (10, -40)]),
        ("Raising 13 above 12", [(12, 0), (13, 120)]),
        ("Lowering them", [(12, -40), (13, -39)]),
        ("Raising 80, 65 to 150, 149 writes 28 then 29", [(28, 150), (29, 149)]),
        ("Lowering 80, 65 to 65, 0 writes 29 then 28", [(28, 65), (29, 0)]),
        ("Raising 29 to where 28 was", [(28, 81), (29, 80)]),
    ] {
        uncut(sample, comment, &wanted);
    }
    uncut(
        sample,
        "All pairs at once, three up and two down",
        &[(3, 119), (4, 118), (6, -40), (7, -39), (9, -38), (10, -39), (12, 119), (13, 120), (28, 100), (29, 90)],
    );
    uncut(
        sample,
        "A pair stands at the place of its lower number, so 5, 7, 6, 8, 27, 29, 28, 30",
        &[(5, 0), (6, 10), (7, 11), (8, 0), (27, 1), (28, 20), (29, 10), (30, 0)],
    );
}

fn the_example(sample: &mut Sample) {
    whole(sample, "The example pack of 000 goes to values in range", &pack(&[]), &settable(&[]));
    sample.show("and not to its own settings 21, 26, 31 and 32: 9", lists(&pack(&[]), &pack(&[])));
    for setting in [21, 26, 31, 32] {
        sample.more(lists(&pack(&[]), &settable(&[(setting, pack(&[])[setting])])));
    }
}

fn fixed(sample: &mut Sample) {
    sample.show("A fixed setting that differs: 10", open(&[], &[(47, 3001)]));
    for (setting, word) in [(47, -1), (48, 51), (48, 256), (48, 3), (49, 9999), (49, 200), (49, i32::MIN.into())] {
        sample.more(open(&[], &[(setting, word)]));
    }
    sample.show("also if its present word is another: 10", open(&[(48, 51)], &[]));
    let odd = [(47, -1), (48, 255), (49, 0)];
    sample.show("One that stays as it is may hold what no register takes", open(&odd, &odd));
    for line in ["restore left", "restore next 11"] {
        sample.more(line);
    }
    sample.show("It is never written", open(&odd, &[&odd[..], &[(46, 0)]].concat()));
    for line in ["restore left", "restore next 11", WRITTEN, "restore left", "restore next 11"] {
        sample.more(line);
    }
}

fn replies(sample: &mut Sample) {
    sample.show("Two settings differ", open(&[], &[(1, 0), (2, 0)]));
    sample.show("A reply before a frame, however wrong it is: 14", "restore reply -");
    sample.more(WRITTEN);
    sample.more("restore next 11");
    sample.show("Refused replies leave the job waiting: 1", "restore reply FE010ED2FF");
    for (comment, line) in [
        ("2", "restore reply FD010ED2FFFD"),
        ("4", "restore reply FE020ED2FFFD"),
        ("3", "restore reply FE010ED2FFFE"),
        ("5", "restore reply FE010ED2FEFD"),
        ("7, the reply to another request", "restore reply FE01056394FD"),
        ("8, a reply with data", "restore reply FE020E004D6FFD"),
        ("8, a failure with data", "restore reply FE0224785BDDFD"),
        ("and still it waits", "restore next 11"),
        ("until the reply comes", WRITTEN),
        ("Its register is written, one is left", "restore left"),
    ] {
        sample.show(comment, line);
    }
    for code in FAILURES {
        sample.show("A failure stops the job", open(&[], &[(1, 0), (2, 0)]));
        sample.more("restore next 11");
        sample.more(format!("restore reply {}", super::lines::hex(&frame(code, &[]))));
        for line in ["restore next 11", "restore next 0", WRITTEN, "restore reply -", "restore left"] {
            sample.more(line);
        }
    }
    sample.show("A new one on a fresh reading goes on", open(&[(1, 0)], &[(1, 0), (2, 0)]));
    for line in ["restore left", "restore next 11", WRITTEN, "restore next 11"] {
        sample.more(line);
    }
}

fn openings(sample: &mut Sample) {
    let right = settable(&[]);
    let more = [&right[..], &[0]].concat();
    sample.show("Not 50 present words: 8", lists(&right[..49], &right));
    sample.more(lists(&more, &right));
    sample.more(lists(&[], &right));
    sample.show("Not 50 wanted values: 8", lists(&right, &right[..49]));
    for wrong in [&more[..], &right[..15], &right[..47], &[]] {
        sample.more(lists(&right, wrong));
    }
    sample.more("restore open - -");
    sample.show("A list is as long as its line lets it be: 8", format!("restore open {} -", list(&[7; 8000])));
    sample.more(format!("restore open {} {}", list(&[0; 4000]), list(&[1; 4000])));
    sample.show("A bool of 2: 8", open(&[(43, 2)], &[]));
    sample.show("A present word outside its type: 8", open(&[(0, 32_768)], &[]));
    for setting in narrow() {
        let (least, most) = limits_of_setting(setting);
        sample.more(open(&[(setting, least - 1)], &[]));
        sample.more(open(&[(setting, most + 1)], &[]));
    }
    for (comment, greatest) in
        [("Every setting from the least of its type to the least of its range", false), ("and at the greatest", true)]
    {
        sample.show(comment, lists(&ends(limits_of_setting, greatest), &ends(range, greatest)));
        sample.more("restore left");
    }
    sample.show("Every word is one of an I32 and of a U32", open(&[(21, i32::MIN.into()), (23, i32::MAX.into())], &[]));
    sample.more(open(&[(26, -1), (42, i32::MIN.into())], &[(42, -1)]));
    for line in ["restore left", "restore next 11", WRITTEN, "restore next 11", WRITTEN, "restore next 11"] {
        sample.more(line);
    }
    sample.show("A wanted value outside its range: 9", open(&[], &[(0, 5001)]));
    for setting in ranged() {
        let (least, most) = range(setting);
        sample.more(open(&[], &[(setting, least - 1)]));
        sample.more(open(&[], &[(setting, most + 1)]));
    }
    sample.show("or its type: 9", open(&[], &[(3, 128)]));
    sample.more(open(&[], &[(26, -1)]));
    sample.show("Wanted 50, 50 for 3 and 4: 12", open(&[], &[(3, 50), (4, 50)]));
    sample.show("Every wanted pair crossed or equal: 12", open(&[], &[(3, 49)]));
    for (upper, lower) in PAIRS {
        sample.more(open(&[], &[(upper, 20), (lower, 20)]));
        sample.more(open(&[], &[(upper, 20), (lower, 21)]));
    }
    sample.show("Every present pair crossed or equal: 15", open(&[(3, 50)], &[]));
    for (upper, lower) in PAIRS {
        sample.more(open(&[(upper, 20), (lower, 20)], &[]));
        sample.more(open(&[(upper, 20), (lower, 21)], &[]));
    }
    for (comment, present, wanted) in [
        ("Errors 8 and 10: 8", &[(3, 128)][..], &[(47, 0)][..]),
        ("8 and 9: 8", &[(3, 128)], &[(2, 17)]),
        ("8 and 12: 8", &[(3, 128)], &[(3, 50)]),
        ("8 and 15: 8", &[(3, 50), (1, 256)], &[]),
        ("10 and 9: 10", &[], &[(2, 17), (48, 51)]),
        ("10 and 12: 10", &[], &[(3, 50), (48, 51)]),
        ("10 and 15: 10", &[(3, 50)], &[(48, 51)]),
        ("9 and 12: 9", &[], &[(2, 17), (3, 50)]),
        ("9 and 15: 9", &[(3, 50)], &[(2, 17)]),
        ("12 and 15: 12", &[(3, 50)], &[(3, 50)]),
        ("All but 8: 10", &[(3, 50)], &[(2, 17), (3, 50), (48, 51)]),
        ("All of them: 8", &[(3, 50), (1, 256)], &[(2, 17), (3, 50), (48, 51)]),
    ] {
        sample.show(comment, open(present, wanted));
    }
}

fn no_calls(sample: &mut Sample) {
    sample.show("No calls: unknown words", "restore close");
    for line in ["Restore left", "restore Left", "restore opened - -"] {
        sample.more(line);
    }
    sample.show("Too few words", "restore");
    for line in ["restore open", "restore open -", "restore next", "restore reply"] {
        sample.more(line);
    }
    sample.show("Too many words", "restore left 11");
    for line in ["restore open - - -", "restore next 11 11", "restore reply - -"] {
        sample.more(line);
    }
    sample.show("Parameters from left to right, a list as a whole", "restore open 1,x 1");
    for line in [
        "restore open 1,2147483648 x",
        "restore open 2147483648,x 1",
        "restore open 1, 2",
        "restore open ,1 2",
        "restore open 1,,2 2",
        "restore open -,1 2",
        "restore open 1 -2147483649",
        "restore open -2147483648 2147483647",
        "restore open +1 2",
        "restore open 1 1;2",
        "restore open -- -",
        "restore next -1",
        "restore next 8193",
        "restore next -",
        "restore next 011",
        "restore reply 0g",
        "restore reply 0",
    ] {
        sample.more(line);
    }
}

#[cfg(test)]
mod tests {
    use super::*;
    use crate::generator::tests::assert_kinds;
    use crate::restore::Job;
    use std::collections::BTreeSet;

    #[test]
    fn the_lines_reach_every_answer() {
        let mut expected: Vec<String> = [
            "? line too long",
            "? no job",
            "? not a number",
            "? not hex",
            "? number out of range",
            "? too few words",
            "? too many words",
            "? unknown word",
            "restore open: ok opened",
            "restore next: ok frame",
            "restore next: ok done",
            "restore reply: ok written",
            "restore reply: ok failure",
            "restore left: ok left",
        ]
        .map(String::from)
        .to_vec();
        for (call, refusals) in [("open", &OPENING[..]), ("next", &[11, 14]), ("reply", &[14, 1, 2, 4, 3, 5, 7, 8])] {
            expected.extend(refusals.iter().map(|n| format!("restore {call}: refused {n}")));
        }
        let expected: Vec<&str> = expected.iter().map(String::as_str).collect();
        assert_kinds("restore", 60_000, &expected);
    }

    #[test]
    fn openings_move_every_setting_and_every_pair_both_ways() {
        let mut random = Random::new(2);
        let (mut moved, mut pairs, mut back, mut beyond) = (BTreeSet::new(), BTreeSet::new(), 0, BTreeSet::new());
        for _ in 0..400 {
            let (present, wanted) = opening(&mut random);
            assert!(Job::open(&present, &wanted).is_ok());
            back += usize::from(Job::open(&wanted, &present).is_ok());
            moved.extend((0..SETTINGS).filter(|&setting| present[setting] != wanted[setting]));
            beyond.extend((0..SETTINGS).filter(|&setting| !may_be_wanted(setting, present[setting])));
            for (upper, lower) in PAIRS {
                let up = [upper, lower].map(|member| wanted[member].cmp(&present[member]));
                pairs.insert((upper, up));
            }
        }
        assert!(moved.into_iter().eq(0..47));
        assert_eq!(pairs.len(), 9 * PAIRS.len(), "each member up, down or left");
        assert!((150..300).contains(&back), "{back} of 400 can be brought back");
        let ranges_narrower_than_types = (0..47).filter(|&setting| range(setting) != limits_of_setting(setting));
        assert!(beyond.into_iter().eq(ranges_narrower_than_types));
    }

    #[test]
    fn a_spoilt_opening_is_refused_by_the_first_of_its_errors() {
        let mut random = Random::new(2);
        for chosen in 0..1 << OPENING.len() {
            let errors: Vec<u8> =
                (0..OPENING.len()).filter(|place| chosen >> place & 1 == 1).map(|place| OPENING[place]).collect();
            for _ in 0..100 {
                let (mut present, mut wanted) = opening(&mut random);
                spoil(&mut present, &mut wanted, &Errors::of(&errors), &mut random);
                let refusal = Job::open(&present, &wanted).err().map(|refusal| refusal as u8);
                assert_eq!(refusal, errors.first().copied(), "{errors:?}: {present:?} {wanted:?}");
            }
        }
    }
}
