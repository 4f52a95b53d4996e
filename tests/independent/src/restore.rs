//! The restore of the Pathfinder settings (01, "Restore"; 02, request 2).

use crate::line::{shown, NoCall, Words};
use crate::pathfinder::{self, fits_setting, writable, Reply, Request, WRITE};
use crate::refusal::{answer as refusable, Refusal};
use std::collections::VecDeque;

/// How many settings there are.
pub const SETTINGS: usize = 50;

/// The pairs: the first member stays strictly above the second. They are the thresholds and recoveries of
/// temperatures; a cell voltage recovers by a hysteresis, a short circuit after seconds.
pub const PAIRS: [(usize, usize); 5] = [(3, 4), (7, 6), (9, 10), (13, 12), (28, 29)];

/// Whether no register has the number and the name of a setting: the registers 47 to 49 are other things (000, "Target
/// register definitions").
pub fn is_fixed(setting: usize) -> bool {
    (47..=49).contains(&setting)
}

/// A restore. Which registers are still to be written, and in which order, is settled when it is opened.
pub struct Job {
    picture: Vec<i64>,
    wanted: Vec<i64>,
    plan: VecDeque<usize>,
    state: State,
}

#[derive(Clone, Copy, PartialEq, Eq)]
enum State {
    Ready,
    Waiting,
    Stopped,
}

impl Job {
    /// Opens a restore of the wanted values on a reading of the pack.
    pub fn open(present: &[i64], wanted: &[i64]) -> Result<Job, Refusal> {
        if present.len() != SETTINGS || wanted.len() != SETTINGS {
            return Err(Refusal::Shape);
        }
        if !(0..SETTINGS).all(|setting| fits_setting(setting, present[setting])) {
            return Err(Refusal::Shape);
        }
        let (fixed, free): (Vec<usize>, Vec<usize>) = (0..SETTINGS).partition(|&setting| is_fixed(setting));
        if fixed.into_iter().any(|setting| wanted[setting] != present[setting]) {
            return Err(Refusal::Register);
        }
        for setting in free {
            writable(setting, wanted[setting])?;
            if !fits_setting(setting, wanted[setting]) {
                return Err(Refusal::Value);
            }
        }
        let crossed = |values: &[i64]| PAIRS.iter().any(|&(upper, lower)| values[upper] <= values[lower]);
        if crossed(wanted) {
            return Err(Refusal::WantedCrossed);
        }
        if crossed(present) {
            return Err(Refusal::PresentCrossed);
        }
        Ok(Job { picture: present.to_vec(), wanted: wanted.to_vec(), plan: plan(present, wanted), state: State::Ready })
    }

    /// The next frame for the pack, or nothing if all is done.
    pub fn next(&mut self, room: usize) -> Result<Option<Vec<u8>>, Refusal> {
        if self.state != State::Ready {
            return Err(Refusal::OutOfTurn);
        }
        let Some(&register) = self.plan.front() else {
            return Ok(None);
        };
        let frame = pathfinder::write(room, Request::Set(register, self.wanted[register]))?;
        self.state = State::Waiting;
        Ok(Some(frame))
    }

    /// Takes the pack's reply to the last frame.
    pub fn reply(&mut self, input: &[u8]) -> Result<Reply, Refusal> {
        if self.state != State::Waiting {
            return Err(Refusal::OutOfTurn);
        }
        let reply = pathfinder::read(WRITE, 0, input)?;
        match reply {
            Reply::Failure(_) => self.state = State::Stopped,
            _ => {
                self.state = State::Ready;
                if let Some(register) = self.plan.pop_front() {
                    self.picture[register] = self.wanted[register];
                }
            }
        }
        Ok(reply)
    }

    /// How many settings differ from the wanted ones.
    pub fn left(&self) -> usize {
        self.picture.iter().zip(&self.wanted).filter(|(present, wanted)| present != wanted).count()
    }
}

/// The registers to be written, in their order.
fn plan(present: &[i64], wanted: &[i64]) -> VecDeque<usize> {
    let mut plan = VecDeque::new();
    for register in 0..SETTINGS {
        match PAIRS.iter().find(|(one, other)| register == *one || register == *other) {
            None => plan.push_back(register),
            Some(&(upper, lower)) if register == upper.min(lower) => {
                plan.extend(if wanted[upper] > present[upper] { [upper, lower] } else { [lower, upper] });
            }
            // The pair has been placed with its lower number.
            Some(_) => {}
        }
    }
    plan.retain(|&register| present[register] != wanted[register]);
    plan
}

/// Answers a line whose first word is `restore`. Only an opening that is not refused changes which job there is.
pub fn answer(line: &Words, job: &mut Option<Job>) -> Result<String, NoCall> {
    let numbers = |place: usize| line.list(place, i32::MIN.into(), i32::MAX.into());
    match line.at(1)? {
        b"open" => {
            line.count(4)?;
            let (present, wanted) = (numbers(2)?, numbers(3)?);
            Ok(refusable(Job::open(&present, &wanted).map(|opened| {
                *job = Some(opened);
                "opened".to_string()
            })))
        }
        b"next" => {
            line.count(3)?;
            let room = line.room(2)?;
            let next = job.as_mut().ok_or(NoCall::NoJob)?.next(room);
            Ok(refusable(next.map(|frame| match frame {
                Some(frame) => format!("frame {}", shown(&frame)),
                None => "done".to_string(),
            })))
        }
        b"reply" => {
            line.count(3)?;
            let input = line.hex(2)?;
            let reply = job.as_mut().ok_or(NoCall::NoJob)?.reply(&input);
            Ok(refusable(reply.map(|reply| match reply {
                Reply::Failure(code) => format!("failure {code:02X}"),
                _ => "written".to_string(),
            })))
        }
        b"left" => {
            line.count(2)?;
            let left = job.as_ref().ok_or(NoCall::NoJob)?.left();
            Ok(format!("ok left {left}"))
        }
        _ => Err(NoCall::UnknownWord),
    }
}

#[cfg(test)]
mod tests {
    use super::*;
    use crate::examples::{pack, settable};
    use crate::pathfinder::limits_of_setting;

    /// The registers and values that an uncut restore writes.
    fn written(present: &[i64], wanted: &[i64]) -> Vec<(usize, i64)> {
        let mut job = Job::open(present, wanted).unwrap_or_else(|_| panic!("refused"));
        let mut written = Vec::new();
        let left = job.left();
        while let Some(frame) = job.next(11).unwrap() {
            match pathfinder::parse(&frame).unwrap() {
                Request::Set(register, value) => written.push((register, value)),
                Request::Ask(_) => panic!("not a write"),
            }
            assert_eq!(job.next(11), Err(Refusal::OutOfTurn));
            assert_eq!(job.left(), left + 1 - written.len());
            assert_eq!(job.reply(&pathfinder::frame(WRITE, &[])), Ok(Reply::Written));
        }
        assert_eq!(job.left(), 0);
        written
    }

    #[test]
    fn pairs_move_without_crossing() {
        for (wanted, expected) in [
            ([(3, 70), (4, 60)], &[(3, 70), (4, 60)][..]),
            ([(3, 45), (4, 40)], &[(4, 40), (3, 45)]),
            ([(3, 60), (4, 40)], &[(3, 60), (4, 40)]),
            ([(3, 54), (4, 53)], &[(4, 53), (3, 54)]),
            ([(3, 55), (4, 54)], &[(4, 54)]),
            ([(6, 10), (7, 11)], &[(7, 11), (6, 10)]),
            ([(6, -9), (7, -8)], &[(6, -9), (7, -8)]),
            ([(28, 150), (29, 149)], &[(28, 150), (29, 149)]),
            ([(28, 64), (29, 0)], &[(29, 0), (28, 64)]),
        ] {
            assert_eq!(written(&settable(&[]), &settable(&wanted)), expected);
        }
    }

    #[test]
    fn a_pair_stands_at_the_place_of_its_lower_number() {
        let up = [(5, 0), (6, 10), (7, 11), (8, 0), (27, 1), (28, 100), (29, 99), (30, 0)];
        assert_eq!(registers(&up), [5, 7, 6, 8, 27, 28, 29, 30]);
        let down = [(5, 0), (6, -9), (7, -8), (8, 0), (27, 1), (28, 20), (29, 10), (30, 0)];
        assert_eq!(registers(&down), [5, 6, 7, 8, 27, 29, 28, 30]);
    }

    fn registers(wanted: &[(usize, i64)]) -> Vec<usize> {
        written(&settable(&[]), &settable(wanted)).into_iter().map(|(register, _)| register).collect()
    }

    /// Every pair is moved so that its higher number goes first.
    #[test]
    fn differing_settings_are_written_once_in_ascending_order() {
        let mut every: Vec<(usize, i64)> = (0..47).map(|setting| (setting, settable(&[])[setting] - 1)).collect();
        for changed in
            [(6, 1), (7, 6), (12, -19), (13, -14), (16, 3), (19, 3), (32, 2), (39, 1), (41, 1), (42, i32::MIN.into())]
        {
            every[changed.0] = changed;
        }
        let pairs = [4, 3, 5, 7, 6, 8, 10, 9, 11, 13, 12];
        assert!(registers(&every).into_iter().eq((0..3).chain(pairs).chain(14..28).chain([29, 28]).chain(30..47)));
        assert_eq!(registers(&[]), []);
    }

    #[test]
    fn the_example_pack_goes_to_values_in_range_and_not_to_its_own() {
        assert_eq!(written(&pack(&[]), &settable(&[])), [(21, 62), (26, 100), (31, 14), (32, 1)]);
        assert_eq!(refusal(&pack(&[]), &pack(&[])), Some(Refusal::Value));
        for place in [21, 26, 31, 32] {
            let own = pack(&[])[place];
            assert_eq!(refusal(&pack(&[]), &settable(&[(place, own)])), Some(Refusal::Value), "setting {place}");
        }
    }

    fn refusal(present: &[i64], wanted: &[i64]) -> Option<Refusal> {
        Job::open(present, wanted).err()
    }

    /// The refusal of an opening on a settable pack with some words changed, to values of which some are changed.
    fn changed(present: &[(usize, i64)], wanted: &[(usize, i64)]) -> Option<Refusal> {
        refusal(&settable(present), &settable(wanted))
    }

    #[test]
    fn lists_of_another_length() {
        let right = settable(&[]);
        let more = settable(&[]).into_iter().chain([0]).collect::<Vec<_>>();
        assert_eq!(refusal(&right, &right), None);
        for wrong in [&right[..49], &right[..15], &more, &[]] {
            assert_eq!(refusal(wrong, &right), Some(Refusal::Shape));
            assert_eq!(refusal(&right, wrong), Some(Refusal::Shape));
            assert_eq!(refusal(wrong, wrong), Some(Refusal::Shape));
        }
    }

    #[test]
    fn present_words_outside_their_types() {
        for setting in 0..SETTINGS {
            let (least, most) = limits_of_setting(setting);
            for word in [least, most, least - 1, most + 1, -1, 2] {
                let refused = changed(&[(setting, word)], &[]) == Some(Refusal::Shape);
                assert_eq!(refused, !fits_setting(setting, word), "{word} in setting {setting}");
            }
        }
        for (setting, word) in [(43, 2), (46, -1), (48, 256), (1, -1), (28, 256)] {
            assert_eq!(changed(&[(setting, word)], &[]), Some(Refusal::Shape), "{word} in setting {setting}");
        }
        for (setting, word) in [(3, 127), (16, 255), (21, i32::MIN.into()), (26, -1), (42, -1), (46, 0)] {
            assert_eq!(changed(&[(setting, word)], &[]), None, "{word} in setting {setting}");
        }
    }

    #[test]
    fn a_fixed_setting_stays_as_it_is_whatever_that_is() {
        for (setting, word) in [(47, -1), (47, 0), (48, 0), (48, 255), (49, 0), (49, i32::MIN.into())] {
            assert_eq!(changed(&[(setting, word)], &[(setting, word)]), None, "{word} in setting {setting}");
            assert_eq!(changed(&[(setting, word)], &[]), Some(Refusal::Register), "{word} in setting {setting}");
            assert_eq!(changed(&[], &[(setting, word)]), Some(Refusal::Register), "{word} in setting {setting}");
        }
        assert_eq!(changed(&[], &[(48, 256)]), Some(Refusal::Register));
    }

    /// 01, "Restore", with 10 after 8 and before 9 (02, request 2).
    #[test]
    fn the_first_of_several_errors_is_given() {
        let errors = [
            (Refusal::Shape, &[(1, 256)][..], &[][..]),
            (Refusal::Register, &[], &[(48, 51)]),
            (Refusal::Value, &[], &[(2, 17)]),
            (Refusal::WantedCrossed, &[], &[(28, 65)]),
            (Refusal::PresentCrossed, &[(12, -15)], &[]),
        ];
        for chosen in 0..1 << errors.len() {
            let places = (0..errors.len()).filter(|place| chosen >> place & 1 == 1);
            let made: Vec<_> = places.map(|place| errors[place]).collect();
            let present: Vec<_> = made.iter().flat_map(|error| error.1).copied().collect();
            let wanted: Vec<_> = made.iter().flat_map(|error| error.2).copied().collect();
            assert_eq!(changed(&present, &wanted), made.first().map(|error| error.0), "{made:?}");
        }
    }

    #[test]
    fn no_pair_may_be_crossed_or_equal() {
        for (upper, lower) in PAIRS {
            for (above, below) in [(20, 20), (20, 21)] {
                let crossed = [(upper, above), (lower, below)];
                assert_eq!(changed(&[], &crossed), Some(Refusal::WantedCrossed), "pair {upper}, {lower}");
                assert_eq!(changed(&crossed, &[]), Some(Refusal::PresentCrossed), "pair {upper}, {lower}");
            }
        }
    }

    #[test]
    fn steps_out_of_turn_and_failures() {
        let mut job = Job::open(&settable(&[]), &settable(&[(0, 1), (1, 1)])).unwrap_or_else(|_| panic!("refused"));
        let done = pathfinder::frame(WRITE, &[]);
        assert_eq!(job.reply(&[]), Err(Refusal::OutOfTurn));
        assert_eq!(job.next(10), Err(Refusal::Room));
        assert_eq!(job.reply(&done), Err(Refusal::OutOfTurn));
        assert!(job.next(11).unwrap().is_some());
        assert_eq!(job.reply(&done[..5]), Err(Refusal::TooShort));
        assert_eq!(job.reply(&pathfinder::frame(0x05, &[])), Err(Refusal::Request));
        assert_eq!(job.next(0), Err(Refusal::OutOfTurn));
        assert_eq!(job.reply(&done), Ok(Reply::Written));
        assert_eq!(job.left(), 1);
        assert!(job.next(11).unwrap().is_some());
        assert_eq!(job.reply(&pathfinder::frame(0x24, &[])), Ok(Reply::Failure(0x24)));
        assert_eq!(job.next(11), Err(Refusal::OutOfTurn));
        assert_eq!(job.reply(&done), Err(Refusal::OutOfTurn));
        assert_eq!(job.left(), 1);
    }
}
