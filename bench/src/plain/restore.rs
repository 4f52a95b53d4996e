//! The restore: the job that stands in bytes, the next write as a frame, and how many settings are left.

use super::pathfinder::set_frame;

/// How many present words and wanted values a job has, and how many settings from the first on may be written.
pub const WORDS: usize = 50;
pub const WANTED: usize = 50;
pub const WRITABLE: usize = 47;

/// The pairs, the upper member before the lower one.
const PAIRS: [(usize, usize); 5] = [(3, 4), (7, 6), (9, 10), (13, 12), (28, 29)];

/// The place of a job's phase in its bytes; the register that is waited for comes after it.
pub const PHASE: usize = 4 * (WORDS + WANTED);

/// How many bytes a job has.
pub const JOB: usize = PHASE + 2;

#[derive(Debug, PartialEq)]
pub enum Step {
    Frame(usize),
    Done,
}

#[derive(Clone, Copy)]
enum Slot {
    Alone(usize),
    Pair { upper: usize, lower: usize },
}

/// The settings in writing order: ascending, a pair at the place of its lower number.
static SLOTS: [Slot; WRITABLE - PAIRS.len()] = slots();

const fn slots() -> [Slot; WRITABLE - PAIRS.len()] {
    let mut slots = [Slot::Alone(0); WRITABLE - PAIRS.len()];
    let (mut n, mut filled) = (0, 0);
    while n < WRITABLE {
        let mut slot = Some(Slot::Alone(n));
        let mut k = 0;
        while k < PAIRS.len() {
            let (upper, lower) = PAIRS[k];
            if n == upper || n == lower {
                let first = if upper < lower { upper } else { lower };
                slot = if n == first { Some(Slot::Pair { upper, lower }) } else { None };
            }
            k += 1;
        }
        if let Some(slot) = slot {
            slots[filled] = slot;
            filled += 1;
        }
        n += 1;
    }
    slots
}

enum Phase {
    Ready,
    Waiting(u8),
    Stopped,
}

struct Job {
    present: [i32; WORDS],
    wanted: [i32; WANTED],
    phase: Phase,
}

impl Job {
    /// The job in the bytes, if they hold one: a job that waits for a register waits for the first of its writes.
    fn read(bytes: &[u8]) -> Option<Job> {
        let bytes: &[u8; JOB] = bytes.try_into().ok()?;
        let phase = match bytes[PHASE] {
            0 => Phase::Ready,
            1 => Phase::Waiting(bytes[PHASE + 1]),
            2 => Phase::Stopped,
            _ => return None,
        };
        let (present, wanted) = bytes[..PHASE].split_at(4 * WORDS);
        let job = Job { present: words(present), wanted: words(wanted), phase };
        match job.phase {
            Phase::Waiting(register) if job.first_write() != Some(usize::from(register)) => None,
            _ => Some(job),
        }
    }

    fn differs(&self, n: usize) -> bool {
        self.present[n] != self.wanted[n]
    }

    /// The first of the writes to come. In a pair the upper member goes first if it is to rise, else the lower one.
    fn first_write(&self) -> Option<usize> {
        SLOTS.iter().find_map(|slot| match *slot {
            Slot::Alone(n) => self.differs(n).then_some(n),
            Slot::Pair { upper, lower } => {
                let rises = self.wanted[upper] > self.present[upper];
                let turns = if rises { [upper, lower] } else { [lower, upper] };
                turns.into_iter().find(|&n| self.differs(n))
            }
        })
    }

    fn left(&self) -> usize {
        self.present.iter().zip(&self.wanted).filter(|(present, wanted)| present != wanted).count()
    }
}

fn words<const N: usize>(bytes: &[u8]) -> [i32; N] {
    let mut row = [0; N];
    for (place, word) in row.iter_mut().zip(bytes.chunks_exact(4)) {
        *place = i32::from_le_bytes([word[0], word[1], word[2], word[3]]);
    }
    row
}

/// The next write of the job in the bytes as a frame, which the job then waits for, or the number of a refusal.
#[inline(never)]
pub fn restore_next(bytes: &mut [u8], out: &mut [u8]) -> Result<Step, u8> {
    let Some(job) = Job::read(bytes) else {
        return Err(8);
    };
    if !matches!(job.phase, Phase::Ready) {
        return Err(14);
    }
    let Some(register) = job.first_write() else {
        return Ok(Step::Done);
    };
    if out.len() < 11 {
        return Err(11);
    }
    // the register is known and there is room: what is left to refuse is the value
    let len = set_frame(register as u8, job.wanted[register], out).ok_or(9)?;
    bytes[PHASE..].copy_from_slice(&[1, register as u8]);
    Ok(Step::Frame(len))
}

/// How many settings differ from wanted in the job in the bytes, or the number of a refusal.
#[inline(never)]
pub fn restore_left(bytes: &[u8]) -> Result<usize, u8> {
    Job::read(bytes).map(|job| job.left()).ok_or(8)
}
