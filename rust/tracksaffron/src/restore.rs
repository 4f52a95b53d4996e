//! The restore of Pathfinder settings. Its job lives in bytes, which may be stored and taken up again.

use crate::calls::*;
use crate::{only, told, unlisted, Result};

/// How many bytes a job has, and how many words and values a restore opens on.
pub const JOB_BYTES: usize = 402;
pub const PRESENT_WORDS: usize = 50;
pub const WANTED_VALUES: usize = 50;

/// A restore that was opened.
#[derive(Clone, Debug, PartialEq, Eq)]
pub struct Job(pub [u8; JOB_BYTES]);

#[derive(Clone, Copy, Debug, PartialEq, Eq)]
pub enum Step {
    /// A frame of so many bytes stands at the front of the room; its reply is due.
    Frame(usize),
    /// No setting differs any more.
    Done,
}

#[derive(Clone, Copy, Debug, PartialEq, Eq)]
pub enum Outcome {
    /// The register is written.
    Written,
    /// The device's failure, with its code; the job is stopped.
    Failure(u8),
}

impl Job {
    /// Opens a restore of a pack that holds the 50 words `present`, towards the 50 values `wanted`. Settings 47, 48 and 49
    /// have no register: each must be wanted as it is, or it is [`Refusal::Register`](crate::Refusal::Register). A setting
    /// of 32 bits without sign is the word with the same bits.
    pub fn open(present: &[i32], wanted: &[i32]) -> Result<Job> {
        let mut job = [0; JOB_BYTES];
        let answer = unsafe {
            tracksaffron_restore_open(
                present.as_ptr(),
                present.len(),
                wanted.as_ptr(),
                wanted.len(),
                job.as_mut_ptr(),
                job.len(),
            )
        };
        only(RESTORE_OPENED, answer).map(|_| Job(job))
    }

    /// The next write as a frame.
    pub fn next(&mut self, out: &mut [u8]) -> Result<Step> {
        let answer =
            unsafe { tracksaffron_restore_next(self.0.as_mut_ptr(), self.0.len(), out.as_mut_ptr(), out.len()) };
        told(answer).map(|(kind, n)| match kind {
            RESTORE_FRAME => Step::Frame(n),
            RESTORE_DONE => Step::Done,
            _ => unlisted(kind),
        })
    }

    /// Takes the reply to the frame just sent.
    pub fn reply(&mut self, s: &[u8]) -> Result<Outcome> {
        let answer = unsafe { tracksaffron_restore_reply(self.0.as_mut_ptr(), self.0.len(), s.as_ptr(), s.len()) };
        told(answer).map(|(kind, n)| match kind {
            RESTORE_WRITTEN => Outcome::Written,
            RESTORE_FAILURE => Outcome::Failure(n as u8),
            _ => unlisted(kind),
        })
    }

    /// How many settings differ from wanted in the job's picture; 8 where the bytes hold no job.
    pub fn left(&self) -> Result<usize> {
        only(RESTORE_LEFT, unsafe { tracksaffron_restore_left(self.0.as_ptr(), self.0.len()) })
    }
}
