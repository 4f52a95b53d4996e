//! What one would write in Rust: the same checks, the same tables and the same amount of work, with no proof.
//! Nothing here is inlined into the loop that times it, as the other side's calls are not: both are calls of a library.

mod old58;
mod pace;
mod pathfinder;
mod restore;
mod tongzhu;

pub use old58::old_read;
pub use pace::pace_read;
pub use pathfinder::{crc16, pf_find, pf_read, pf_write};
pub use restore::{restore_left, restore_next, Step, JOB, PHASE, WORDS, WRITABLE};
pub use tongzhu::{tz_read, Reply as TzReply};
