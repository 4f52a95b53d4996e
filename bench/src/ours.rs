//! The library's calls, over `libtracksaffron.a`. A slice passes as a pointer and a length.

#[link(name = "tracksaffron", kind = "static")]
extern "C" {
    fn tracksaffron_crc16(s: *const u8, len: usize) -> u16;
    fn tracksaffron_pf_read(
        asked: u8,
        s: *const u8,
        len: usize,
        row: *mut i32,
        words: usize,
        name: *mut u8,
        bytes: usize,
    ) -> u64;
    fn tracksaffron_pf_write(register: u8, value: i32, out: *mut u8, room: usize) -> u64;
    fn tracksaffron_pf_find(s: *const u8, len: usize, found: *mut usize, places: usize) -> u64;
    fn tracksaffron_tz_read(asked: u8, s: *const u8, len: usize, row: *mut i32, numbers: usize) -> u64;
    fn tracksaffron_pace_read(
        address: u8,
        asked: u8,
        s: *const u8,
        len: usize,
        row: *mut i32,
        numbers: usize,
        text: *mut u8,
        bytes: usize,
    ) -> u64;
    fn tracksaffron_old_read(s: *const u8, len: usize, row: *mut i32, numbers: usize) -> u64;
    fn tracksaffron_restore_next(job: *mut u8, bytes: usize, out: *mut u8, room: usize) -> u64;
    fn tracksaffron_restore_left(job: *const u8, bytes: usize) -> u64;
}

// SAFETY, of each call here: it takes any slices, reads or writes them within their lengths only, and keeps nothing of them.

pub fn crc16(s: &[u8]) -> u16 {
    unsafe { tracksaffron_crc16(s.as_ptr(), s.len()) }
}

pub fn pf_read(asked: u8, s: &[u8], row: &mut [i32], name: &mut [u8]) -> u64 {
    unsafe {
        tracksaffron_pf_read(asked, s.as_ptr(), s.len(), row.as_mut_ptr(), row.len(), name.as_mut_ptr(), name.len())
    }
}

pub fn pf_write(register: u8, value: i32, out: &mut [u8]) -> u64 {
    unsafe { tracksaffron_pf_write(register, value, out.as_mut_ptr(), out.len()) }
}

/// The place of the first frame, or the input's length: what the call leaves as it was where there is none.
pub fn pf_find(s: &[u8]) -> usize {
    let mut found = [s.len(), 0];
    unsafe { tracksaffron_pf_find(s.as_ptr(), s.len(), found.as_mut_ptr(), found.len()) };
    found[0]
}

pub fn tz_read(asked: u8, s: &[u8], row: &mut [i32]) -> u64 {
    unsafe { tracksaffron_tz_read(asked, s.as_ptr(), s.len(), row.as_mut_ptr(), row.len()) }
}

pub fn old_read(s: &[u8], row: &mut [i32]) -> u64 {
    unsafe { tracksaffron_old_read(s.as_ptr(), s.len(), row.as_mut_ptr(), row.len()) }
}

pub fn pace_read(address: u8, asked: u8, s: &[u8], row: &mut [i32], text: &mut [u8]) -> u64 {
    unsafe {
        tracksaffron_pace_read(
            address,
            asked,
            s.as_ptr(),
            s.len(),
            row.as_mut_ptr(),
            row.len(),
            text.as_mut_ptr(),
            text.len(),
        )
    }
}

pub fn restore_next(job: &mut [u8], out: &mut [u8]) -> u64 {
    unsafe { tracksaffron_restore_next(job.as_mut_ptr(), job.len(), out.as_mut_ptr(), out.len()) }
}

pub fn restore_left(job: &[u8]) -> u64 {
    unsafe { tracksaffron_restore_left(job.as_ptr(), job.len()) }
}
