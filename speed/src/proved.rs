//! The proved end, by the exports of `crates/end_c`.

use crate::calls::Kind;

// A `&[T]` crosses as a pointer and then a length.
unsafe extern "C" {
    fn r3_log(head: u8, calls: *const u16, len: usize, log: *mut u8, room: usize) -> usize;
    fn r3_time(head: u8, calls: *const u16, len: usize) -> u64;
}

pub fn log(kind: Kind, calls: &[u16], log: &mut [u8]) -> usize {
    // SAFETY: pointers and lengths are those of the slices, which are borrowed for the call; the function
    // has no `requires`.
    unsafe {
        r3_log(
            kind as u8,
            calls.as_ptr(),
            calls.len(),
            log.as_mut_ptr(),
            log.len(),
        )
    }
}

pub fn time(kind: Kind, calls: &[u16]) -> u64 {
    // SAFETY: as above.
    unsafe { r3_time(kind as u8, calls.as_ptr(), calls.len()) }
}
