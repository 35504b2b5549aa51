//! The proved verifier, linked as a static library (feature `proved`).

use crate::verify::Outcome;

unsafe extern "C" {
    fn delungkaw_verify(
        message: *const u8,
        length: usize,
        lent: *mut u32,
        words: usize,
        place: *mut usize,
        part: *mut usize,
    ) -> u32;
}

/// Stack for a thread that calls the proved code, which has no heap and keeps its tables there: the 2 MB that are promised
/// to be enough, and one more for what the callers here use themselves.
pub const STACK: usize = 3 << 20;

/// The proved code's verdict, in the form of `verify::verify`. Call it on a thread with `STACK`.
pub fn verify(message: &[u8], system: &mut [u32]) -> Outcome {
    let (mut place, mut part) = (usize::MAX, usize::MAX);
    // SAFETY: each slice goes with its own length, nothing else refers to what is written, and
    // all of it outlives the call.
    let number = unsafe {
        delungkaw_verify(message.as_ptr(), message.len(), system.as_mut_ptr(), system.len(), &mut place, &mut part)
    };
    Outcome { number, place, part: 0..part }
}
