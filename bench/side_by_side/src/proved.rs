//! The proved player, by its two exported functions.

use twin::ordered::Precedence;

/// What the exports answer; the layout is the one of its declaration in crates/capi.
#[repr(C)]
struct Play {
    code: u32,
    length: usize,
}

unsafe extern "C" {
    // A slice crosses as a pointer and then its length; the allocator takes no bytes.
    fn hecklemaroon_play(input: *const u8, input_length: usize, buffer: *mut u8, buffer_length: usize) -> Play;
    safe fn hecklemaroon_drain(in_line: bool, rounds: u16) -> Play;
}

/// A line has at most 3 + 1 + 3 + 1 + 10 + 1 bytes, and a trace at most 1,000 calls.
pub const LONGEST: usize = 19_000;

/// The listing goes to the buffer; the answer is its length.
pub fn play_into(trace: &[u8], buffer: &mut [u8; LONGEST]) -> usize {
    // SAFETY: both pointers are of slices that live through the call, with their own lengths; the two do not overlap, since one is lent mutably.
    let play = unsafe { hecklemaroon_play(trace.as_ptr(), trace.len(), buffer.as_mut_ptr(), buffer.len()) };
    assert_eq!(play.code, 0, "the buffer holds every listing");
    play.length
}

pub fn play(trace: &[u8]) -> Vec<u8> {
    let mut buffer = [0; LONGEST];
    let length = play_into(trace, &mut buffer);
    buffer[..length].to_vec()
}

/// How many writes went to the disk in so many rounds of a full table.
pub fn drain(precedence: Precedence, rounds: u16) -> usize {
    let drained = hecklemaroon_drain(precedence == Precedence::Line, rounds);
    assert_eq!(drained.code, 0, "there is memory");
    drained.length
}
