//! Stored calls, played on a room in lent memory.

extern "C" {
    fn banavoge_play(
        room: *mut u8,
        room_length: usize,
        calls: *const u8,
        calls_length: usize,
        allowance: usize,
        out: *mut u8,
        out_length: usize,
        played: *mut usize,
        read: *mut usize,
        written: *mut usize,
    ) -> i32;
}

/// The counts that are told of what was played.
#[derive(Debug, Clone, Copy, PartialEq, Eq, Default)]
pub struct Counts {
    /// The calls played.
    pub played: usize,
    /// The bytes of the stored calls that were read.
    pub read: usize,
    /// The bytes of the output that were written.
    pub written: usize,
}

/// Plays stored calls: why it stopped, or a refusal.
pub fn play(
    room: &mut [u8],
    calls: &[u8],
    allowance: usize,
    out: &mut [u8],
    counts: &mut Counts,
) -> i32 {
    // SAFETY: the pointers come from references to the room, the calls and the
    // output, whose counts are their own, and to the three counts told.
    unsafe {
        banavoge_play(
            room.as_mut_ptr(),
            room.len(),
            calls.as_ptr(),
            calls.len(),
            allowance,
            out.as_mut_ptr(),
            out.len(),
            &mut counts.played,
            &mut counts.read,
            &mut counts.written,
        )
    }
}
