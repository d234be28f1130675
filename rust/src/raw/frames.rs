//! Frames of a stream, read with a lent keep.

extern "C" {
    fn banavoge_frame_read(
        held: *mut usize,
        keep: *mut u8,
        keep_length: usize,
        piece: *const u8,
        piece_length: usize,
        used: *mut usize,
        end: *mut usize,
    ) -> i32;
}

/// The number that is the state of a reader, and the places that a call tells
/// its counts in.
#[derive(Debug, Clone, Copy, PartialEq, Eq, Default)]
pub struct Places {
    /// How many bytes at the front of the keep start an unfinished frame.
    pub held: usize,
    /// How many bytes of the piece were used.
    pub used: usize,
    /// Where the frame ends that is shown.
    pub end: usize,
}

/// Reads a piece up to its first complete frame: 1 where that stands in the
/// piece, 2 where it stands in the keep, 0 where more bytes are needed, or a
/// refusal. A refusal leaves the keep and sets `used` to 0, and 18 sets `held` to
/// 2,051 too. Only a frame that is shown sets `end`.
pub fn read(keep: &mut [u8], piece: &[u8], places: &mut Places) -> i32 {
    // SAFETY: the pointers come from references to the keep and the piece, whose
    // counts are their own, and to the three places.
    unsafe {
        banavoge_frame_read(
            &mut places.held,
            keep.as_mut_ptr(),
            keep.len(),
            piece.as_ptr(),
            piece.len(),
            &mut places.used,
            &mut places.end,
        )
    }
}
