//! Frames of a stream.

use crate::answer::accepted;
use crate::raw::{self, frames::Places};
use crate::Refusal;
use std::fmt;

/// The most bytes that a frame has: its 2 length bytes, and 2,048 sealed ones.
pub const LONGEST_FRAME: usize = 2_050;

/// A frame: 2 bytes that tell a length, the higher first, and that many sealed
/// bytes, 17 to 2,048.
#[derive(Debug, Clone, Copy, PartialEq, Eq)]
pub struct Frame<'a> {
    bytes: &'a [u8],
}

impl<'a> Frame<'a> {
    /// The whole frame, its 2 length bytes included.
    pub const fn as_bytes(&self) -> &'a [u8] {
        self.bytes
    }

    /// The sealed bytes, to be opened: all but the 2 length bytes.
    pub fn sealed(&self) -> &'a [u8] {
        &self.bytes[2..]
    }
}

/// A reader of the frames of one stream, which comes in pieces that are cut
/// anywhere.
///
/// It owns its keep, in which a frame is put together that began in an earlier
/// piece; nothing is allocated. From a new reader on, the frames shown are all
/// those of the stream, in order, up to its first bad length.
///
/// ```
/// use banavoge::{Frames, Refusal};
///
/// let frame = [&[0, 17], &[0xaa; 17][..]].concat();
/// let stream = [&frame[..], &frame, &[0, 16]].concat();
///
/// let mut frames = Frames::new();
/// let mut shown = 0;
/// let mut received = |mut piece: &[u8]| {
///     while let Some(next) = frames.next(&mut piece)? {
///         assert_eq!(next.as_bytes(), frame);
///         assert_eq!(next.sealed(), [0xaa; 17]);
///         shown += 1;
///     }
///     Ok(())
/// };
/// assert_eq!(received(&stream[..30]), Ok(()));
/// assert_eq!(received(&stream[30..39]), Ok(()));
/// assert_eq!(received(&stream[39..]), Err(Refusal::BadFrame));
/// assert_eq!(shown, 2);
/// ```
///
/// A frame is a part of the piece, or of the keep, which the next call may
/// write. So it cannot be held on to past that call:
///
/// ```compile_fail,E0499
/// # use banavoge::{Frames, Refusal};
/// # let mut piece = &[0; 100][..];
/// let mut frames = Frames::new();
/// let first = frames.next(&mut piece)?;
/// let second = frames.next(&mut piece)?;
/// assert_ne!(first, second);
/// # Ok::<(), Refusal>(())
/// ```
#[derive(Clone)]
pub struct Frames {
    keep: [u8; LONGEST_FRAME],
    /// How many bytes at the front of the keep start an unfinished frame; more
    /// than the keep has, once a length was refused.
    held: usize,
}

impl Frames {
    /// A new reader, at the start of a stream.
    pub const fn new() -> Frames {
        Frames {
            keep: [0; LONGEST_FRAME],
            held: 0,
        }
    }

    /// Shows the next frame, and moves `piece` past the bytes that were used.
    /// `None` says that more bytes are needed: all of the piece is used then.
    ///
    /// Refused with 18 for a bad length, and from then on at every call: nothing
    /// says where the next frame starts. The piece is as it was. For another
    /// stream make a new reader.
    ///
    /// std's `Iterator` has no such call: its items may be held on to, and it
    /// is lent no piece.
    pub fn next<'f, 'p: 'f>(
        &'f mut self,
        piece: &mut &'p [u8],
    ) -> Result<Option<Frame<'f>>, Refusal> {
        let mut places = Places {
            held: self.held,
            ..Places::default()
        };
        let answer = raw::frames::read(&mut self.keep, piece, &mut places);
        self.held = places.held;
        let (read, rest) = piece.split_at(places.used);
        *piece = rest;
        let bytes = match accepted(answer)? {
            0 => return Ok(None),
            1 => &read[..places.end],
            2 => &self.keep[..places.end],
            shown => unreachable!("{shown} is no place of a frame"),
        };
        Ok(Some(Frame { bytes }))
    }
}

impl Default for Frames {
    /// A new reader.
    fn default() -> Frames {
        Frames::new()
    }
}

impl fmt::Debug for Frames {
    fn fmt(&self, f: &mut fmt::Formatter<'_>) -> fmt::Result {
        f.debug_struct("Frames")
            .field("held", &self.held)
            .finish_non_exhaustive()
    }
}
