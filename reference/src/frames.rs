//! The frame reader: the frames of a stream that comes in pieces.
//!
//! A frame is a length of 2 bytes, the highest first, and that many sealed
//! bytes. The stream is cut anywhere, so a frame may begin in one piece and end
//! in a later one. Until it is whole, its bytes stand at the front of a keep
//! that is lent to every call.
//!
//! A call checks 10, then the state of the reader, then the length. It ends
//! with its first whole frame or with the piece, and it counts the bytes of the
//! piece that it used. The next call goes on after them.

use crate::refusal::{self, Refusal};

/// The least keep: the 2 length bytes and the most sealed bytes.
pub const KEEP_BYTES: usize = 2_050;
/// The least length that is taken.
pub const SHORTEST: usize = 17;
/// The greatest length that is taken.
pub const LONGEST: usize = 2_048;
/// What a reader is said to hold after 18. It is more than any reader can hold,
/// so every later call refuses that reader too, whatever the keep holds.
pub const BROKEN: usize = 2_051;

/// How many bytes of a frame the length takes.
const LENGTH_BYTES: usize = 2;

/// A reader is one number: how many bytes at the front of the keep start an
/// unfinished frame.
///
/// Any reader can be made by naming the number; one that fits no unfinished
/// frame is refused by the call below.
#[derive(Debug, Clone, PartialEq, Eq, Default)]
pub struct Reader {
    pub held: usize,
}

impl Reader {
    /// A new reader holds nothing, so old bytes of the keep are never read.
    pub fn new() -> Reader {
        Reader { held: 0 }
    }
}

/// What a call comes to, if it is not refused.
#[derive(Debug, Clone, Copy, PartialEq, Eq)]
pub enum Shown {
    /// A frame that stands whole in the piece, from its start up to this place.
    InPiece(usize),
    /// A frame that began in an earlier piece. It stands in the keep, from its
    /// start up to this place, until the keep is lent to the next call.
    InKeep(usize),
    /// No frame is whole yet, and the piece is used up.
    More,
}

/// What is left of a stream behind its frames.
#[derive(Debug, Clone, PartialEq, Eq)]
pub enum Rest {
    /// The bytes that start a frame that is not whole: none at the end of a
    /// frame.
    Unfinished(Vec<u8>),
    /// A length that is not taken comes next.
    Bad,
}

/// Reads a piece up to its first whole frame. Answers what is shown, or the
/// refusal number, and how many bytes of the piece were used: 0 if refused.
///
/// Bytes of the keep that are not needed keep their contents. A refusal leaves
/// the whole keep as it was.
pub fn read(reader: &mut Reader, keep: &mut [u8], piece: &[u8]) -> (Result<Shown, Refusal>, usize) {
    // 10 is checked first and leaves the reader as it is, even one that had 18.
    if keep.len() < KEEP_BYTES {
        return (Err(refusal::OUTPUT), 0);
    }
    // The state is tested for every piece, the empty one too.
    if !may_hold(reader.held, keep) {
        return refused(reader);
    }

    // All that there is of the stream from the start of this frame on.
    let held = reader.held;
    let bytes = [&keep[..held], piece].concat();
    // A length is judged as soon as both its bytes are there, not before.
    if bytes.len() >= LENGTH_BYTES && !good_length(length_of(&bytes)) {
        return refused(reader);
    }
    // Without a whole frame, all of the piece goes behind the bytes held.
    if bytes.len() < LENGTH_BYTES || bytes.len() < LENGTH_BYTES + length_of(&bytes) {
        keep[held..bytes.len()].copy_from_slice(piece);
        reader.held = bytes.len();
        return (Ok(Shown::More), piece.len());
    }

    let end = LENGTH_BYTES + length_of(&bytes);
    // A frame that begins in this piece is whole in it: nothing is copied.
    if held == 0 {
        return (Ok(Shown::InPiece(end)), end);
    }
    // A frame that began earlier gets exactly what it lacks.
    keep[held..end].copy_from_slice(&bytes[held..end]);
    reader.held = 0;
    (Ok(Shown::InKeep(end)), end - held)
}

/// A copy of the frame that a call showed, its length bytes included; no bytes
/// where it showed none. The keep and the piece are those of the call.
pub fn frame(shown: Shown, keep: &[u8], piece: &[u8]) -> Vec<u8> {
    match shown {
        Shown::InPiece(end) => piece[..end].to_vec(),
        Shown::InKeep(end) => keep[..end].to_vec(),
        Shown::More => Vec::new(),
    }
}

/// The sealed bytes of a frame: all but its length bytes.
pub fn sealed(frame: &[u8]) -> Vec<u8> {
    frame.iter().skip(LENGTH_BYTES).copied().collect()
}

/// The frames of a whole stream in order, up to its first bad length, and what
/// is left behind them.
///
/// It shares no code with the reader above, so that the two can be compared.
pub fn frames_of(stream: &[u8]) -> (Vec<Vec<u8>>, Rest) {
    let mut frames = Vec::new();
    let mut rest = stream;
    loop {
        let [high, low, behind @ ..] = rest else {
            return (frames, Rest::Unfinished(rest.to_vec()));
        };
        let length = usize::from(u16::from_be_bytes([*high, *low]));
        if !matches!(length, 17..=2_048) {
            return (frames, Rest::Bad);
        }
        if behind.len() < length {
            return (frames, Rest::Unfinished(rest.to_vec()));
        }
        let (frame, next) = rest.split_at(2 + length);
        frames.push(frame.to_vec());
        rest = next;
    }
}

/// Whether a reader may hold so many bytes of this keep, which is long enough:
/// 0 or 1 always, and 2 or more if they start an unfinished frame.
fn may_hold(held: usize, keep: &[u8]) -> bool {
    if held < LENGTH_BYTES {
        return true;
    }
    // Nothing is read past the bytes that a keep is sure to have.
    if held > KEEP_BYTES {
        return false;
    }
    // A whole frame is never held: the call that shows it releases it.
    good_length(length_of(keep)) && held < LENGTH_BYTES + length_of(keep)
}

/// Refusal 18, for a length or for the state: nothing is used, and every later
/// call refuses the reader too.
fn refused(reader: &mut Reader) -> (Result<Shown, Refusal>, usize) {
    reader.held = BROKEN;
    (Err(refusal::FRAME), 0)
}

/// The length at the front of these bytes, of which there are 2 at least.
fn length_of(bytes: &[u8]) -> usize {
    usize::from(bytes[0]) * 256 + usize::from(bytes[1])
}

fn good_length(length: usize) -> bool {
    (SHORTEST..=LONGEST).contains(&length)
}

#[cfg(test)]
#[path = "frames_tests.rs"]
mod tests;

#[cfg(test)]
#[path = "frames_cut_tests.rs"]
mod cut_tests;
