//! A reader that both read with, and one call by both.

use super::counts::{Case, Counts};
use crate::output::Output;
use banavoge::raw::frames::{self as library, Places};
use reference::frames::{self as second, Reader, Shown};
use reference::refusal;

/// What stands before a call in the place for the bytes used, which every call
/// sets, and in the one for the end, which only a frame does. No call comes to
/// so much.
const USED_BEFORE: usize = usize::MAX - 1;
const END_BEFORE: usize = usize::MAX - 2;

/// A reader and its keep, those of the library and those of the second program.
#[derive(Clone)]
pub struct Both {
    held: usize,
    keep: Output,
    second: Reader,
    second_keep: Output,
    length: usize,
    /// Whether a call was refused with 18 since the reader was begun.
    broken: bool,
}

impl Both {
    /// A new reader, with this keep.
    pub fn new(keep: &[u8]) -> Both {
        Both::holding(0, keep)
    }

    /// A reader that is said to hold so many bytes of this keep.
    pub fn holding(held: usize, keep: &[u8]) -> Both {
        let keep_and_margin = Output::holding(keep, held as u8);
        Both {
            held,
            keep: keep_and_margin.clone(),
            second: Reader { held },
            second_keep: keep_and_margin,
            length: keep.len(),
            broken: false,
        }
    }

    /// The reader begun anew, as a host does it: the keep stays as it is.
    pub fn begin(&mut self) {
        self.held = 0;
        self.second = Reader::new();
        self.broken = false;
    }

    /// The bytes that are held, of a reader that is not broken.
    pub fn held(&mut self) -> &[u8] {
        &self.keep.lent()[..self.held]
    }

    /// The frame that the last call showed, where the library says that it
    /// stands.
    pub fn frame(&mut self, shown: Shown, piece: &[u8]) -> Option<Vec<u8>> {
        match shown {
            Shown::InPiece(end) => Some(piece[..end].to_vec()),
            Shown::InKeep(end) => Some(self.keep.lent()[..end].to_vec()),
            Shown::More => None,
        }
    }

    /// Reads a piece, and fails where the two differ. Answers what is shown, and
    /// how many bytes of the piece were used.
    pub fn read(&mut self, piece: &[u8], counts: &mut Counts) -> (Result<Shown, u8>, usize) {
        self.read_lent(self.length, piece, counts)
    }

    /// The same, where only so many bytes of the keep are lent.
    pub fn read_lent(
        &mut self,
        length: usize,
        piece: &[u8],
        counts: &mut Counts,
    ) -> (Result<Shown, u8>, usize) {
        let (held, broken) = (self.held, self.broken);
        let told = || {
            let front = &piece[..piece.len().min(4)];
            let bytes = piece.len();
            format!("{held} held, keep of {length} bytes, piece of {bytes} bytes: {front:02x?}")
        };
        let keep = &mut self.second_keep.lent()[..length];
        let (outcome, used) = second::read(&mut self.second, keep, piece);
        let expected = Places {
            held: self.second.held,
            used,
            end: end(&outcome),
        };

        let mut places = Places {
            held,
            used: USED_BEFORE,
            end: END_BEFORE,
        };
        let answer = library::read(&mut self.keep.lent()[..length], piece, &mut places);
        assert_eq!(answer, code(&outcome), "{}", told());
        assert_eq!(places, expected, "{}", told());
        assert!(
            self.keep == self.second_keep,
            "{}: the keep differs first at {}",
            told(),
            self.keep.first_difference(&self.second_keep)
        );
        self.held = places.held;
        self.broken |= outcome == Err(refusal::FRAME);
        counts.add(case(&outcome, held, broken));
        (outcome, used)
    }
}

/// The answer of the library for what the second program answers.
fn code(outcome: &Result<Shown, u8>) -> i32 {
    match outcome {
        Ok(Shown::More) => 0,
        Ok(Shown::InPiece(_)) => 1,
        Ok(Shown::InKeep(_)) => 2,
        Err(number) => -i32::from(*number),
    }
}

fn end(outcome: &Result<Shown, u8>) -> usize {
    match outcome {
        Ok(Shown::InPiece(end) | Shown::InKeep(end)) => *end,
        Ok(Shown::More) | Err(_) => END_BEFORE,
    }
}

/// What a call came to, by what the reader held before it. A reader that holds
/// 0 or 1 bytes is good, so 18 is then for a length; with 2 or more it is for
/// the reader.
fn case(outcome: &Result<Shown, u8>, held: usize, broken: bool) -> Case {
    match (outcome, held) {
        (Ok(Shown::InPiece(_)), _) => Case::InPiece,
        (Ok(Shown::InKeep(_)), _) => Case::InKeep,
        (Ok(Shown::More), _) => Case::More,
        (Err(refusal::OUTPUT), _) => Case::ShortKeep,
        (Err(refusal::FRAME), _) if broken => Case::Again,
        (Err(refusal::FRAME), 0) => Case::BadLength,
        (Err(refusal::FRAME), 1) => Case::BadLengthCut,
        (Err(refusal::FRAME), _) => Case::BadState,
        (Err(number), _) => panic!("refusal {number} of the reader of frames"),
    }
}
