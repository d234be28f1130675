//! What stored calls come to when they are played.

use crate::{Records, Refusal, Seat};
use std::iter::FusedIterator;

/// What [`Room::play`](crate::Room::play) came to.
#[derive(Debug, Clone, PartialEq, Eq)]
#[must_use = "packets that are not sent are lost"]
pub struct Played<'a> {
    /// How many calls were played, refused ones included.
    pub calls: usize,
    /// How many bytes of the stored calls were read: those of the calls played.
    pub read: usize,
    /// Why it stopped.
    pub stop: Stop,
    /// What each call was answered, in order.
    pub answers: Answers<'a>,
}

/// Why [`Room::play`](crate::Room::play) stopped.
#[derive(Debug, Clone, Copy, PartialEq, Eq, Hash)]
pub enum Stop {
    /// All the stored calls were played.
    End,
    /// What comes next is no stored call.
    NoCall,
    /// As many calls were played as are allowed.
    Allowance,
    /// Less output is left than another call needs, 4 bytes and
    /// [`LEAST_OUTPUT`](crate::LEAST_OUTPUT).
    Output,
}

impl Stop {
    /// The ground that the library answers.
    pub(crate) fn of_answer(answer: usize) -> Stop {
        match answer {
            0 => Stop::End,
            1 => Stop::NoCall,
            2 => Stop::Allowance,
            3 => Stop::Output,
            _ => unreachable!("{answer} is no reason to stop"),
        }
    }
}

/// An accepted call that was played.
#[derive(Debug, Clone, PartialEq, Eq)]
#[must_use = "packets that are not sent are lost"]
pub struct Accepted<'a> {
    /// The seat answered to an arrival, or else the seat that made the call.
    pub seat: Seat,
    /// What is sent: by an arrival too, where its key was seated already.
    pub records: Records<'a>,
}

/// What each call that was played was answered, as it stands in the output that
/// was lent.
#[derive(Debug, Clone, PartialEq, Eq)]
#[must_use = "packets that are not sent are lost"]
pub struct Answers<'a> {
    bytes: &'a [u8],
}

impl<'a> Answers<'a> {
    /// The answers that the library wrote in these bytes.
    pub(crate) const fn written(bytes: &'a [u8]) -> Answers<'a> {
        Answers { bytes }
    }

    /// The answers not shown yet, as they stand in the output: for each call
    /// the refusal number or 0 (1 byte), the seat or 0 (1 byte), the length of
    /// the records (2 bytes, the higher first) and the records.
    pub const fn as_bytes(&self) -> &'a [u8] {
        self.bytes
    }
}

impl<'a> Iterator for Answers<'a> {
    type Item = Result<Accepted<'a>, Refusal>;

    fn next(&mut self) -> Option<Result<Accepted<'a>, Refusal>> {
        if self.bytes.is_empty() {
            return None;
        }
        let (answer, rest) = split_first(self.bytes).expect("the library writes whole answers");
        self.bytes = rest;
        Some(answer)
    }
}

impl FusedIterator for Answers<'_> {}

/// The first answer, and the bytes behind it.
fn split_first(bytes: &[u8]) -> Option<(Result<Accepted<'_>, Refusal>, &[u8])> {
    let (&[refusal, seat, high, low], rest) = bytes.split_first_chunk()?;
    let length = u16::from_be_bytes([high, low]);
    let (records, rest) = rest.split_at_checked(usize::from(length))?;
    let answer = match refusal {
        0 => Ok(Accepted {
            seat: Seat(seat),
            records: Records::written(records),
        }),
        number => Err(Refusal::from_number(number)?),
    };
    Some((answer, rest))
}
