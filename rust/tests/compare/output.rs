//! Outputs to lend to a writer.

/// The bytes before and behind the lent output that are watched too.
const MARGIN: usize = 64;

/// An output filled with a pattern, with a margin of the same pattern on both
/// sides, so that a byte written where none belongs shows.
#[derive(Clone, PartialEq, Eq)]
pub struct Output {
    bytes: Vec<u8>,
}

impl Output {
    /// An output of `length` bytes, filled according to `salt`.
    pub fn new(length: usize, salt: u8) -> Output {
        let bytes = (0..length + 2 * MARGIN)
            .map(|place| (place as u8).wrapping_mul(37) ^ salt)
            .collect();
        Output { bytes }
    }

    /// These bytes, with a margin of the pattern.
    pub fn holding(bytes: &[u8], salt: u8) -> Output {
        let mut output = Output::new(bytes.len(), salt);
        output.lent().copy_from_slice(bytes);
        output
    }

    /// The bytes to lend.
    pub fn lent(&mut self) -> &mut [u8] {
        let end = self.bytes.len() - MARGIN;
        &mut self.bytes[MARGIN..end]
    }

    /// The bytes that surround the first `length` lent ones.
    pub fn around(&self, length: usize) -> [&[u8]; 2] {
        [&self.bytes[..MARGIN], &self.bytes[MARGIN + length..]]
    }

    /// The first place, counted from the front of the lent bytes, where two
    /// outputs that differ do so.
    pub fn first_difference(&self, other: &Output) -> isize {
        let pairs = self.bytes.iter().zip(&other.bytes);
        let equal = pairs.take_while(|(own, others)| own == others).count();
        equal as isize - MARGIN as isize
    }
}
