//! A stream as a whole: what its calls showed together.

use super::both::Both;
use super::counts::Counts;
use reference::frames::{frames_of, Rest, KEEP_BYTES};
use reference::refusal;

/// A stream that is read, and what was shown of it so far.
pub struct Whole<'a> {
    stream: &'a [u8],
    /// How many of its bytes were used.
    place: usize,
    both: Both,
    shown: Vec<Vec<u8>>,
    refused: bool,
}

impl<'a> Whole<'a> {
    /// A new reader at the start of a stream, with this keep.
    pub fn new(stream: &'a [u8], keep: &[u8]) -> Whole<'a> {
        Whole {
            stream,
            place: 0,
            both: Both::new(keep),
            shown: Vec::new(),
            refused: false,
        }
    }

    /// How many bytes are not used yet.
    pub fn left(&self) -> usize {
        self.stream.len() - self.place
    }

    /// Whether all is read, or a length was refused.
    pub fn ended(&self) -> bool {
        self.refused || self.left() == 0
    }

    /// One call, with the next so many bytes. Answers whether a frame is shown.
    pub fn call(&mut self, length: usize, counts: &mut Counts) -> bool {
        let piece = &self.stream[self.place..][..length];
        let (outcome, used) = self.both.read(piece, counts);
        self.place += used;
        match outcome {
            Ok(shown) => {
                let frame = self.both.frame(shown, piece);
                self.shown.extend(frame.clone());
                frame.is_some()
            }
            Err(number) => {
                assert_eq!(number, refusal::FRAME);
                self.refused = true;
                false
            }
        }
    }

    /// A piece of so many bytes, given to its end as a host does: each call goes
    /// on with what the last one left of it.
    pub fn piece(&mut self, length: usize, counts: &mut Counts) {
        let end = self.place + length;
        while self.call(end - self.place, counts) {}
        assert!(self.refused || self.place == end, "bytes left of a piece");
    }

    /// The frames shown are those of the bytes used, and what is held is what
    /// these have behind them.
    pub fn check_used(&mut self) {
        let (frames, rest) = frames_of(&self.stream[..self.place]);
        assert!(self.shown == frames, "the frames of the bytes used");
        if !self.refused {
            assert_eq!(rest, Rest::Unfinished(self.both.held().to_vec()));
        }
    }

    /// The frames shown are those of the stream, up to its first bad length,
    /// behind which nothing is shown until the reader is begun anew.
    pub fn check_all(mut self, counts: &mut Counts) {
        self.check_used();
        let (frames, rest) = frames_of(self.stream);
        assert!(self.shown == frames, "the frames of the stream");
        assert_eq!(self.refused, rest == Rest::Bad);
        if self.refused {
            self.stays_refused(counts);
        }
        counts.add_stream();
    }

    fn stays_refused(&mut self, counts: &mut Counts) {
        let good = [&[0, 17], &[0x61; 17][..]].concat();
        let both = &mut self.both;
        for piece in [&good, &self.stream[self.place..], &[], &good[..1]] {
            assert_eq!(both.read(piece, counts), (Err(refusal::FRAME), 0));
            let short = both.read_lent(KEEP_BYTES - 1, piece, counts);
            assert_eq!(short, (Err(refusal::OUTPUT), 0));
        }
        both.begin();
        let (outcome, used) = both.read(&good, counts);
        assert_eq!(used, good.len());
        let shown = outcome.expect("a good frame");
        assert_eq!(both.frame(shown, &good), Some(good));
    }
}
