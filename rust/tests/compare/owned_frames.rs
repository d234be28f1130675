//! Readers of frames that own their keep, call by call beside the library's own
//! call: which frame is shown and where it stands, and how far the piece moves.

use crate::tally::say;
use banavoge::raw::frames::{read, Places};
use banavoge::{Frames, Refusal, LONGEST_FRAME};
use reference::frames::{frames_of, sealed, Rest, KEEP_BYTES};
use reference::random::Random;
use reference::streams::{self, Cut, CUTS, ENDS};

/// Streams for each end.
const STREAMS: usize = 40;

/// How often each answer was met.
#[derive(Default)]
struct Counts {
    in_piece: usize,
    in_keep: usize,
    more: usize,
    refused: usize,
}

/// A reader that owns its keep, and a keep lent to the library's call.
struct Both {
    frames: Frames,
    keep: [u8; KEEP_BYTES],
    held: usize,
}

impl Both {
    fn new() -> Both {
        Both {
            frames: Frames::new(),
            keep: [0xa5; KEEP_BYTES],
            held: 0,
        }
    }

    /// One call of each, and fails where they differ. Moves the piece, and
    /// answers the frame if one is shown.
    fn read(&mut self, piece: &mut &[u8], counts: &mut Counts) -> Result<Option<Vec<u8>>, Refusal> {
        let whole = *piece;
        let mut places = Places {
            held: self.held,
            ..Places::default()
        };
        let answer = read(&mut self.keep, whole, &mut places);
        self.held = places.held;

        let found = self.frames.next(piece);
        assert!(std::ptr::eq(*piece, &whole[places.used..]));
        let frame = match (answer, found) {
            (0, Ok(None)) => {
                counts.more += 1;
                return Ok(None);
            }
            (1, Ok(Some(frame))) => {
                counts.in_piece += 1;
                // A part of the piece, with nothing copied.
                assert!(std::ptr::eq(frame.as_bytes(), &whole[..places.end]));
                frame
            }
            (2, Ok(Some(frame))) => {
                counts.in_keep += 1;
                assert_eq!(frame.as_bytes(), &self.keep[..places.end]);
                frame
            }
            (-18, Err(Refusal::BadFrame)) => {
                counts.refused += 1;
                return Err(Refusal::BadFrame);
            }
            (answer, found) => panic!("{answer}, {found:?}"),
        };
        let bytes = frame.as_bytes().to_vec();
        assert_eq!(frame.sealed(), sealed(&bytes));
        Ok(Some(bytes))
    }
}

/// Reads a stream in pieces. Answers the frames shown, and the refusal if it
/// was refused.
fn read_stream(
    random: &mut Random,
    both: &mut Both,
    stream: &[u8],
    cut: Cut,
    counts: &mut Counts,
) -> (Vec<Vec<u8>>, Result<(), Refusal>) {
    let mut shown = Vec::new();
    let mut left = stream;
    while !left.is_empty() {
        let (mut piece, behind) = left.split_at(streams::cut(random, cut, left.len()));
        left = behind;
        loop {
            match both.read(&mut piece, counts) {
                Ok(Some(frame)) => shown.push(frame),
                Ok(None) => break,
                Err(refusal) => return (shown, Err(refusal)),
            }
        }
        assert!(piece.is_empty());
    }
    (shown, Ok(()))
}

#[test]
fn readers_that_own_their_keep_agree_with_the_raw_calls() {
    assert_eq!(LONGEST_FRAME, KEEP_BYTES);
    let random = &mut Random::new(36);
    let mut counts = Counts::default();
    for end in ENDS {
        for place in 0..STREAMS {
            let stream = streams::stream(random, place % 6, end);
            let (expected, rest) = frames_of(&stream);
            for cut in CUTS {
                let mut both = Both::new();
                let (shown, outcome) = read_stream(random, &mut both, &stream, cut, &mut counts);
                assert_eq!(shown, expected);
                assert_eq!(outcome.is_err(), rest == Rest::Bad);
                if outcome.is_ok() {
                    continue;
                }
                // Refused for ever, and a copy of the reader too.
                both.frames = both.frames.clone();
                let mut good = &[&[0, 17], &[0x61; 17][..]].concat()[..];
                for _ in 0..2 {
                    let again = both.read(&mut good, &mut counts);
                    assert_eq!(again, Err(Refusal::BadFrame));
                }
                let mut anew = Both::new();
                let frame = good.to_vec();
                assert_eq!(anew.read(&mut good, &mut counts), Ok(Some(frame)));
            }
        }
    }
    let Counts {
        in_piece,
        in_keep,
        more,
        refused,
    } = counts;
    say(&format!(
        "readers of frames that own their keep\n  frame in the piece: {in_piece}, frame in the \
         keep: {in_keep}, more: {more}, refused: {refused}\n"
    ));
    for count in [in_piece, in_keep, more, refused] {
        assert!(count >= 100);
    }
}
