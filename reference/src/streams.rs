//! Streams made up for comparison, and ways to cut them, that a seed fixes.
//!
//! Bytes at random would be a bad length nearly always. A stream is therefore
//! made of frames, and ends behind a frame, inside one or with a bad length.
//! Lengths at the two limits come up most.

use crate::frames::{KEEP_BYTES, LONGEST, SHORTEST};
use crate::random::Random;

/// The lengths next to the two limits that are taken.
pub const GOOD_LENGTHS: [usize; 4] = [17, 18, 2_047, 2_048];

/// The lengths next to the two limits, and the least and the greatest, that are
/// not taken.
pub const BAD_LENGTHS: [usize; 4] = [0, 16, 2_049, 65_535];

/// How a stream ends.
#[derive(Debug, Clone, Copy, PartialEq, Eq)]
pub enum End {
    /// Behind its last frame.
    Whole,
    /// Inside one frame more.
    Inside,
    /// With a bad length and bytes behind it, which may look like a frame.
    Bad,
}

pub const ENDS: [End; 3] = [End::Whole, End::Inside, End::Bad];

/// A way to cut a stream into pieces.
#[derive(Debug, Clone, Copy, PartialEq, Eq)]
pub enum Cut {
    /// Pieces of 1 byte.
    Single,
    /// Pieces of 64 KiB.
    Big,
    /// Pieces of 0 to 40 bytes: several to a frame, and lengths cut in two.
    Short,
    /// Pieces of 0 to 5,000 bytes: with some frames whole and some not.
    Long,
    /// Any piece of what is left.
    Any,
}

pub const CUTS: [Cut; 5] = [Cut::Single, Cut::Big, Cut::Short, Cut::Long, Cut::Any];

/// A stream of so many frames, with this end behind them.
pub fn stream(random: &mut Random, frames: usize, end: End) -> Vec<u8> {
    let mut stream = Vec::new();
    for _ in 0..frames {
        let length = good_length(random);
        stream.extend(frame(random, length));
    }
    match end {
        End::Whole => {}
        End::Inside => stream.extend(unfinished(random)),
        End::Bad => stream.extend(bad(random)),
    }
    stream
}

/// The length in 2 bytes, and that many bytes at random. Only a good length
/// makes a frame.
pub fn frame(random: &mut Random, length: usize) -> Vec<u8> {
    [&length_bytes(length)[..], &random.bytes(length)].concat()
}

/// A keep of 2,050 bytes or a few more. It begins with a good length, a bad
/// length or any 2 bytes, so that a state may fit it or not.
pub fn keep(random: &mut Random) -> Vec<u8> {
    let more = random.below(4);
    let mut keep = random.bytes(KEEP_BYTES + more);
    match random.below(4) {
        0 => {}
        1 => keep[..2].copy_from_slice(&length_bytes(bad_length(random))),
        _ => keep[..2].copy_from_slice(&length_bytes(good_length(random))),
    }
    keep
}

/// The length of the next piece, where so many bytes of the stream are left.
///
/// One piece of ten is empty, in every way to cut. Where this is asked at each
/// call, bytes that a call did not use come again with more or fewer behind
/// them; where it is asked once the last piece is used up, each piece is given
/// to its end. A reader must do well with both.
pub fn cut(random: &mut Random, cut: Cut, left: usize) -> usize {
    if random.percent(10) {
        return 0;
    }
    let length = match cut {
        Cut::Single => 1,
        Cut::Big => 65_536,
        Cut::Short => random.below(41),
        Cut::Long => random.below(5_001),
        Cut::Any => random.below(left + 1),
    };
    length.min(left)
}

/// Every way to cut a stream into two pieces, of which one may be empty.
pub fn two_pieces(stream: &[u8]) -> impl Iterator<Item = (&[u8], &[u8])> {
    (0..=stream.len()).map(|place| stream.split_at(place))
}

/// A length that is taken: mostly at a limit, else short or any.
fn good_length(random: &mut Random) -> usize {
    match random.below(4) {
        0 => SHORTEST + random.below(60),
        1 => SHORTEST + random.below(LONGEST - SHORTEST + 1),
        _ => random.one_of(&GOOD_LENGTHS).expect("a length"),
    }
}

/// A length that is not taken: mostly at a limit, else any.
fn bad_length(random: &mut Random) -> usize {
    match random.below(6) {
        0 => random.below(SHORTEST),
        1 => LONGEST + 1 + random.below(65_535 - LONGEST),
        _ => random.one_of(&BAD_LENGTHS).expect("a length"),
    }
}

/// The front of a frame: 1 byte at least, and often only that or the length.
fn unfinished(random: &mut Random) -> Vec<u8> {
    let length = good_length(random);
    let mut bytes = frame(random, length);
    let any = 1 + random.below(length + 1);
    bytes.truncate(random.one_of(&[1, 2, any, length + 1]).expect("a length"));
    bytes
}

/// A bad length, and behind it nothing, bytes at random or a frame: none of
/// them may be shown.
fn bad(random: &mut Random) -> Vec<u8> {
    let mut bytes = length_bytes(bad_length(random)).to_vec();
    match random.below(3) {
        0 => {}
        1 => {
            let length = random.below(100);
            bytes.extend(random.bytes(length));
        }
        _ => {
            let length = good_length(random);
            bytes.extend(frame(random, length));
        }
    }
    bytes
}

/// The highest byte first. No length above 65,535 is made.
fn length_bytes(length: usize) -> [u8; 2] {
    [(length / 256) as u8, (length % 256) as u8]
}

#[cfg(test)]
mod tests {
    use super::*;
    use crate::frames::{frames_of, Rest};
    use std::collections::BTreeSet;

    #[test]
    fn a_seed_fixes_the_stream_and_its_cut() {
        for end in ENDS {
            let first = stream(&mut Random::new(3), 5, end);
            assert_eq!(first, stream(&mut Random::new(3), 5, end));
            assert_ne!(first, stream(&mut Random::new(4), 5, end));
        }
        for way in CUTS {
            let lengths = |seed| -> Vec<usize> {
                let mut random = Random::new(seed);
                (0..50).map(|_| cut(&mut random, way, 9_000)).collect()
            };
            assert_eq!(lengths(1), lengths(1));
        }
    }

    #[test]
    fn a_stream_has_so_many_frames_and_this_end() {
        let mut random = Random::new(5);
        for round in 0..300 {
            let frames = round % 5;
            for end in ENDS {
                let stream = stream(&mut random, frames, end);
                let (shown, rest) = frames_of(&stream);
                assert_eq!(shown.len(), frames);
                match rest {
                    Rest::Bad => assert_eq!(end, End::Bad),
                    Rest::Unfinished(bytes) if bytes.is_empty() => assert_eq!(end, End::Whole),
                    Rest::Unfinished(_) => assert_eq!(end, End::Inside),
                }
            }
        }
    }

    #[test]
    fn every_length_at_a_limit_comes_up_and_others_too() {
        let mut random = Random::new(6);
        let good: BTreeSet<usize> = (0..500).map(|_| good_length(&mut random)).collect();
        let bad: BTreeSet<usize> = (0..500).map(|_| bad_length(&mut random)).collect();
        assert!(GOOD_LENGTHS.iter().all(|length| good.contains(length)));
        assert!(BAD_LENGTHS.iter().all(|length| bad.contains(length)));
        assert!(good.len() > 50 && bad.len() > 50);
        assert!(good.iter().all(|length| (17..=2_048).contains(length)));
        assert!(!bad.iter().any(|length| (17..=2_048).contains(length)));
    }

    #[test]
    fn unfinished_frames_of_one_byte_and_all_but_one_come_up() {
        let mut random = Random::new(7);
        let fronts: Vec<Vec<u8>> = (0..200).map(|_| unfinished(&mut random)).collect();
        assert!(fronts.iter().any(|front| front.len() == 1));
        assert!(fronts.iter().any(|front| front.len() == 2));
        assert!(fronts.iter().any(|front| front.len() == 2_049));
    }

    #[test]
    fn keeps_are_long_enough_and_begin_with_good_and_bad_lengths() {
        let mut random = Random::new(8);
        let mut bad = 0;
        for _ in 0..100 {
            let keep = keep(&mut random);
            assert!((2_050..2_054).contains(&keep.len()));
            bad += usize::from(frames_of(&keep[..2]).1 == Rest::Bad);
        }
        assert!(20 < bad && bad < 80);
    }

    #[test]
    fn a_piece_is_no_longer_than_what_is_left_and_may_be_empty() {
        let mut random = Random::new(9);
        for way in CUTS {
            for left in [0, 1, 2, 40, 70_000] {
                let lengths: BTreeSet<usize> =
                    (0..300).map(|_| cut(&mut random, way, left)).collect();
                assert!(lengths.contains(&0));
                assert!(lengths.iter().all(|length| *length <= left));
                if way == Cut::Single && left > 0 {
                    assert_eq!(lengths, BTreeSet::from([0, 1]));
                }
                if way == Cut::Big {
                    assert_eq!(lengths, BTreeSet::from([0, left.min(65_536)]));
                }
            }
        }
    }

    #[test]
    fn two_pieces_are_the_stream_at_every_place() {
        let stream = stream(&mut Random::new(10), 1, End::Bad);
        let mut lengths = Vec::new();
        for (first, second) in two_pieces(&stream) {
            assert_eq!([first, second].concat(), stream);
            lengths.push(first.len());
        }
        assert_eq!(lengths, (0..=stream.len()).collect::<Vec<usize>>());
    }
}
