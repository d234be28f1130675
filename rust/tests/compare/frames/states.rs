//! Readers in every state, with keeps that hold anything.

use super::both::Both;
use super::counts::Counts;
use reference::frames::KEEP_BYTES;
use reference::random::Random;
use reference::refusal;
use reference::streams;

/// Every state up to some beyond the keep.
const STATES: usize = KEEP_BYTES + 4;

/// States that are far too high, some of them low once they are cut to fewer
/// bits.
const FAR_STATES: [usize; 6] = [
    4_096,
    65_536,
    65_536 + 40,
    (u32::MAX as usize).wrapping_add(1),
    (u32::MAX as usize).wrapping_add(41),
    usize::MAX,
];

/// Arbitrary keeps for each state.
const KEEPS: usize = 4;

fn states() -> impl Iterator<Item = usize> {
    (0..STATES).chain(FAR_STATES)
}

/// Keeps in which so many bytes are a frame and one byte more, a frame, and a
/// frame but for its last byte or its last two.
fn keeps_around(random: &mut Random, held: usize) -> Vec<Vec<u8>> {
    (held.saturating_sub(3)..=held)
        .map(|length| {
            let mut keep = streams::keep(random);
            keep[..2].copy_from_slice(&(length as u16).to_be_bytes());
            keep
        })
        .collect()
}

/// Pieces that are empty, short, about as long as what a frame lacks, and longer
/// than any frame.
fn pieces(random: &mut Random, lacks: usize) -> Vec<Vec<u8>> {
    let around = [lacks.saturating_sub(1), lacks, lacks + 1];
    let lengths = [0, 1, 2].into_iter().chain(around).chain([2_100]);
    lengths.map(|length| random.bytes(length)).collect()
}

/// What a keep's first frame lacks, where the keep holds so much of it.
fn lacks(keep: &[u8], held: usize) -> usize {
    let length = usize::from(u16::from_be_bytes([keep[0], keep[1]]));
    (2 + length).saturating_sub(held).min(KEEP_BYTES)
}

/// Every state, with keeps that fit it and keeps that do not. What a call leaves
/// is read on by another, which is refused too where the first one was.
pub fn every_state(counts: &mut Counts) {
    let random = &mut Random::new(34);
    for held in states() {
        let mut keeps: Vec<Vec<u8>> = (0..KEEPS).map(|_| streams::keep(random)).collect();
        if held < STATES {
            keeps.extend(keeps_around(random, held));
        }
        for keep in keeps {
            for piece in pieces(random, lacks(&keep, held)) {
                let mut both = Both::holding(held, &keep);
                let (first, used) = both.read(&piece, counts);
                let (second, _) = both.read(&piece[used..], counts);
                assert!(first.is_ok() || second == first);
            }
        }
    }
}

/// A keep that is too short is refused before all else, and leaves every state.
pub fn short_keeps(counts: &mut Counts) {
    let random = &mut Random::new(35);
    for held in states() {
        let keep = streams::keep(random);
        let length = random.below(KEEP_BYTES);
        for length in [0, 1, 2, length, KEEP_BYTES - 1] {
            let mut both = Both::holding(held, &keep);
            let frame = streams::frame(random, 17);
            for piece in [&frame[..], &[]] {
                let outcome = both.read_lent(length, piece, counts);
                assert_eq!(outcome, (Err(refusal::OUTPUT), 0));
            }
            // The reader is as it was: a good one goes on, any other gets 18.
            let (outcome, _) = both.read(&frame, counts);
            assert!(held > 0 || outcome.is_ok());
        }
    }
}
