//! Streams cut in every way: the frames shown are those of the whole stream.

use super::tests::{framed, keep, keep_with};
use super::*;
use crate::random::Random;
use crate::streams::{self, CUTS, ENDS};

/// A reader part of the way through a stream.
#[derive(Clone)]
struct Chain {
    reader: Reader,
    keep: Vec<u8>,
    used: usize,
    frames: Vec<Vec<u8>>,
}

impl Chain {
    fn new() -> Chain {
        Chain {
            reader: Reader::new(),
            keep: keep(),
            used: 0,
            frames: Vec::new(),
        }
    }

    /// The chain that has used so many bytes of a stream, if none of its calls
    /// is refused: what was used tells all that it depends on.
    fn at(stream: &[u8], used: usize) -> Option<Chain> {
        let (frames, Rest::Unfinished(held)) = frames_of(&stream[..used]) else {
            return None;
        };
        Some(Chain {
            reader: Reader { held: held.len() },
            keep: keep_with(&held),
            used,
            frames,
        })
    }

    /// Makes one call with the bytes of the stream up to `end`, and checks all
    /// that holds of it.
    fn step(&mut self, stream: &[u8], end: usize) -> Result<Shown, Refusal> {
        let piece = &stream[self.used..end];
        let before = self.keep.clone();
        let (answer, used) = read(&mut self.reader, &mut self.keep, piece);
        self.used += used;
        match answer {
            Ok(shown) => {
                let frame = frame(shown, &self.keep, piece);
                if shown != Shown::More {
                    self.frames.push(frame);
                }
                let held = self.keep[..self.reader.held].to_vec();
                let expected = (self.frames.clone(), Rest::Unfinished(held));
                assert_eq!(frames_of(&stream[..self.used]), expected);
                assert!(used > 0 || piece.is_empty());
                let written = match shown {
                    Shown::InPiece(_) => 0,
                    Shown::InKeep(end) => end,
                    Shown::More => self.reader.held,
                };
                assert_eq!(self.keep[written..], before[written..]);
            }
            Err(number) => {
                assert_eq!((number, used, self.reader.held), (18, 0, BROKEN));
                // Bad with this piece already, and so with the whole stream.
                let expected = (self.frames.clone(), Rest::Bad);
                assert_eq!(frames_of(&stream[..end]), expected);
                assert_eq!(self.keep, before);
            }
        }
        answer
    }
}

/// Short streams with every end: frames of the least lengths, unfinished ones,
/// and each bad length by itself and behind a frame.
fn short_streams() -> Vec<Vec<u8>> {
    let (a, b) = (framed(17), framed(18));
    let long = framed(2_048)[..9].to_vec();
    let mut streams = vec![
        [&a[..], &b].concat(),
        [&b[..], &a, &a[..18]].concat(),
        [&a[..], &b[..1]].concat(),
        [&a[..], &long].concat(),
    ];
    for length in streams::BAD_LENGTHS {
        let mut bad = framed(length);
        bad.truncate(7);
        streams.push(bad.clone());
        streams.push([&a[..], &bad].concat());
        streams.push([&b[..], &a, &bad, &a].concat());
    }
    streams
}

/// Makes every chain of calls from here on, each with any prefix of what is
/// left but the empty one. Answers how many calls it made.
fn every_chain(stream: &[u8], chain: &Chain) -> usize {
    let mut calls = 0;
    for end in chain.used + 1..=stream.len() {
        let mut chain = chain.clone();
        calls += 1;
        if chain.step(stream, end).is_ok() {
            calls += every_chain(stream, &chain);
        }
    }
    calls
}

#[test]
fn every_chain_of_calls_over_very_short_streams() {
    let whole = framed(17);
    let unfinished = framed(2_048)[..12].to_vec();
    assert!(every_chain(&whole, &Chain::new()) > 500_000);
    assert!(every_chain(&unfinished, &Chain::new()) > 4_000);
    for length in streams::BAD_LENGTHS {
        let mut bad = framed(length);
        bad.truncate(8);
        assert!(every_chain(&bad, &Chain::new()) > 2);
    }
}

/// Every call of every chain starts from one of these places, in the state that
/// `Chain::at` gives but for bytes of the keep that are not held. A step that
/// leads from such a state to such a state is therefore enough for all chains.
#[test]
fn every_piece_from_every_place_of_short_streams() {
    for stream in short_streams() {
        for used in 0..=stream.len() {
            let Some(chain) = Chain::at(&stream, used) else {
                continue;
            };
            for end in used..=stream.len() {
                chain.clone().step(&stream, end).ok();
            }
        }
    }
}

#[test]
fn every_cut_into_three_pieces_of_short_streams() {
    for stream in short_streams() {
        for first in 0..=stream.len() {
            for second in first..=stream.len() {
                through(&stream, &[first, second, stream.len()]);
            }
        }
    }
}

#[test]
fn every_cut_into_two_pieces_of_streams_with_the_longest_frames() {
    for lengths in [[2_048, 17], [2_047, 2_048], [2_048, 2_049], [17, 65_535]] {
        let stream = [framed(lengths[0]), framed(lengths[1])].concat();
        let stream = &stream[..stream.len().min(4_200)];
        for (first, _) in streams::two_pieces(stream) {
            through(stream, &[first.len(), stream.len()]);
        }
    }
}

/// Gives the stream in pieces that end at these places, each piece to its end
/// before the next. The frames shown and what is left are those of the stream.
fn through(stream: &[u8], ends: &[usize]) {
    let mut chain = Chain::new();
    for end in ends {
        loop {
            if chain.step(stream, *end).is_err() {
                assert_eq!(frames_of(stream), (chain.frames, Rest::Bad));
                return;
            }
            if chain.used == *end {
                break;
            }
        }
    }
    let held = chain.keep[..chain.reader.held].to_vec();
    assert_eq!(frames_of(stream), (chain.frames, Rest::Unfinished(held)));
}

#[test]
fn made_up_streams_in_every_way_to_cut_meet_every_answer() {
    let mut random = Random::new(3);
    let mut met = [0; 5];
    for round in 0..30 {
        for end in ENDS {
            let stream = streams::stream(&mut random, round % 4, end);
            for way in CUTS {
                let mut chain = Chain::new();
                while chain.used < stream.len() {
                    let left = stream.len() - chain.used;
                    let end = chain.used + streams::cut(&mut random, way, left);
                    let held = chain.reader.held;
                    let answer = chain.step(&stream, end);
                    met[match answer {
                        Ok(Shown::InPiece(_)) => 0,
                        Ok(Shown::InKeep(_)) => 1,
                        Ok(Shown::More) => 2,
                        Err(_) if held == 0 => 3,
                        Err(_) => 4,
                    }] += 1;
                    if answer.is_err() {
                        break;
                    }
                }
                let broken = chain.reader.held == BROKEN;
                assert_eq!(broken, end == streams::End::Bad);
            }
        }
    }
    assert!(met.iter().all(|count| *count > 20), "{met:?}");
}
