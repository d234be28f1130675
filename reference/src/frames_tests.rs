//! The frame reader: each rule by itself.

use super::*;
use crate::random::Random;
use crate::streams;

/// A keep with a different byte at near places, so that a wrong copy shows.
pub fn keep() -> Vec<u8> {
    (0..KEEP_BYTES + 10)
        .map(|place| (place % 251) as u8)
        .collect()
}

/// A frame, or what looks like one, with this length.
pub fn framed(length: usize) -> Vec<u8> {
    streams::frame(&mut Random::new(length as u64), length)
}

/// One call on a keep of its own that holds these bytes. Answers what it comes
/// to, the reader behind it and the keep behind it.
fn call(held: &[u8], piece: &[u8]) -> (Result<Shown, Refusal>, usize, usize, Vec<u8>) {
    let mut keep = keep();
    keep[..held.len()].copy_from_slice(held);
    let mut reader = Reader { held: held.len() };
    let (answer, used) = read(&mut reader, &mut keep, piece);
    (answer, used, reader.held, keep)
}

/// The keep with these bytes at its front.
pub fn keep_with(front: &[u8]) -> Vec<u8> {
    let mut keep = keep();
    keep[..front.len()].copy_from_slice(front);
    keep
}

#[test]
fn a_new_reader_holds_nothing_and_reads_no_old_byte_of_the_keep() {
    assert_eq!(Reader::new(), Reader { held: 0 });
    let bytes = framed(17);
    for old in [0, 0x09, 0xff] {
        let mut keep = vec![old; KEEP_BYTES];
        let mut reader = Reader::new();
        let first = read(&mut reader, &mut keep, &bytes[..5]);
        assert_eq!(first, (Ok(Shown::More), 5));
        let second = read(&mut reader, &mut keep, &bytes[5..]);
        assert_eq!(second, (Ok(Shown::InKeep(19)), 14));
        assert_eq!(keep[..19], bytes);
        assert!(keep[19..].iter().all(|byte| *byte == old));
    }
}

#[test]
fn a_frame_whole_in_the_piece_is_shown_there_and_the_keep_is_not_written() {
    for length in [17, 18, 1_400, 2_047, 2_048] {
        for behind in [0, 1, 2, 3_000] {
            let piece = [framed(length), vec![0xff; behind]].concat();
            let end = 2 + length;
            let answer = call(&[], &piece);
            assert_eq!(answer, (Ok(Shown::InPiece(end)), end, 0, keep()));
            let shown = frame(Shown::InPiece(end), &keep(), &piece);
            assert_eq!(shown, framed(length));
            assert_eq!(sealed(&shown), framed(length)[2..]);
        }
    }
}

#[test]
fn a_frame_that_began_earlier_gets_exactly_what_it_lacks() {
    for length in [17, 18, 2_047, 2_048] {
        let bytes = framed(length);
        let end = 2 + length;
        for held in [1, 2, 3, end - 2, end - 1] {
            for behind in [0, 1, 3_000] {
                let piece = [&bytes[held..], &vec![0xff; behind]].concat();
                let answer = call(&bytes[..held], &piece);
                let kept = keep_with(&bytes);
                assert_eq!(frame(Shown::InKeep(end), &kept, &piece), bytes);
                assert_eq!(answer, (Ok(Shown::InKeep(end)), end - held, 0, kept));
            }
        }
    }
}

#[test]
fn a_piece_without_a_whole_frame_goes_behind_the_bytes_held() {
    let bytes = framed(2_048);
    for (held, end) in [(0, 1), (0, 2_049), (1, 2), (2, 2_049), (7, 7), (0, 0)] {
        let answer = call(&bytes[..held], &bytes[held..end]);
        let kept = keep_with(&bytes[..end]);
        assert_eq!(answer, (Ok(Shown::More), end - held, end, kept));
    }
    assert_eq!(frame(Shown::More, &keep(), &bytes), []);
    assert_eq!(sealed(&[]), []);
}

#[test]
fn a_frame_in_the_keep_stands_until_the_next_call_writes_there() {
    let (a, b) = (framed(17), framed(18));
    let mut keep = keep_with(&a[..9]);
    let mut reader = Reader { held: 9 };
    let answer = read(&mut reader, &mut keep, &a[9..]);
    assert_eq!((answer, reader.held), ((Ok(Shown::InKeep(19)), 10), 0));
    // The keep is free again: a frame in the piece leaves it, and the front of
    // the next frame goes over the old one from its start.
    let answer = read(&mut reader, &mut keep, &b);
    assert_eq!(answer, (Ok(Shown::InPiece(20)), 20));
    assert_eq!(keep, keep_with(&a));
    let answer = read(&mut reader, &mut keep, &b[..3]);
    assert_eq!((answer, reader.held), ((Ok(Shown::More), 3), 3));
    assert_eq!(keep, keep_with(&[&b[..3], &a[3..]].concat()));
}

#[test]
fn a_length_is_judged_when_both_its_bytes_are_there() {
    for first in 0..=255 {
        let answer = call(&[], &[first]);
        let kept = keep_with(&[first]);
        assert_eq!(answer, (Ok(Shown::More), 1, 1, kept));
    }
    for length in 0..=65_535 {
        let bytes = [(length >> 8) as u8, (length & 0xff) as u8];
        let good = (17..=2_048).contains(&length);
        for held in [0, 1] {
            let answer = call(&bytes[..held], &bytes[held..]);
            if good {
                let kept = keep_with(&bytes);
                assert_eq!(answer, (Ok(Shown::More), 2 - held, 2, kept));
            } else {
                // Nothing is used, and the keep is as before.
                let kept = keep_with(&bytes[..held]);
                assert_eq!(answer, (Err(18), 0, 2_051, kept));
            }
        }
    }
}

#[test]
fn a_bad_length_behind_a_whole_frame_shows_at_the_next_call() {
    for length in streams::BAD_LENGTHS {
        let stream = [framed(17), framed(length)].concat();
        let mut reader = Reader::new();
        let mut keep = keep();
        let first = read(&mut reader, &mut keep, &stream);
        assert_eq!(first, (Ok(Shown::InPiece(19)), 19));
        assert_eq!(reader.held, 0);
        let second = read(&mut reader, &mut keep, &stream[19..]);
        assert_eq!(second, (Err(18), 0));
    }
}

#[test]
fn after_18_every_call_gives_18_whatever_the_keep_holds() {
    let mut random = Random::new(1);
    let mut reader = Reader::new();
    assert_eq!(read(&mut reader, &mut keep(), &[0, 16]), (Err(18), 0));
    for piece in [framed(17), Vec::new(), framed(0), framed(2_048)] {
        let mut keep = streams::keep(&mut random);
        let before = keep.clone();
        assert_eq!(read(&mut reader, &mut keep, &piece), (Err(18), 0));
        assert_eq!((reader.held, keep), (BROKEN, before));
    }
    // Begun anew, it reads again.
    let answer = read(&mut Reader::new(), &mut keep(), &framed(17));
    assert_eq!(answer, (Ok(Shown::InPiece(19)), 19));
}

#[test]
fn a_short_keep_gets_10_first_and_the_reader_is_as_before() {
    // States that fit, that do not fit, and the one after 18; pieces that are
    // empty, whole frames or bad.
    for held in [0, 1, 2, 19, 2_049, 2_050, 2_051, usize::MAX] {
        for piece in [Vec::new(), framed(17), framed(16)] {
            for length in [0, 1, 2, 2_049] {
                let mut reader = Reader { held };
                let mut keep = keep()[..length].to_vec();
                let before = keep.clone();
                assert_eq!(read(&mut reader, &mut keep, &piece), (Err(10), 0));
                assert_eq!((reader.held, keep), (held, before));
            }
        }
    }
}

#[test]
fn a_keep_of_2050_is_enough_and_no_more_of_a_longer_one_is_written() {
    let bytes = framed(2_048);
    for length in [2_050, 2_051, 5_000] {
        let mut keep = vec![0xee; length];
        let mut reader = Reader::new();
        let answer = read(&mut reader, &mut keep, &bytes[..2_049]);
        assert_eq!(answer, (Ok(Shown::More), 2_049));
        let answer = read(&mut reader, &mut keep, &[&bytes[2_049..], &[1; 9]].concat());
        assert_eq!(answer, (Ok(Shown::InKeep(2_050)), 1));
        assert_eq!(keep[..2_050], bytes);
        assert!(keep[2_050..].iter().all(|byte| *byte == 0xee));
    }
}

#[test]
fn every_state_is_refused_unless_its_bytes_start_an_unfinished_frame() {
    let mut random = Random::new(2);
    let mut keeps: Vec<Vec<u8>> = (0..8).map(|_| streams::keep(&mut random)).collect();
    for length in [0, 16, 17, 18, 255, 256, 2_047, 2_048, 2_049, 65_535_u16] {
        keeps.push(keep_with(&length.to_be_bytes()));
    }
    for before in keeps {
        for held in (0..=2_052).chain([5_000, usize::MAX]) {
            let mut keep = before.clone();
            let mut reader = Reader { held };
            // The state is tested for an empty piece too.
            let answer = read(&mut reader, &mut keep, &[]);
            let fits = held <= KEEP_BYTES && {
                let bytes = before[..held].to_vec();
                frames_of(&bytes) == (Vec::new(), Rest::Unfinished(bytes))
            };
            if fits {
                assert_eq!((answer, reader.held), ((Ok(Shown::More), 0), held));
            } else {
                assert_eq!((answer, reader.held), ((Err(18), 0), BROKEN));
            }
            assert_eq!(keep, before);
        }
    }
}

#[test]
fn frames_of_a_stream_by_hand() {
    let (a, b) = (framed(17), framed(2_048));
    let both = [&a[..], &b].concat();
    let unfinished = |bytes: &[u8]| Rest::Unfinished(bytes.to_vec());
    assert_eq!(frames_of(&[]), (vec![], unfinished(&[])));
    assert_eq!(frames_of(&[9]), (vec![], unfinished(&[9])));
    assert_eq!(frames_of(&both), (vec![a.clone(), b], unfinished(&[])));
    assert_eq!(frames_of(&both[..20]), (vec![a.clone()], unfinished(&[8])));
    for length in streams::BAD_LENGTHS {
        let stream = [&a[..], &framed(length)].concat();
        assert_eq!(frames_of(&stream), (vec![a.clone()], Rest::Bad));
    }
}
