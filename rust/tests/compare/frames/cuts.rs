//! Streams, cut in two at every place, in three at every two, and in any way.

use super::counts::Counts;
use super::whole::Whole;
use reference::random::Random;
use reference::streams::{self, End, BAD_LENGTHS, CUTS, ENDS, GOOD_LENGTHS};

/// Streams made up for each end and each way to cut.
const STREAMS: usize = 24;

/// Frames in a stream that is longer than several pieces of 64 KiB.
const MANY: usize = 400;

/// Streams that are cut at every place: frames of each length next to a limit,
/// and behind them each bad length, nothing, and a frame that is not complete.
fn every_length(random: &mut Random) -> Vec<Vec<u8>> {
    let good = GOOD_LENGTHS.map(|length| streams::frame(random, length));
    let [shortest, short, long, longest] = &good;
    let front = [&shortest[..], longest, short].concat();
    let mut all = vec![front.clone(), [&long[..], &longest[..2_049]].concat()];
    for length in BAD_LENGTHS {
        let bad = [&streams::frame(random, length)[..2], shortest].concat();
        all.push([&front[..], &bad].concat());
        all.push(bad);
    }
    all
}

/// Every stream in two pieces, of which one may be empty.
pub fn in_two(counts: &mut Counts) {
    let random = &mut Random::new(31);
    for stream in every_length(random) {
        let keep = streams::keep(random);
        for (first, second) in streams::two_pieces(&stream) {
            let mut whole = Whole::new(&stream, &keep);
            whole.piece(first.len(), counts);
            whole.check_used();
            if !whole.ended() {
                whole.piece(second.len(), counts);
            }
            whole.check_all(counts);
        }
    }
}

/// Short streams in three pieces, so that a frame, and what comes in a length
/// behind it, is cut at every two places.
pub fn in_three(counts: &mut Counts) {
    let random = &mut Random::new(32);
    for length in [17, 18].into_iter().chain(BAD_LENGTHS) {
        let frame = streams::frame(random, 17);
        let last = &streams::frame(random, length)[..2];
        let stream = [&frame[..], last, &frame].concat();
        let keep = streams::keep(random);
        for end in 0..=stream.len() {
            for place in 0..=end {
                let mut whole = Whole::new(&stream, &keep);
                for length in [place, end - place, stream.len() - end] {
                    if !whole.ended() {
                        whole.piece(length, counts);
                        whole.check_used();
                    }
                }
                whole.check_all(counts);
            }
        }
    }
}

/// Streams made up, with each end, cut in each way: into pieces that are given
/// to their end, and anew at each call, where what is left of a piece comes
/// again with more or fewer bytes behind it.
pub fn made_up(counts: &mut Counts) {
    let random = &mut Random::new(33);
    for end in ENDS {
        for place in 0..STREAMS {
            let stream = streams::stream(random, place % 8, end);
            read_in_each_way(random, &stream, counts);
        }
    }
    let stream = streams::stream(random, MANY, End::Bad);
    assert!(stream.len() > 3 * 65_536);
    read_in_each_way(random, &stream, counts);
}

fn read_in_each_way(random: &mut Random, stream: &[u8], counts: &mut Counts) {
    for cut in CUTS {
        let keep = streams::keep(random);
        let mut in_pieces = Whole::new(stream, &keep);
        while !in_pieces.ended() {
            let length = streams::cut(random, cut, in_pieces.left());
            in_pieces.piece(length, counts);
        }
        in_pieces.check_all(counts);

        let mut at_each_call = Whole::new(stream, &keep);
        while !at_each_call.ended() {
            let length = streams::cut(random, cut, at_each_call.left());
            at_each_call.call(length, counts);
        }
        at_each_call.check_all(counts);
    }
}
