//! Frames of a stream, whole in a piece and cut between pieces.

use crate::harness::{used, Harness};
use crate::table::{thousands, Row, Table};
use banavoge::raw::frames::{self as library, Places};
use reference::frames::{self as second, Reader, Shown, KEEP_BYTES};
use reference::random::Random;
use reference::streams::frame;
use std::hint::black_box;

/// Sealed bytes in a frame: the fewest, few, so many as nearly fill a frame of a
/// network, and the most.
const LENGTHS: [usize; 4] = [17, 100, 1_400, 2_048];

/// Frames in a stream. Where they are whole, it is one piece.
const FRAMES: usize = 32;

/// How often the stream is read in a turn.
const TIMES: usize = 32;

/// Sealed bytes in a frame that is cut, and how many bytes a piece then has.
const CUT_LENGTH: usize = 1_400;
const CUT: usize = 500;

/// Which of the sides is a plain copy.
pub const COPY: usize = 2;

pub fn table(harness: &mut Harness) -> Table {
    let mut rows = Vec::new();
    for length in LENGTHS {
        let stream = Stream::new(length);
        let name = format!("{} bytes{WHOLE}", thousands(length));
        rows.push(row(harness, &name, &stream, stream.bytes.len()));
    }
    let stream = Stream::new(CUT_LENGTH);
    let row = row(harness, &cut_name(), &stream, CUT);
    rows.push(row.carrying(CUT_LENGTH));
    Table {
        title: "Frames",
        words: "One frame shown, of so many sealed bytes. Whole in the piece: 32 frames in each, \
                and a last call that finds no more is in the time. Cut: the same frames in pieces \
                of 500 bytes, so that each is put together in the keep. The second program copies \
                what is left of the piece at each call. Plain copy: nothing is read, and the same \
                bytes are copied to one place, frame by frame, or piece by piece where they are \
                cut.",
        rows_are: "frame",
        sides: &["library", "second program", "plain copy"],
        same_tests: 1,
        rows,
    }
}

/// How the names of the rows end in which frames are whole in the piece.
pub const WHOLE: &str = ", whole in the piece";

/// The name of the row in which frames are cut.
pub fn cut_name() -> String {
    format!("{} bytes, cut every {CUT}", thousands(CUT_LENGTH))
}

/// Frames of one length, one behind the other.
struct Stream {
    bytes: Vec<u8>,
    /// How many bytes each frame has, its length bytes included.
    frame: usize,
}

impl Stream {
    fn new(length: usize) -> Stream {
        let mut random = Random::new(9);
        let frames = (0..FRAMES).map(|_| frame(&mut random, length));
        Stream {
            bytes: frames.collect::<Vec<_>>().concat(),
            frame: 2 + length,
        }
    }
}

/// A stream, read again and again in pieces of so many bytes.
fn row(harness: &mut Harness, name: &str, stream: &Stream, piece: usize) -> Row {
    let bytes = &stream.bytes[..];
    let mut keeps = [[0; KEEP_BYTES]; 3];
    let [keep, second_keep, copy] = &mut keeps;
    assert_eq!(by_library(bytes, piece, keep), FRAMES);
    assert_eq!(by_second(bytes, piece, second_keep), FRAMES);
    assert_eq!(keep, second_keep);

    let mut by_library = || {
        for _ in 0..TIMES {
            used(&by_library(black_box(bytes), piece, keep));
        }
    };
    let mut by_second = || {
        for _ in 0..TIMES {
            used(&by_second(black_box(bytes), piece, second_keep));
        }
    };
    let part = piece.min(stream.frame);
    let mut copied = || {
        for _ in 0..TIMES {
            copy_all(black_box(bytes), part, copy);
        }
    };
    let frames = TIMES * FRAMES;
    let times = harness.measure(frames, &mut [&mut by_library, &mut by_second, &mut copied]);
    Row::new(name, times)
}

/// Reads a stream with the library, and answers how many frames it shows.
fn by_library(stream: &[u8], piece: usize, keep: &mut [u8]) -> usize {
    let (mut places, mut shown) = (Places::default(), 0);
    for mut piece in stream.chunks(piece) {
        while library::read(keep, piece, &mut places) > 0 {
            used(&places);
            piece = &piece[places.used..];
            shown += 1;
        }
    }
    shown
}

/// Reads it with the second program.
fn by_second(stream: &[u8], piece: usize, keep: &mut [u8]) -> usize {
    let (mut reader, mut shown) = (Reader::new(), 0);
    for mut piece in stream.chunks(piece) {
        loop {
            let (outcome, count) = second::read(&mut reader, keep, piece);
            used(&outcome);
            if !matches!(outcome, Ok(Shown::InPiece(_) | Shown::InKeep(_))) {
                break;
            }
            piece = &piece[count..];
            shown += 1;
        }
    }
    shown
}

/// Copies it, part by part, to the front of one buffer.
fn copy_all(stream: &[u8], part: usize, to: &mut [u8; KEEP_BYTES]) {
    for part in stream.chunks(part) {
        to[..part.len()].copy_from_slice(part);
        used(to);
    }
}
