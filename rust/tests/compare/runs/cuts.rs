//! Stored calls that are cut at every byte.

use super::both::Both;
use super::counts::Counts;
use super::course::{Course, Fill};
use super::early;
use super::every_form::every_form;
use super::history::History;
use crate::generator::Generator;
use crate::tally::say;
use reference::call::Call;
use reference::play::Why;

/// So many runs are cut with each kind of call last.
const RUNS: usize = 20;

/// In so many runs every kind of call is last often enough.
const MOST_RUNS: usize = 10_000;

const KINDS: [&str; 10] = [
    "arrive",
    "leave",
    "request",
    "drop",
    "ping",
    "pong",
    "out-of-band",
    "data",
    "packet of no byte",
    "packet of another kind",
];

/// The kind of a call, as its place among the kinds.
fn kind(call: &Call) -> usize {
    match call {
        Call::Arrive { .. } => 0,
        Call::Leave { .. } => 1,
        Call::Packet { bytes, .. } => match bytes.first() {
            Some(0) => 2,
            Some(3) => 3,
            Some(4) => 4,
            Some(5) => 5,
            Some(6) => 6,
            Some(16..) => 7,
            None => 8,
            Some(_) => 9,
        },
        Call::Tick { .. } => unreachable!("a tick has no stored form"),
    }
}

fn cut_last_three_calls(both: &Both, history: &History, counts: &mut Counts) {
    let first = history.starts[history.length().saturating_sub(3)];
    for place in first..=history.stored.len() {
        counts.add(&early::cut(both, history, place));
    }
}

#[test]
fn runs_are_cut_at_every_byte_of_their_last_three_calls() {
    let mut random = Generator::new(42);
    let mut counts = Counts::new();
    let mut met = [0; KINDS.len()];
    let mut course = Course::to(Fill::Empty, 23_000);
    for _ in 0..MOST_RUNS {
        if met == [RUNS; KINDS.len()] {
            break;
        }
        let history = course.next(1 + random.below(24));
        let last = kind(history.calls.last().expect("a call"));
        if met[last] < RUNS {
            met[last] += 1;
            cut_last_three_calls(&course.both, &history, &mut counts);
        }
        course.both.play(history.whole());
    }
    counts.say("cut at every byte of the last three calls");
    let mut text = String::from("runs cut, by their last call");
    for (kind, met) in KINDS.iter().zip(met) {
        text += &format!(", {kind}: {met}");
    }
    say(&(text + "\n"));
    counts.demand(10_000, &[Why::End, Why::NoCall]);
    counts.demand_refusals();
    assert_eq!(met, [RUNS; KINDS.len()], "too few of a kind");
}

/// Every byte of every call, and not only of the last ones.
#[test]
fn answers_of_every_form_are_cut_at_every_byte() {
    let mut counts = Counts::new();
    let both = Both::empty(2);
    let history = every_form();
    for place in 0..=history.stored.len() {
        counts.add(&early::cut(&both, &history, place));
    }
    counts.say("answers of every form, cut at every byte");
    counts.demand(3_000, &[Why::End, Why::NoCall]);
}

/// Where a packet of so many bytes is cut, counted from the start of its call:
/// everywhere, or at both ends and here and there.
fn places(bytes: usize) -> Vec<usize> {
    let end = 4 + bytes;
    let every = |place: &usize| end < 2_100 || *place < 600 || end - *place < 600;
    (0..=end)
        .filter(|place| every(place) || place % 251 == 0)
        .collect()
}

/// The two bytes of a length are told apart: a cut behind as many bytes as one
/// of them says, or both in the wrong order, leaves no call.
#[test]
fn packets_of_every_size_are_cut() {
    let mut counts = Counts::new();
    let both = Both::empty(0);
    for bytes in [
        0, 1, 255, 256, 257, 512, 2_032, 2_033, 4_351, 65_279, 65_280, 65_535,
    ] {
        let packet = Call::Packet {
            seat: 0,
            bytes: vec![0x10; bytes],
        };
        let calls = vec![Call::Arrive { key: [0x11; 32] }, packet];
        let name = format!("a packet of {bytes} bytes");
        let history = History::new(name, calls, &both.room);
        for place in places(bytes) {
            let place = history.starts[1] + place;
            counts.add(&early::cut(&both, &history, place));
        }
    }
    counts.say("packets of up to 65,535 bytes cut");
    counts.demand(5_000, &[Why::End, Why::NoCall]);
}
