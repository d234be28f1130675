//! Stored calls with one byte changed.

use super::both::Both;
use super::counts::Counts;
use super::course::{Course, Fill, FILLS};
use super::every_form::every_form;
use super::history::History;
use super::lent::Lent;
use crate::generator::Generator;
use crate::tally::say;
use reference::call::Call;
use reference::play::{Played, Why};

/// What a changed byte makes of a call: nothing that is one.
#[derive(Debug, Clone, Copy, PartialEq, Eq)]
enum Damage {
    UnknownCall,
    ArriveWithSeat,
    ArriveOf31,
    ArriveOf33,
    ArriveOfOtherLength,
    ArriveAsLeave,
    LeaveWithBytes,
    LeaveAsArrive,
    PacketLongerThanAll,
}

use Damage::*;

const DAMAGES: [Damage; 9] = [
    UnknownCall,
    ArriveWithSeat,
    ArriveOf31,
    ArriveOf33,
    ArriveOfOtherLength,
    ArriveAsLeave,
    LeaveWithBytes,
    LeaveAsArrive,
    PacketLongerThanAll,
];

/// The bytes that do this damage to a call, each with its place in the call:
/// 0 the call, 1 the seat, 2 and 3 the length.
fn changes(damage: Damage, call: &Call) -> Vec<(usize, u8)> {
    let at = |place: usize, bytes: &[u8]| bytes.iter().map(|byte| (place, *byte)).collect();
    let (arrive, leave) = match call {
        Call::Arrive { .. } => (true, false),
        Call::Leave { .. } => (false, true),
        Call::Packet { .. } => (false, false),
        Call::Tick { .. } => unreachable!("a tick has no stored form"),
    };
    match damage {
        UnknownCall => (3..=255).map(|byte| (0, byte)).collect(),
        ArriveWithSeat if arrive => (1..=255).map(|seat| (1, seat)).collect(),
        ArriveOf31 if arrive => at(3, &[31]),
        ArriveOf33 if arrive => at(3, &[33]),
        ArriveOfOtherLength if arrive => [at(2, &[1, 32, 255]), at(3, &[0, 1, 255])].concat(),
        ArriveAsLeave if arrive => at(0, &[1]),
        LeaveWithBytes if leave => [at(2, &[1, 255]), at(3, &[1, 2, 32, 255])].concat(),
        LeaveAsArrive if leave => at(0, &[0]),
        PacketLongerThanAll if !arrive && !leave => at(2, &[255]),
        _ => Vec::new(),
    }
}

/// What is damaged: each history with the room that it begins from. Answers of
/// every form have the refusals 3 to 9, and full rooms have 1.
fn histories() -> Vec<(Both, History)> {
    let mut histories = vec![(Both::empty(3), every_form())];
    for fill in FILLS {
        for length in [1, 2, 3, 5, 8, 13, 40] {
            let mut course = Course::to(fill, 24_300 + length as u64);
            let history = course.next(length);
            histories.push((course.both, history));
        }
    }
    histories
}

/// Plays the history with one byte of its stored calls changed, on a copy of
/// the room.
fn play(both: &Both, history: &History, place: usize, byte: u8) -> Played {
    let mut calls = history.stored.clone();
    calls[place] = byte;
    let lent = Lent {
        calls: &calls,
        ..history.whole()
    };
    both.clone().play(lent)
}

/// Does this damage to each call of the history that it can be done to, in each
/// way. The run must stop where the damaged call starts. Answers how many ran.
fn damage_each_call(damage: Damage, both: &Both, history: &History, counts: &mut Counts) -> usize {
    let mut runs = 0;
    for (calls, call) in history.calls.iter().enumerate() {
        for (place, byte) in changes(damage, call) {
            let played = play(both, history, history.starts[calls] + place, byte);
            history.stopped(&played, calls, Why::NoCall);
            counts.add(&played);
            runs += 1;
        }
    }
    runs
}

#[test]
fn runs_stop_where_a_byte_makes_a_call_none() {
    let mut counts = Counts::new();
    let mut met = [0; DAMAGES.len()];
    for (both, history) in histories() {
        // So a packet of 65,280 bytes or more is cut short.
        assert!(history.stored.len() < 65_280);
        for (damage, met) in DAMAGES.into_iter().zip(&mut met) {
            *met += damage_each_call(damage, &both, &history, &mut counts);
        }
    }
    counts.say("with a call that is none");
    let mut text = String::from("runs with a call that is none, by what was done");
    for (damage, count) in DAMAGES.iter().zip(met) {
        text += &format!(", {damage:?}: {count}");
    }
    say(&(text + "\n"));
    counts.demand(10_000, &[Why::NoCall]);
    counts.demand_refusals();
    for (damage, count) in DAMAGES.iter().zip(met) {
        assert!(count > 0, "{damage:?} was never met");
    }
}

/// A byte changed anywhere makes other calls, or none, or moves where the
/// following ones start: the second program tells.
#[test]
fn runs_with_any_byte_changed_are_the_second_programs() {
    let mut random = Generator::new(43);
    let mut counts = Counts::new();
    let mut course = Course::to(Fill::Full, 25_000);
    for _ in 0..100 {
        let history = course.next(1 + random.below(80));
        for _ in 0..200 {
            // Half of them near the start of a call.
            let near = random.pick(&history.starts) + random.below(4);
            let any = random.below(history.stored.len());
            let place = random.pick(&[near, any]).min(history.stored.len() - 1);
            // Calls, seats and high bytes of lengths are low.
            let (low, any) = (random.below(64) as u8, random.byte());
            let byte = random.pick(&[low, any]);
            counts.add(&play(&course.both, &history, place, byte));
        }
        course.both.play(history.whole());
    }
    counts.say("any byte changed");
    counts.demand(20_000, &[Why::End, Why::NoCall, Why::Output]);
    counts.demand_refusals();
}
