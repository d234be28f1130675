//! Runs on memory that may hold no whole room.

use super::both::{Both, UNSET};
use super::counts::Counts;
use super::history::History;
use super::lent::Lent;
use crate::generator::Generator;
use crate::memory::{damage, memory_of, Damage, DAMAGES};
use crate::output::Output;
use crate::own_key;
use crate::tally::say;
use banavoge::raw;
use reference::call::Call;
use reference::generate::Generator as Histories;
use reference::memory;
use reference::play::{Played, Why};
use reference::room::{Room, BASE};

const ROOMS: usize = 60;

/// The whole history, and one ground after the other to stop at once: 11 comes
/// before them all.
fn lents(history: &History) -> [Lent<'_>; 5] {
    let whole = history.whole();
    let (nothing, no_call) = (&[], &[3, 0, 0, 0]);
    let (allowance, output) = (0, 0);
    [
        whole,
        Lent {
            calls: nothing,
            ..whole
        },
        Lent { allowance, ..whole },
        Lent {
            calls: no_call,
            ..whole
        },
        Lent { output, ..whole },
    ]
}

/// A run that must be refused with 11, and leave every byte of the memory and
/// of the output, and the three places.
fn refused(memory: &[u8], lent: Lent) {
    let name = lent.name;
    let mut room = Output::holding(memory, 0x44);
    let mut out = Output::new(lent.output, 0x55);
    let (room_before, out_before) = (room.clone(), out.clone());
    let mut counts = UNSET;
    let answer = raw::play::play(
        room.lent(),
        lent.calls,
        lent.allowance,
        out.lent(),
        &mut counts,
    );
    assert_eq!(answer, -11, "{name}");
    assert_eq!(counts, UNSET, "{name}: the places were set");
    assert!(room == room_before, "{name}: the memory was changed");
    assert!(out == out_before, "{name}: the output was written to");
}

/// A run on memory that holds this room.
fn played(memory: &[u8], room: &Room, lent: Lent) -> Played {
    let mut both = Both {
        memory: Output::holding(memory, 0x66),
        room: room.clone(),
    };
    both.play(lent)
}

/// Plays these calls on memory, and with each ground to stop at once. Each run
/// is refused, or the memory holds a room and the second program plays on that
/// too. Answers how many were refused.
fn play_each(memory: &[u8], name: String, calls: Vec<Call>, counts: &mut Counts) -> usize {
    let held = memory::decode(memory);
    let empty = Room::empty(BASE);
    let history = History::new(name, calls, held.as_ref().unwrap_or(&empty));
    let mut refusals = 0;
    for lent in lents(&history) {
        match &held {
            Some(held) => counts.add(&played(memory, held, lent)),
            None => {
                refused(memory, lent);
                refusals += 1;
            }
        }
    }
    refusals
}

/// Bytes that are no part of the room are random.
#[test]
fn runs_on_damaged_memory_are_refused_or_the_second_programs() {
    let mut random = Generator::new(45);
    let mut counts = Counts::new();
    let (mut refusals, mut own_keys) = (0, 0);
    let mut histories = Histories::new(28_000, BASE);
    for made in 0..ROOMS {
        let room = histories.room().clone();
        let sound = memory_of(&room, &mut random);
        let calls: Vec<Call> = histories.by_ref().take(60).collect();
        for kind in DAMAGES {
            let mut memory = sound.clone();
            if !damage(kind, &mut memory, &mut random) {
                continue;
            }
            let name = format!("{kind:?} of room {made}");
            let refused = play_each(&memory, name, calls.clone(), &mut counts);
            refusals += refused;
            if matches!(kind, Damage::OwnKeyNamed) {
                own_keys += refused;
            }
        }
    }
    counts.say("on damaged memory that holds a room");
    say(&format!(
        "runs on damaged memory, refusal 11: {refusals}, \
         of these for a seat that names its own key: {own_keys}\n"
    ));
    counts.demand(500, &[Why::End, Why::NoCall, Why::Allowance, Why::Output]);
    counts.demand_refusals();
    assert!(refusals >= 1_000, "only {refusals} refused");
    assert!(own_keys >= 100, "only {own_keys} refused for an own key");
}

/// A seat that names its own key, and the rooms that differ from that alone.
#[test]
fn runs_on_rooms_where_a_seat_names_its_own_key_are_refused() {
    let mut counts = Counts::new();
    let mut refusals = 0;
    for case in own_key::cases() {
        let (memory, name) = (case.memory(), format!("{case:?}"));
        let refused = play_each(&memory, name, case.calls(), &mut counts);
        assert_eq!(refused > 0, !case.is_whole(), "{case:?}");
        refusals += refused;
    }
    counts.say("beside a room where a seat names its own key");
    say(&format!(
        "runs on rooms where a seat names its own key, refusal 11: {refusals}\n"
    ));
    counts.demand(500, &[Why::End, Why::NoCall, Why::Allowance, Why::Output]);
    counts.demand_refusals();
    assert!(refusals >= 100, "only {refusals} refused");
}

#[test]
fn runs_on_memory_too_short_are_refused() {
    let mut histories = Histories::new(29_000, BASE);
    histories.nth(500);
    let room = histories.room().clone();
    let memory = memory::encode(&room);
    let calls = histories.take(10).collect();
    let history = History::new("memory too short".into(), calls, &room);
    let mut refusals = 0;
    let ends = [0, 1, 2, 3, 42, 43, memory.len() - 1];
    for length in ends.into_iter().chain((0..memory.len()).step_by(499)) {
        for lent in lents(&history) {
            refused(&memory[..length], lent);
            refusals += 1;
        }
    }
    say(&format!(
        "runs on memory too short, refusal 11: {refusals}\n"
    ));
}
