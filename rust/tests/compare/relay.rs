//! The calls of the relay, history by history, against the second program.
//!
//! Each call is made on lent memory and on the second program's room. The
//! answers must be the same, and every byte of the output and of the memory
//! around: the records and behind them the old bytes; after a refusal the old
//! bytes alone. The memory must hold the second program's room.
//!
//! Histories with ticks are in `ticks`.

use crate::generator::Generator;
use crate::memory::{damage, restore_ticked, Damage, ROOM_BYTES, SEATS_TABLE};
use crate::outcome::{expected, make, Outcome};
use crate::output::Output;
use crate::tally::say;
use banavoge::raw;
use reference::call::Call;
use reference::generate::Generator as Histories;
use reference::memory;
use reference::met::Met;
use reference::record;
use reference::refusal::Refusal;
use reference::room::{Accepted, BASE, LEAST_TICK_OUTPUT};
use std::collections::BTreeMap;

const HISTORIES: u64 = 40;
const CALLS: usize = 8_000;
/// The memory is decoded after so many calls.
const DECODED: usize = 50;

/// count (1), order (40) of the table of seats
const SEATS_COUNT: usize = SEATS_TABLE;
const SEATS_ORDER: usize = SEATS_TABLE + 1;

/// The bytes by which an output is longer than it has to be, most often none.
const LONGER: [usize; 4] = [0, 0, 1, 952];

/// An output after a call that was answered so: the records, and behind them the
/// old bytes.
pub fn written(before: &Output, answer: &Result<Accepted, Refusal>) -> Output {
    let mut after = before.clone();
    if let Ok(accepted) = answer {
        let sent = record::bytes(&accepted.records);
        after.lent()[..sent.len()].copy_from_slice(&sent);
    }
    after
}

/// A new empty room, in memory filled with a pattern.
pub fn empty_room(salt: u8) -> Output {
    let mut room = Output::new(ROOM_BYTES + usize::from(salt % 3), salt);
    assert_eq!(raw::room::empty(room.lent()), 0);
    room
}

/// Makes a call that must be refused with this number and leave every byte of
/// the memory and of the output, and the place for a seat.
pub fn refused(call: &Call, room: &Output, length: usize, output: usize, number: Refusal) {
    let mut memory = room.clone();
    let mut out = Output::new(output, 0x33);
    let before = out.clone();
    let outcome = make(call, &mut memory.lent()[..length], out.lent());
    let told = format!("{call:?}, output of {output} bytes");
    assert_eq!(outcome, Outcome::refused(number), "{told}");
    assert!(memory == *room, "{call:?}: the memory was changed");
    assert!(out == before, "{call:?}: the output was written to");
}

/// A room in lent memory beside the second program's, and how much was compared.
pub struct Compared {
    pub met: Met,
    memory: Output,
    pub calls: usize,
    pub decoded: usize,
    /// The most bytes that a call sent.
    pub longest: usize,
}

impl Compared {
    pub fn new() -> Compared {
        Compared {
            met: Met::new(BASE),
            memory: empty_room(0),
            calls: 0,
            decoded: 0,
            longest: 0,
        }
    }

    /// Makes the calls of another history by both, from the empty room on, and
    /// fails where the two differ.
    pub fn history(&mut self, name: u64, calls: impl Iterator<Item = Call>) {
        self.met.begin();
        self.memory = empty_room(name as u8);
        for (place, call) in calls.enumerate() {
            let told = format!("call {place} of history {name}: {call:?}");
            self.call(place, &call, &told);
        }
        self.same_room("the last room");
    }

    fn call(&mut self, place: usize, call: &Call, told: &str) {
        let before = self.memory.clone();
        let least = call.least_output() + LONGER[place % LONGER.len()];
        let mut out = Output::new(least, place as u8);
        let out_before = out.clone();
        let found = make(call, self.memory.lent(), out.lent());
        let answer = self.met.make(call);
        assert_eq!(found, expected(call, &answer), "{told}");
        match &answer {
            Ok(accepted) => self.accepted(call, accepted, &before, told),
            Err(_) => assert!(self.memory == before, "{told}: the memory was changed"),
        }
        let out_after = written(&out_before, &answer);
        assert!(
            out == out_after,
            "{told}: the output differs first at {}",
            out.first_difference(&out_after)
        );
        let tick = matches!(call, Call::Tick { .. });
        if place % DECODED == 0 || answer.is_err() || tick {
            self.same_room(told);
        }
        self.calls += 1;
    }

    /// What stands around the room is as before; of a tick, so is all of the
    /// room that it may not change.
    fn accepted(&mut self, call: &Call, accepted: &Accepted, before: &Output, told: &str) {
        self.longest = self.longest.max(record::bytes(&accepted.records).len());
        let mut after = self.memory.clone();
        if let Call::Tick { .. } = call {
            let pings = accepted.records.iter().filter(|sent| sent.packet[0] == 4);
            let pinged: Vec<usize> = pings.map(|sent| sent.seat).collect();
            restore_ticked(after.lent(), before.clone().lent(), &pinged);
            assert!(after == *before, "{told}: more of the memory was changed");
        }
        let around = self.memory.around(ROOM_BYTES) == before.around(ROOM_BYTES);
        assert!(around, "{told}: the memory around the room was changed");
    }

    fn same_room(&mut self, told: &str) {
        let held = memory::decode(self.memory.lent());
        assert!(held.as_ref() == Some(self.met.room()), "{told}: the room");
        self.decoded += 1;
    }
}

/// A line for each case with its count; fails where one was never met.
pub fn all_met(counts: &BTreeMap<&'static str, usize>) -> String {
    let mut text = String::new();
    for (case, count) in counts {
        assert!(*count > 0, "{case} was never met");
        text += &format!("  {case}: {count}\n");
    }
    text
}

#[test]
fn every_call_of_made_up_histories_is_the_second_programs() {
    let mut compared = Compared::new();
    for history in 0..HISTORIES {
        let calls = Histories::new(5_000 + history, BASE).take(CALLS);
        compared.history(history, calls);
    }

    let Compared {
        calls,
        decoded,
        longest,
        ..
    } = compared;
    let text = format!(
        "calls of the relay: {calls} in {HISTORIES} histories, {decoded} rooms decoded, \
         at most {longest} bytes sent\n"
    );
    say(&(text + &all_met(compared.met.counts())));
    assert!(calls >= 300_000, "only {calls} calls");
}

/// Refusals 10 and 11 come before all others, and leave every byte.
#[test]
fn short_outputs_and_damaged_rooms_are_refused() {
    let mut random = Generator::new(23);
    let (mut tens, mut tick_tens, mut elevens) = (0, 0, 0);
    let (mut own_keys, mut late_pings, mut tick_elevens) = (0, 0, 0);
    for history in 0..20 {
        let mut histories = Histories::with_ticks(7_000 + history, BASE);
        let mut room = empty_room(history as u8);
        let mut out = vec![0; LEAST_TICK_OUTPUT];
        for call in histories.by_ref().take(300) {
            make(&call, room.lent(), &mut out);
        }
        assert!(memory::decode(room.lent()).as_ref() == Some(histories.room()));
        let length = room.lent().len();
        let listed = room.lent()[SEATS_COUNT];
        let mut above = room.clone();
        above.lent()[SEATS_COUNT] = 41 + history as u8;
        let mut swapped = room.clone();
        swapped.lent().swap(SEATS_ORDER, SEATS_ORDER + 1);
        let mut damaged = |kind| {
            let mut memory = room.clone().lent().to_vec();
            let done = damage(kind, &mut memory, &mut random);
            done.then(|| Output::holding(&memory, history as u8))
        };
        let itself = damaged(Damage::OwnKeyNamed);
        let late = damaged(Damage::PingTimeAfterClock);
        for call in histories.take(200) {
            let least = call.least_output();
            let tick = matches!(call, Call::Tick { .. });
            for output in [0, 1, 2_047, 2_048, 5_119] {
                if output < least {
                    refused(&call, &room, length, output, 10);
                    // Before 11.
                    refused(&call, &above, length, output, 10);
                    tens += 2;
                    tick_tens += if tick { 2 } else { 0 };
                }
            }
            refused(&call, &above, length, least, 11);
            refused(&call, &room, ROOM_BYTES - 1, least, 11);
            refused(&call, &room, 0, least, 11);
            elevens += 3;
            tick_elevens += if tick { 3 } else { 0 };
            if listed > 1 {
                refused(&call, &swapped, length, least, 11);
                elevens += 1;
            }
            if let Some(itself) = &itself {
                refused(&call, itself, length, least, 11);
                own_keys += 1;
            }
            if let Some(late) = &late {
                refused(&call, late, length, least, 11);
                late_pings += 1;
            }
        }
    }
    elevens += own_keys + late_pings;
    say(&format!(
        "calls of the relay refused: refusal 10: {tens}, of these ticks: {tick_tens}, \
         refusal 11: {elevens}, of these for a seat that names its own key: {own_keys}, \
         for a ping time after the clock: {late_pings}\n"
    ));
    assert!(tens >= 1_000 && tick_tens >= 1_000 && tick_elevens >= 1_000);
    assert!(elevens >= 1_000 && own_keys >= 1_000 && late_pings >= 1_000);
}
