//! Histories with ticks, against the second program, as `relay` compares the
//! others: request 03 of document 02, "Notice dead laptops".
//!
//! Of a tick the room is decoded each time, and every byte of the memory that it
//! may not change must be as before.

use crate::outcome::make;
use crate::output::Output;
use crate::relay::{all_met, Compared};
use crate::tally::{say, Tally};
use banavoge::raw;
use reference::call::Call;
use reference::generate::Generator as Histories;
use reference::memory;
use reference::met_ticks::TICK_CASES;
use reference::room::{Room, BASE, LEAST_TICK_OUTPUT};

const HISTORIES: u64 = 110;
const CALLS: usize = 3_000;

#[test]
fn every_call_of_histories_with_ticks_is_the_second_programs() {
    let mut compared = Compared::new();
    for history in 0..HISTORIES {
        let calls = Histories::with_ticks(40_000 + history, BASE).take(CALLS);
        compared.history(history, calls);
    }

    let Compared { calls, decoded, .. } = compared;
    let largest = compared.met.largest_tick();
    let text = format!(
        "calls of the relay with ticks: {calls} in {HISTORIES} histories, {decoded} rooms \
         decoded, at most {largest} bytes sent by a tick\n"
    );
    let counts = compared.met.tick_counts();
    say(&(text + &all_met(counts)));
    all_met(compared.met.counts());
    assert_eq!(counts.len(), TICK_CASES.len());
    assert!(calls >= 300_000, "only {calls} calls");
}

/// A tick, with the length of the memory and of the output that it is lent.
#[derive(Debug, Clone, Copy)]
struct Tried {
    memory: usize,
    time: u64,
    ping: u64,
    output: usize,
}

impl Tried {
    /// Ticks in which each ground of a refusal holds by itself, and with each of
    /// the others.
    fn all(clock: u64) -> Vec<Tried> {
        let whole = raw::room::bytes();
        let times = [0, clock / 2, clock.saturating_sub(1), clock, u64::MAX];
        let mut all = Vec::new();
        for time in times {
            for memory in [whole, whole - 1] {
                for ping in [0, 1] {
                    all.extend([0, 2_048, 5_119, LEAST_TICK_OUTPUT].map(|output| Tried {
                        memory,
                        time,
                        ping,
                        output,
                    }));
                }
            }
        }
        all
    }

    /// The first ground that holds, in the order 10, 11, 7, 19.
    fn expected(self, clock: u64) -> Result<(), u8> {
        let grounds = [
            (self.output < LEAST_TICK_OUTPUT, 10),
            (self.memory < raw::room::bytes(), 11),
            (self.ping == 0, 7),
            (self.time < clock, 19),
        ];
        let first = grounds.into_iter().find(|(holds, _)| *holds);
        first.map_or(Ok(()), |(_, number)| Err(number))
    }

    /// The tick on memory that holds this room. A refusal leaves every byte.
    fn made(self, room: &Room) -> Result<(), u8> {
        let mut memory = Output::holding(&memory::encode(room), 0x44);
        let mut out = Output::new(self.output, 0x33);
        let before = (memory.clone(), out.clone());
        let (time, ping) = (self.time, self.ping);
        let call = Call::Tick { time, ping };
        let outcome = make(&call, &mut memory.lent()[..self.memory], out.lent());
        if outcome.answer >= 0 {
            return Ok(());
        }
        assert!((memory, out) == before, "{self:?}: a byte was changed");
        Err(-outcome.answer as u8)
    }
}

#[test]
fn the_refusals_of_a_tick_come_in_their_order() {
    let mut tally = Tally::new();
    for seed in 0..80 {
        let mut histories = Histories::with_ticks(41_000 + seed, BASE);
        histories.nth(300 + 7 * seed as usize);
        let room = histories.room();
        for tried in Tried::all(room.clock) {
            let answer = tried.made(room);
            assert_eq!(answer, tried.expected(room.clock), "{tried:?}");
            tally.add(&answer);
        }
    }
    say(&tally.line("ticks, in the order of their refusals"));
    tally.demand("ticks", &[10, 11, 7, 19]);
}
