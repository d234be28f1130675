//! Runs of the calls between two ticks, which have no stored form: in a run too
//! an arrival starts with the room's clock, and a pong answers a ping.

use super::both::Both;
use super::counts::Counts;
use super::history::History;
use reference::call::Call;
use reference::generate::Generator as Histories;
use reference::play::Why;
use reference::room::{Room, BASE};

const HISTORIES: u64 = 30;
const CALLS: usize = 3_000;

/// How many pings the clients of a room have not yet answered.
fn outstanding(room: &Room) -> usize {
    let seated = room.seats.iter().flatten();
    seated.filter(|client| client.owes_pong()).count()
}

#[test]
fn runs_between_ticks_are_the_second_programs() {
    let mut counts = Counts::new();
    let mut answered = 0;
    for seed in 0..HISTORIES {
        let mut both = Both::empty(seed as u8);
        let mut calls = Vec::new();
        for call in Histories::with_ticks(30_000 + seed, BASE).take(CALLS) {
            if !matches!(call, Call::Tick { .. }) {
                calls.push(call);
                continue;
            }
            let name = format!("{} calls of history {seed}, before {call:?}", calls.len());
            let history = History::new(name, std::mem::take(&mut calls), &both.room);
            let before = outstanding(&both.room);
            let played = both.play(history.whole());
            history.stopped(&played, history.length(), Why::End);
            answered += before.saturating_sub(outstanding(&both.room));
            counts.add(&played);
            both.make(&call);
        }
    }
    counts.say(&format!("between ticks, {answered} pings answered in them"));
    counts.demand(5_000, &[Why::End]);
    counts.demand_refusals();
    assert!(answered >= 1_000, "only {answered} pings answered");
}
