//! A history that is lent too little of one thing, or just enough: how many
//! calls are played, and why no more, is told from its places alone.

use super::both::Both;
use super::history::History;
use super::lent::Lent;
use reference::play::{Played, Why};

/// Plays the history with its stored calls cut at a place. What is cut off
/// stands in memory still, so a reader that looks too far finds a call.
pub fn cut(both: &Both, history: &History, place: usize) -> Played {
    let calls = history.calls_before(place);
    let why = match history.starts[calls] == place {
        true => Why::End,
        false => Why::NoCall,
    };
    let lent = Lent {
        calls: &history.stored[..place],
        ..history.whole()
    };
    play(both, history, lent, calls, why)
}

/// Plays at most so many calls of the history.
pub fn allow(both: &Both, history: &History, allowance: usize) -> Played {
    let calls = allowance.min(history.length());
    let lent = Lent {
        allowance,
        ..history.whole()
    };
    let why = unless_all(history, calls, Why::Allowance);
    play(both, history, lent, calls, why)
}

/// Plays the history into an output of so many bytes.
pub fn output(both: &Both, history: &History, output: usize) -> Played {
    let calls = history.calls_with(output);
    let lent = Lent {
        output,
        ..history.whole()
    };
    let why = unless_all(history, calls, Why::Output);
    play(both, history, lent, calls, why)
}

/// The ground to stop after so many calls: behind the last it is the end.
fn unless_all(history: &History, calls: usize, why: Why) -> Why {
    match calls == history.length() {
        true => Why::End,
        false => why,
    }
}

/// Plays on a copy of the room, and expects so many calls and this ground.
fn play(both: &Both, history: &History, lent: Lent, calls: usize, why: Why) -> Played {
    let played = both.clone().play(lent);
    history.stopped(&played, calls, why);
    played
}
