//! Which ground to stop goes before which.

use super::both::Both;
use super::counts::Counts;
use super::course::{Course, FILLS};
use super::history::{History, LEAST_LEFT};
use super::lent::Lent;
use reference::play::{Played, Why};

/// What stands behind the calls played so far.
#[derive(Debug, Clone, Copy)]
enum Rest {
    Nothing,
    NoCall,
    Call,
}

/// The first ground that holds: the end, the allowance, no stored call, too
/// little output. With none of them one call more is played.
fn ground(rest: Rest, allowed: bool, enough: bool) -> Option<Why> {
    match (rest, allowed, enough) {
        (Rest::Nothing, _, _) => Some(Why::End),
        (_, false, _) => Some(Why::Allowance),
        (Rest::NoCall, true, _) => Some(Why::NoCall),
        (Rest::Call, true, false) => Some(Why::Output),
        (Rest::Call, true, true) => None,
    }
}

/// Plays so many calls of the history, and comes to the rest with an allowance
/// and output enough for one call more, or just not.
fn come_to(
    both: &Both,
    history: &History,
    calls: usize,
    rest: Rest,
    allowed: bool,
    enough: bool,
) -> Played {
    let rest = match rest {
        Rest::Nothing => &[],
        Rest::NoCall => &[3, 0, 0, 0][..],
        Rest::Call => &history.stored[history.starts[calls]..history.starts[calls + 1]],
    };
    let stored = [&history.stored[..history.starts[calls]], rest].concat();
    both.clone().play(Lent {
        name: &history.name,
        calls: &stored,
        allowance: calls + usize::from(allowed),
        output: history.answers[calls] + LEAST_LEFT - usize::from(!enough),
    })
}

/// Comes to each call of the history with all grounds, alone and together.
fn come_to_each(both: &Both, history: &History, counts: &mut Counts) {
    for calls in 0..history.length() {
        for rest in [Rest::Nothing, Rest::NoCall, Rest::Call] {
            for (allowed, enough) in [(true, true), (true, false), (false, true), (false, false)] {
                let played = come_to(both, history, calls, rest, allowed, enough);
                match ground(rest, allowed, enough) {
                    Some(why) => history.stopped(&played, calls, why),
                    None => history.stopped(&played, calls + 1, Why::End),
                }
                counts.add(&played);
            }
        }
    }
}

#[test]
fn grounds_to_stop_have_their_order() {
    let mut counts = Counts::new();
    for fill in FILLS {
        for seed in 27_000..27_004 {
            let mut course = Course::to(fill, seed);
            let history = course.next(100);
            come_to_each(&course.both, &history, &mut counts);
        }
    }
    counts.say("several grounds to stop at once");
    counts.demand(3_000, &[Why::End, Why::NoCall, Why::Allowance, Why::Output]);
    counts.demand_refusals();
}
