//! Runs that go on where another stopped.

use super::both::Both;
use super::counts::Counts;
use super::course::{Course, FILLS};
use super::history::{History, LEAST_LEFT};
use super::lent::Lent;
use super::one_by_one::one_by_one;
use crate::generator::Generator;
use reference::play::Why;

const HISTORIES: u64 = 40;

/// Too little to play anything is among them, so that some runs only stop.
const ALLOWANCES: [usize; 7] = [0, 1, 1, 2, 3, 9, usize::MAX];
const OUTPUTS: [usize; 7] = [
    0,
    LEAST_LEFT - 1,
    LEAST_LEFT,
    LEAST_LEFT + 1,
    LEAST_LEFT + 40,
    LEAST_LEFT + 300,
    8_000,
];

/// Plays a history in many runs, each lent a piece of what is left to play.
/// Answers all that they wrote.
fn drain(
    both: &mut Both,
    history: &History,
    random: &mut Generator,
    counts: &mut Counts,
) -> Vec<u8> {
    let mut transcript = Vec::new();
    let mut place = 0;
    while place < history.stored.len() {
        let rest = &history.stored[place..];
        let piece = random.below(3_000).min(rest.len());
        let played = both.play(Lent {
            name: &history.name,
            calls: random.pick(&[rest, &rest[..piece]]),
            allowance: random.pick(&ALLOWANCES),
            output: random.pick(&OUTPUTS),
        });
        counts.add(&played);
        place += played.read;
        transcript.extend(played.output);
    }
    transcript
}

/// Many runs, one run and the calls by themselves write the same transcript and
/// leave the same memory, to the byte.
#[test]
fn many_runs_come_to_what_one_run_does() {
    let mut random = Generator::new(44);
    let mut counts = Counts::new();
    for fill in FILLS {
        for seed in 0..HISTORIES {
            let course = &mut Course::to(fill, 26_000 + seed);
            let history = course.next(200 + random.below(300));
            let name = &history.name;

            let mut many = course.both.clone();
            let transcript = drain(&mut many, &history, &mut random, &mut counts);
            assert!(transcript == history.transcript, "{name}: many runs");

            let mut one = course.both.clone();
            let played = one.play(history.whole());
            assert!(played.output == transcript, "{name}: one run");
            assert!(one.memory == many.memory, "{name}: memory of one run");

            let mut alone = course.both.memory.clone();
            let answers = one_by_one(&history.calls, &mut alone);
            assert!(answers == transcript, "{name}: one by one");
            assert!(alone == many.memory, "{name}: memory of one by one");
        }
    }
    counts.say("going on where another stopped");
    counts.demand(
        10_000,
        &[Why::End, Why::NoCall, Why::Allowance, Why::Output],
    );
    counts.demand_refusals();
}
