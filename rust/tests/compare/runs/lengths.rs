//! Runs of every length from 0 to 500 calls.

use super::both::Both;
use super::counts::Counts;
use super::course::{Course, Fill};
use super::early;
use super::history::History;
use super::one_by_one::one_by_one;
use crate::generator::Generator;
use reference::play::Why;

const LONGEST: usize = 500;

/// Plays the whole history, and leaves the room behind it. The same calls made
/// one by one are answered the same and leave the same memory, to the byte.
fn whole(both: &mut Both, history: &History, counts: &mut Counts) {
    let mut alone = both.memory.clone();
    let played = both.play(history.whole());
    history.stopped(&played, history.length(), Why::End);
    counts.add(&played);

    let name = &history.name;
    let transcript = one_by_one(&history.calls, &mut alone);
    assert!(played.output == transcript, "{name}: one by one");
    assert!(both.memory == alone, "{name}: the memory, one by one");
}

/// The same run, stopped on each of the other grounds at a place by chance.
fn at_places_by_chance(
    both: &Both,
    history: &History,
    random: &mut Generator,
    counts: &mut Counts,
) {
    let place = random.below(history.stored.len() + 1);
    counts.add(&early::cut(both, history, place));
    let allowance = random.below(history.length() + 2);
    counts.add(&early::allow(both, history, allowance));
    let output = random.below(history.least_output() + 2);
    counts.add(&early::output(both, history, output));
}

#[test]
fn runs_of_every_length_are_the_second_programs() {
    let mut random = Generator::new(41);
    let mut counts = Counts::new();
    let mut thin = Course::to(Fill::Thin, 20_000);
    let mut full = Course::to(Fill::Full, 20_001);
    for length in 0..=LONGEST {
        let mut empty = Course::to(Fill::Empty, 21_000 + length as u64);
        for course in [&mut empty, &mut thin, &mut full] {
            course.go_on();
            let history = course.next(length);
            at_places_by_chance(&course.both, &history, &mut random, &mut counts);
            whole(&mut course.both, &history, &mut counts);
        }
    }
    counts.say("every length from 0 to 500");
    counts.demand(
        12 * LONGEST,
        &[Why::End, Why::NoCall, Why::Allowance, Why::Output],
    );
    counts.demand_refusals();
}
