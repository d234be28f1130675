//! Runs with outputs of every length.

use super::both::Both;
use super::counts::Counts;
use super::course::{Course, FILLS};
use super::early;
use super::every_form::every_form;
use super::history::{History, LEAST_LEFT};
use reference::play::Why;

/// Every length from 0 to beyond what is needed: the output ends at every place
/// of each head and of each record.
fn every_length(both: &Both, history: &History, counts: &mut Counts) {
    for output in 0..=history.transcript.len() + LEAST_LEFT + 8 {
        counts.add(&early::output(both, history, output));
    }
}

#[test]
fn outputs_end_at_every_place_of_answers_of_every_form() {
    let mut counts = Counts::new();
    every_length(&Both::empty(1), &every_form(), &mut counts);
    counts.say("answers of every form, every length of the output");
    counts.demand(5_000, &[Why::End, Why::Output]);
}

#[test]
fn outputs_end_at_every_place_of_made_up_runs() {
    let mut counts = Counts::new();
    for fill in FILLS {
        for length in [0, 1, 2, 5, 30, 120] {
            let mut course = Course::to(fill, 30_000 + length as u64);
            let history = course.next(length);
            every_length(&course.both, &history, &mut counts);
        }
    }
    counts.say("every length of the output");
    counts.demand(40_000, &[Why::End, Why::Output]);
    counts.demand_refusals();
}

/// In a long run, the lengths around the least one for each call, and around
/// the end of each answer.
#[test]
fn outputs_end_around_every_call_of_long_runs() {
    let mut counts = Counts::new();
    for fill in FILLS {
        let mut course = Course::to(fill, 31_000);
        let history = course.next(500);
        for answer in &history.answers {
            for output in (answer + LEAST_LEFT - 2..).take(4) {
                counts.add(&early::output(&course.both, &history, output));
            }
            for output in (answer.saturating_sub(1)..).take(3) {
                counts.add(&early::output(&course.both, &history, output));
            }
        }
    }
    counts.say("outputs around every call of 500");
    counts.demand(10_000, &[Why::End, Why::Output]);
    counts.demand_refusals();
}
