//! Runs with every allowance.

use super::counts::Counts;
use super::course::{Course, FILLS};
use super::early;
use reference::play::Why;

const LENGTHS: [usize; 8] = [0, 1, 2, 3, 20, 60, 150, 500];

/// Allowances that are small, or negative, where fewer bits are looked at.
const GREAT: [usize; 6] = [
    1 << 32,
    (1 << 32) + 1,
    (1 << 63) - 1,
    1 << 63,
    usize::MAX - 1,
    usize::MAX,
];

#[test]
fn runs_stop_at_every_allowance() {
    let mut counts = Counts::new();
    for fill in FILLS {
        for length in LENGTHS {
            let mut course = Course::to(fill, 22_000 + length as u64);
            let history = course.next(length);
            for allowance in (0..=length + 1).chain(GREAT) {
                counts.add(&early::allow(&course.both, &history, allowance));
            }
        }
    }
    counts.say("every allowance");
    counts.demand(2_000, &[Why::End, Why::Allowance]);
    counts.demand_refusals();
}
