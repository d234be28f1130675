//! The reader of frames, against the second program.
//!
//! Each call is made by the library and by the second program, each with a keep
//! of its own. Both must answer the same, tell the same bytes used, held and at
//! the end of the frame, and leave the same in every byte of the keep and
//! around it. From a new reader on, the frames shown must be those that the
//! second program finds in the stream as a whole.

mod both;
mod counts;
mod cuts;
mod states;
mod whole;

use counts::Counts;

#[test]
fn frames_agree_with_the_reference() {
    let mut counts = Counts::new();
    cuts::in_two(&mut counts);
    cuts::in_three(&mut counts);
    cuts::made_up(&mut counts);
    states::every_state(&mut counts);
    states::short_keeps(&mut counts);
    counts.say();
    counts.demand(300_000);
}
