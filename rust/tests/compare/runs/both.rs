//! A room that both play on, and one run by both.

use super::lent::Lent;
use crate::memory::ROOM_BYTES;
use crate::outcome::make;
use crate::output::Output;
use crate::relay::empty_room;
use banavoge::raw::play::{self as library, Counts};
use reference::call::Call;
use reference::memory;
use reference::play::{self as second, Played};
use reference::room::{Room, BASE};

/// What stands in the three places before a run: no run comes to so much.
pub const UNSET: Counts = Counts {
    played: usize::MAX,
    read: usize::MAX - 1,
    written: usize::MAX - 2,
};

/// A room, in memory lent to the library and as the second program has it.
#[derive(Clone)]
pub struct Both {
    pub memory: Output,
    pub room: Room,
}

impl Both {
    /// The empty room, in memory filled with a pattern.
    pub fn empty(salt: u8) -> Both {
        Both {
            memory: empty_room(salt),
            room: Room::empty(BASE),
        }
    }

    /// Makes a call outside of any run.
    pub fn make(&mut self, call: &Call) {
        let mut out = vec![0; call.least_output()];
        make(call, self.memory.lent(), &mut out);
        // What is refused changes nothing.
        let _ = call.make(&mut self.room, call.least_output());
    }

    /// Plays a run, and fails where the two differ. Answers what it came to.
    pub fn play(&mut self, lent: Lent) -> Played {
        let told = || {
            let (bytes, allowance, output) = (lent.calls.len(), lent.allowance, lent.output);
            let name = lent.name;
            format!("{name}: {bytes} bytes of calls, allowance {allowance}, output of {output}")
        };
        let before = self.memory.clone();
        let expected = second::play(&mut self.room, lent.calls, lent.allowance, lent.output);
        let mut out = Output::new(lent.output, (lent.calls.len() ^ lent.allowance) as u8);
        let mut expected_out = out.clone();
        expected_out.lent()[..expected.written()].copy_from_slice(&expected.output);

        let mut counts = UNSET;
        let room = self.memory.lent();
        let answer = library::play(room, lent.calls, lent.allowance, out.lent(), &mut counts);
        assert_eq!(answer, i32::from(expected.why.code()), "{}", told());
        assert_eq!(counts, counts_of(&expected), "{}", told());
        assert!(
            out == expected_out,
            "{}: the output differs first at {}",
            told(),
            out.first_difference(&expected_out)
        );
        let held = memory::decode(self.memory.lent());
        assert!(held.as_ref() == Some(&self.room), "{}: the room", told());
        assert!(
            self.memory.around(ROOM_BYTES) == before.around(ROOM_BYTES),
            "{}: the memory around the room was changed",
            told()
        );
        if expected.calls == 0 {
            assert!(self.memory == before, "{}: the memory was changed", told());
        }
        expected
    }
}

fn counts_of(played: &Played) -> Counts {
    Counts {
        played: played.calls,
        read: played.read,
        written: played.written(),
    }
}
