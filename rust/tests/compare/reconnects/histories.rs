//! Histories with reconnects, and each once more with a leave and an arrival in
//! place of every reconnect.

use super::two_calls::leave_and_arrive;
use crate::outcome::{expected, make};
use crate::output::Output;
use crate::relay::{empty_room, written};
use crate::tally::say;
use reference::call::Call;
use reference::generate::Generator as Histories;
use reference::memory;
use reference::met::Met;
use reference::met_reconnects::reconnect_counts;
use reference::room::BASE;

const HISTORIES: u64 = 40;
const CALLS: usize = 5_000;

/// Both histories as the library plays them, and the second program's of the first.
struct Twice {
    one_call: Output,
    two_calls: Output,
    met: Met,
}

impl Twice {
    /// Makes a call in both histories, and fails where one differs from the other
    /// or from the second program. Answers whether it was a reconnect.
    fn call(&mut self, call: &Call, salt: u8, told: &str) -> bool {
        let mut out = Output::new(call.least_output(), salt);
        let (mut two_out, out_before) = (out.clone(), out.clone());
        let seated = |key| self.met.room().seat_of(key).is_some();
        let reconnects = matches!(call, Call::Arrive { key } if seated(key));

        let answer = self.met.make(call);
        let one = make(call, self.one_call.lent(), out.lent());
        let two = match call {
            Call::Arrive { key } if reconnects => {
                leave_and_arrive(key, &mut self.two_calls, &mut two_out)
            }
            _ => make(call, self.two_calls.lent(), two_out.lent()),
        };
        assert_eq!(one, expected(call, &answer), "{told}");
        assert_eq!(one, two, "{told}: two calls");
        assert!(out == written(&out_before, &answer), "{told}: the output");
        assert!(out == two_out, "{told}: the output of two calls");
        if reconnects {
            self.same_room(told);
        }
        reconnects
    }

    /// The two memories are equal to the byte, and hold the second program's room.
    fn same_room(&mut self, told: &str) {
        let held = memory::decode(self.one_call.lent());
        assert!(held.as_ref() == Some(self.met.room()), "{told}: the room");
        let same = self.one_call == self.two_calls;
        assert!(same, "{told}: the memory of two calls");
    }
}

#[test]
fn a_history_with_leave_and_arrive_in_place_of_each_reconnect_is_the_same() {
    let mut twice = Twice {
        one_call: empty_room(0),
        two_calls: empty_room(0),
        met: Met::new(BASE),
    };
    let mut reconnects = 0;
    for history in 0..HISTORIES {
        twice.met.begin();
        twice.one_call = empty_room(history as u8);
        twice.two_calls = empty_room(history as u8);
        // By turns without ticks and with them.
        let calls = match history % 2 {
            0 => Histories::new(60_000 + history, BASE),
            _ => Histories::with_ticks(60_000 + history, BASE),
        };
        for (place, call) in calls.take(CALLS).enumerate() {
            let told = format!("call {place} of history {history}: {call:?}");
            reconnects += usize::from(twice.call(&call, place as u8, &told));
        }
        twice.same_room("the last room");
    }

    let calls = HISTORIES as usize * CALLS;
    let mut text = format!("histories made twice: {calls} calls, {reconnects} reconnects\n");
    for (case, count) in reconnect_counts(&twice.met) {
        assert!(count >= 50, "{case}: only {count}");
        text += &format!("  {case}: {count}\n");
    }
    say(&text);
    assert!(calls >= 100_000 && reconnects >= 2_000);
}
