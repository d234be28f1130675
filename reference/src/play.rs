//! Replay: stored calls played on a room, one behind the other.

use crate::call::{self, Call};
use crate::record;
use crate::refusal::Refusal;
use crate::room::{Accepted, Room, LEAST_OUTPUT};

/// The bytes before the records of a call: the refusal number, the seat and
/// the length of the records.
const HEAD: usize = 4;

/// Why a replay stopped.
#[derive(Debug, Clone, Copy, PartialEq, Eq)]
pub enum Why {
    /// Every call was played.
    End,
    /// What comes next is no stored call.
    NoCall,
    /// As many calls as allowed were played.
    Allowance,
    /// The output left is too short for another call.
    Output,
}

/// What a replay comes to.
#[derive(Debug, Clone, PartialEq, Eq)]
pub struct Played {
    /// How many calls were played.
    pub calls: usize,
    /// How many bytes of the stored calls were read: those of the calls played.
    pub read: usize,
    /// What was written: for each call its head and its records.
    pub output: Vec<u8>,
    pub why: Why,
}

impl Why {
    /// The code of each ground, as one byte.
    pub fn code(self) -> u8 {
        match self {
            Why::End => 0,
            Why::NoCall => 1,
            Why::Allowance => 2,
            Why::Output => 3,
        }
    }
}

impl Played {
    /// How many bytes were written.
    pub fn written(&self) -> usize {
        self.output.len()
    }
}

/// Plays the stored calls from the front of `calls`, at most `allowance` of
/// them, into an output of `out_len` bytes.
pub fn play(room: &mut Room, calls: &[u8], allowance: usize, out_len: usize) -> Played {
    let mut played = Played {
        calls: 0,
        read: 0,
        output: Vec::new(),
        why: Why::End,
    };
    loop {
        let output_left = out_len - played.output.len();
        let next = next(&calls[played.read..], allowance - played.calls, output_left);
        let (call, length) = match next {
            Ok(next) => next,
            Err(why) => return Played { why, ..played },
        };
        let answer = call.make(room, output_left - HEAD);
        played.output.extend(answer_bytes(&answer));
        played.calls += 1;
        played.read += length;
    }
}

/// The next call and its length, or why there is none. The order of these
/// tests is the order of the grounds to stop.
fn next(rest: &[u8], allowance_left: usize, output_left: usize) -> Result<(Call, usize), Why> {
    if rest.is_empty() {
        return Err(Why::End);
    }
    if allowance_left == 0 {
        return Err(Why::Allowance);
    }
    let next = call::read(rest).ok_or(Why::NoCall)?;
    // Refusal 10 is so never given: every call has output enough.
    if output_left < HEAD + LEAST_OUTPUT {
        return Err(Why::Output);
    }
    Ok(next)
}

/// What is written for a call: the refusal number (0 for none), the seat of an
/// accepted call (0 where refused), the length of the records in 2 bytes with
/// the higher first, and the records.
pub fn answer_bytes(answer: &Result<Accepted, Refusal>) -> Vec<u8> {
    let (number, seat, records) = match answer {
        Ok(accepted) => (0, accepted.seat as u8, record::bytes(&accepted.records)),
        Err(number) => (*number, 0, Vec::new()),
    };
    let length = records.len() as u16;
    [&[number, seat], &length.to_be_bytes()[..], &records].concat()
}

#[cfg(test)]
mod tests {
    use super::*;
    use crate::key::Key;
    use crate::room::BASE;

    const KA: Key = [0x11; 32];
    const KB: Key = [0x22; 32];

    /// P1, P2, P3, P4, P5, P6 and P9 as one history.
    fn examples() -> Vec<Call> {
        let packet = |seat, bytes: &[u8]| Call::Packet {
            seat,
            bytes: bytes.to_vec(),
        };
        vec![
            Call::Arrive { key: KA },
            Call::Arrive { key: KB },
            Call::Arrive { key: KA },
            packet(0, &[&[0], &KB[..]].concat()),
            packet(1, &[&[0], &KA[..]].concat()),
            packet(0, &[0x10, 0x61, 0x62]),
            Call::Leave { seat: 0 },
            packet(1, &[0x10, 0x61, 0x62]),
        ]
    }

    /// What is written for each of the examples.
    fn answers() -> Vec<Vec<u8>> {
        vec![
            vec![0, 0, 0, 0],
            vec![0, 1, 0, 0],
            vec![0, 0, 0, 0],
            [&[0, 0, 0, 37, 0x00, 0x00, 0x22, 0x01, 0x10], &KB[..]].concat(),
            [
                &[0, 1, 0, 47, 0x01, 0x00, 0x22, 0x01, 0x10],
                &KA[..],
                &[0x01, 0x00, 0x02, 0x02, 0x10],
                &[0x00, 0x00, 0x02, 0x02, 0x10],
            ]
            .concat(),
            vec![0, 0, 0, 6, 0x01, 0x00, 0x03, 0x10, 0x61, 0x62],
            vec![0, 0, 0, 5, 0x01, 0x00, 0x02, 0x03, 0x10],
            vec![9, 0, 0, 0],
        ]
    }

    /// What a replay of the first `count` examples comes to.
    fn first(count: usize, why: Why) -> Played {
        Played {
            calls: count,
            read: call::write_all(&examples()[..count]).unwrap().len(),
            output: answers()[..count].concat(),
            why,
        }
    }

    /// The room after the first `count` examples.
    fn room_after(count: usize) -> Room {
        let mut room = Room::empty(BASE);
        for call in &examples()[..count] {
            let _ = call.make(&mut room, LEAST_OUTPUT);
        }
        room
    }

    /// Replays and expects the first `count` examples, in the room too.
    fn expect(calls: &[u8], allowance: usize, out_len: usize, count: usize, why: Why) {
        let mut room = Room::empty(BASE);
        let played = play(&mut room, calls, allowance, out_len);
        assert_eq!(played, first(count, why));
        assert_eq!(room, room_after(count));
    }

    #[test]
    fn the_examples_are_played_to_their_end() {
        let stored = call::write_all(&examples()).unwrap();
        expect(&stored, 8, 1 << 16, 8, Why::End);
        expect(&stored, usize::MAX, 1 << 16, 8, Why::End);
        assert_eq!(first(8, Why::End).written(), answers().concat().len());
    }

    /// Request 04 of document 02: "Arrive now has output and answers its byte count
    /// too." The entry of an arrival has its seat and its records.
    #[test]
    fn the_records_of_an_arrival_stand_in_its_entry() {
        // KC in seat 0, KA and KB connected behind it; KC leaves, KB comes back.
        let kc = [0x33; 32];
        let request = |seat, key: &Key| Call::Packet {
            seat,
            bytes: [&[0], &key[..]].concat(),
        };
        let calls = [
            Call::Arrive { key: kc },
            Call::Arrive { key: KA },
            Call::Arrive { key: KB },
            request(1, &KB),
            request(2, &KA),
            Call::Leave { seat: 0 },
            Call::Arrive { key: KB },
        ];
        let stored = call::write_all(&calls).unwrap();
        let mut room = Room::empty(BASE);
        let played = play(&mut room, &stored, 7, 1 << 16);
        assert_eq!((played.calls, played.why), (7, Why::End));
        let last = [0, 0, 0, 5, 0x01, 0x00, 0x02, 0x03, 0x10];
        assert!(played.output.ends_with(&last));
        assert_eq!(played.written(), 4 * 7 + 37 + 47 + 5);
        assert_eq!((room.seat_of(&KB), room.seat_of(&KA)), (Some(0), Some(1)));
    }

    #[test]
    fn the_codes_of_the_grounds() {
        assert_eq!(Why::End.code(), 0);
        assert_eq!(Why::NoCall.code(), 1);
        assert_eq!(Why::Allowance.code(), 2);
        assert_eq!(Why::Output.code(), 3);
    }

    #[test]
    fn the_end_comes_before_all_other_grounds() {
        expect(&[], 0, 0, 0, Why::End);
        let stored = call::write_all(&examples()[..1]).unwrap();
        expect(&stored, 1, 4 + 2_048, 1, Why::End);
    }

    #[test]
    fn a_replay_stops_at_its_allowance() {
        let stored = call::write_all(&examples()).unwrap();
        for count in 0..8 {
            expect(&stored, count, 1 << 16, count, Why::Allowance);
        }
        // Before what is no stored call, and before too little output.
        expect(&[3], 0, 0, 0, Why::Allowance);
    }

    #[test]
    fn a_replay_stops_where_no_stored_call_is() {
        for count in 0..8 {
            let mut stored = call::write_all(&examples()[..count]).unwrap();
            stored.extend([3, 0, 0, 0]);
            expect(&stored, 8, 1 << 16, count, Why::NoCall);
            let whole = call::write_all(&examples()).unwrap();
            let place = first(count + 1, Why::End).read - 1;
            expect(&whole[..place], 8, 1 << 16, count, Why::NoCall);
        }
        // Before too little output.
        expect(&[3], 1, 0, 0, Why::NoCall);
    }

    #[test]
    fn a_replay_stops_with_less_than_2_052_bytes_of_output() {
        let stored = call::write_all(&examples()).unwrap();
        expect(&stored, 8, 0, 0, Why::Output);
        for count in 0..8 {
            let needed = first(count, Why::End).written() + 4 + 2_048;
            expect(&stored, 8, needed - 1, count, Why::Output);
            expect(
                &stored,
                count + 1,
                needed,
                count + 1,
                match count {
                    7 => Why::End,
                    _ => Why::Allowance,
                },
            );
        }
    }

    #[test]
    fn a_replay_may_go_on_where_another_stopped() {
        let stored = call::write_all(&examples()).unwrap();
        let mut room = Room::empty(BASE);
        let mut output = Vec::new();
        let mut place = 0;
        while place < stored.len() {
            let played = play(&mut room, &stored[place..], 3, 1 << 16);
            place += played.read;
            output.extend(played.output);
        }
        assert_eq!(output, answers().concat());
        assert_eq!(room, room_after(8));
    }
}
