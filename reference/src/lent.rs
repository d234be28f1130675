//! The calls on a room in lent memory.
//!
//! Lent memory is tested in full before use: 11 comes behind 10 and before the
//! room's own refusals, so the order is 10, 11, 3 and on for a packet, 10, 11,
//! 3 for a leave, 10, 11, 1 for an arrival, and 10, 11, 7, 19 for a tick.

use crate::call::Call;
use crate::memory;
use crate::refusal::{self, Refusal};
use crate::room::{Accepted, Room, Sizes};

/// Makes a call on the room that the memory holds. Answers the room after the
/// call and what the call comes to; a refused call leaves the memory as it was.
pub fn make(
    sizes: Sizes,
    memory: &[u8],
    call: &Call,
    output_len: usize,
) -> Result<(Room, Accepted), Refusal> {
    if output_len < call.least_output() {
        return Err(refusal::OUTPUT);
    }
    let mut room = memory::decode_of(sizes, memory).ok_or(refusal::ROOM)?;
    let accepted = call.make(&mut room, output_len)?;
    Ok((room, accepted))
}

#[cfg(test)]
mod tests {
    use super::*;
    use crate::room::BASE;

    /// A memory with one client, KA in seat 0.
    fn lent() -> Vec<u8> {
        memory::encode(&one_client())
    }

    /// The same, with the lowest number for this key.
    fn lent_naming(wanted: u8) -> Vec<u8> {
        let mut room = one_client();
        room.seats[0].as_mut().unwrap().hold(16, &[wanted; 32]);
        memory::encode(&room)
    }

    fn one_client() -> Room {
        let mut room = Room::empty(BASE);
        room.arrive(&[0x11; 32], 2_048).unwrap();
        room
    }

    /// What a call comes to, without the room.
    fn answer(memory: &[u8], call: &Call, output_len: usize) -> Result<usize, Refusal> {
        let (_, accepted) = make(BASE, memory, call, output_len)?;
        Ok(accepted.seat)
    }

    #[test]
    fn an_accepted_call_answers_the_room_behind_it() {
        let call = Call::Arrive { key: [0x22; 32] };
        let (room, accepted) = make(BASE, &lent(), &call, 2_048).unwrap();
        assert_eq!(accepted.seat, 1);
        assert_eq!(room.seat_of(&[0x11; 32]), Some(0));
        assert_eq!(room.seat_of(&[0x22; 32]), Some(1));
    }

    #[test]
    fn refusal_11_comes_behind_10_and_before_all_others() {
        let whole = lent();
        let short = &whole[..whole.len() - 1];
        let packet = |seat| Call::Packet {
            seat,
            bytes: vec![0x10],
        };
        let leave = Call::Leave { seat: 1 };
        for call in [packet(1), leave] {
            assert_eq!(answer(short, &call, 2_047), Err(10));
            assert_eq!(answer(short, &call, 2_048), Err(11));
            assert_eq!(answer(&whole, &call, 2_047), Err(10));
            assert_eq!(answer(&whole, &call, 2_048), Err(3));
        }
        assert_eq!(answer(&whole, &packet(0), 2_048), Err(6));
    }

    /// Request 04 of document 02: "arrival checks 10 (2,048), 11, 1, and 1 is given
    /// only to a key not seated".
    #[test]
    fn an_arrival_is_refused_with_10_11_and_1_in_this_order() {
        let mut full = Room::empty(BASE);
        for number in 0..40 {
            full.arrive(&[number; 32], 2_048).unwrap();
        }
        let (full, one) = (memory::encode(&full), lent());
        let arrive = |key: u8| Call::Arrive { key: [key; 32] };
        for (whole, key, comes_to) in [
            (&one, 0x11, Ok(0)),
            (&one, 0x22, Ok(1)),
            (&full, 39, Ok(39)),
            (&full, 40, Err(1)),
        ] {
            let short = &whole[..whole.len() - 1];
            for output_len in [0, 1, 2_047] {
                assert_eq!(answer(short, &arrive(key), output_len), Err(10));
                assert_eq!(answer(whole, &arrive(key), output_len), Err(10));
            }
            assert_eq!(answer(short, &arrive(key), 2_048), Err(11));
            assert_eq!(answer(whole, &arrive(key), 2_048), comes_to);
        }
    }

    /// Request 02 of document 02: each call refuses a room where a seat names
    /// its own key, at the place of 11 in its order.
    #[test]
    fn a_room_where_a_seat_names_its_own_key_is_refused_with_11() {
        let (itself, another) = (lent_naming(0x11), lent_naming(0x22));
        let packet = |seat, bytes: &[u8]| Call::Packet {
            seat,
            bytes: bytes.to_vec(),
        };
        let request = |key: u8| packet(0, &[&[0][..], &[key; 32]].concat());
        let calls = [
            (request(0x11), Ok(0)),
            (request(0x22), Ok(0)),
            (request(0x33), Ok(0)),
            (packet(0, &[3, 16]), Ok(0)),
            (packet(0, &[4, 0, 0, 0, 0, 0, 0, 0, 1]), Ok(0)),
            (packet(0, &[16, 0x61]), Err(9)),
            (packet(0, &[17, 0x61]), Err(8)),
            (packet(0, &[4, 0, 0, 0, 0, 0, 0, 0, 0]), Err(7)),
            (packet(0, &[16]), Err(6)),
            (packet(0, &[1]), Err(5)),
            (packet(0, &[]), Err(4)),
            (packet(1, &[]), Err(3)),
            (Call::Leave { seat: 0 }, Ok(0)),
            (Call::Leave { seat: 1 }, Err(3)),
            (Call::Arrive { key: [0x11; 32] }, Ok(0)),
            (Call::Arrive { key: [0x22; 32] }, Ok(1)),
        ];
        for (call, comes_to) in calls {
            assert_eq!(answer(&itself, &call, 2_047), Err(10));
            assert_eq!(answer(&itself, &call, 2_048), Err(11));
            assert_eq!(answer(&another, &call, 2_048), comes_to);
        }
    }

    #[test]
    fn a_request_for_the_own_key_leaves_the_room_in_lent_memory_as_it_was() {
        let bytes = [&[0][..], &[0x11; 32]].concat();
        let call = Call::Packet { seat: 0, bytes };
        for memory in [lent(), lent_naming(0x22)] {
            let (room, accepted) = make(BASE, &memory, &call, 2_048).unwrap();
            assert_eq!(memory::encode(&room), memory);
            let answer = [&[1, 0][..], &[0x11; 32]].concat();
            assert_eq!(accepted.records.len(), 1);
            assert_eq!(accepted.records[0].seat, 0);
            assert_eq!(accepted.records[0].packet, answer);
        }
    }

    /// Request 03 of document 02: "Refusals: 10 (tick output under 5,120), 11, 7,
    /// 19 for a clock that goes back."
    #[test]
    fn a_tick_is_refused_with_10_11_7_and_19_in_this_order() {
        let mut room = one_client();
        room.clock = 60;
        let whole = memory::encode(&room);
        let short = &whole[..whole.len() - 1];
        for (time, ping) in [(59, 0), (60, 0), (61, 0), (59, 7), (60, 7), (61, 7)] {
            let tick = Call::Tick { time, ping };
            assert_eq!(answer(short, &tick, 5_119), Err(10));
            assert_eq!(answer(&whole, &tick, 5_119), Err(10));
            assert_eq!(answer(short, &tick, 5_120), Err(11));
            let comes_to = match (time, ping) {
                (_, 0) => Err(7),
                (59, _) => Err(19),
                _ => Ok(0),
            };
            assert_eq!(answer(&whole, &tick, 5_120), comes_to);
        }
        // A packet and a leave need no more output than before.
        let leave = Call::Leave { seat: 0 };
        assert_eq!(answer(&whole, &leave, 2_048), Ok(0));
    }

    #[test]
    fn a_tick_on_lent_memory_answers_the_clock_and_the_pings() {
        let tick = Call::Tick { time: 30, ping: 7 };
        let (room, accepted) = make(BASE, &lent(), &tick, 5_120).unwrap();
        let client = room.client(0).unwrap();
        assert_eq!(
            (room.clock, client.ping_time, client.outstanding),
            (30, 30, 7)
        );
        assert_eq!(accepted.records.len(), 1);
        let memory = memory::encode(&room);
        let tick = Call::Tick { time: 40, ping: 8 };
        let (room, accepted) = make(BASE, &memory, &tick, 5_120).unwrap();
        assert_eq!((room.clock, room.client(0)), (40, None));
        assert_eq!(accepted.records, []);
    }

    /// "A ping time after the clock makes a room not whole.": each call refuses
    /// it, at the place of 11 in its order.
    #[test]
    fn a_room_with_a_ping_time_after_the_clock_is_refused_with_11() {
        let at = |ping_time| {
            let mut room = one_client();
            room.clock = 60;
            room.seats[0].as_mut().unwrap().ping_time = ping_time;
            memory::encode(&room)
        };
        let packet = |seat, bytes: &[u8]| Call::Packet {
            seat,
            bytes: bytes.to_vec(),
        };
        let calls = [
            (packet(0, &[5, 0, 0, 0, 0, 0, 0, 0, 1]), Ok(0)),
            (packet(0, &[]), Err(4)),
            (packet(1, &[]), Err(3)),
            (Call::Leave { seat: 0 }, Ok(0)),
            (Call::Leave { seat: 1 }, Err(3)),
            (Call::Arrive { key: [0x11; 32] }, Ok(0)),
            (Call::Arrive { key: [0x22; 32] }, Ok(1)),
            (Call::Tick { time: 61, ping: 1 }, Ok(0)),
            (Call::Tick { time: 59, ping: 1 }, Err(19)),
            (Call::Tick { time: 59, ping: 0 }, Err(7)),
        ];
        for (call, comes_to) in calls {
            let least = call.least_output();
            assert_eq!(answer(&at(61), &call, least - 1), Err(10));
            assert_eq!(answer(&at(61), &call, least), Err(11));
            assert_eq!(answer(&at(u64::MAX), &call, least), Err(11));
            assert_eq!(answer(&at(60), &call, least), comes_to);
            assert_eq!(answer(&at(0), &call, least), comes_to);
        }
    }
}
