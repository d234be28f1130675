//! Request 03 of document 02, "Notice dead laptops", sentence by sentence.

use super::tests::*;
use super::*;

/// A tick in an output of the least length, with seat 0 in its answer. If it is
/// refused the room stays as it was.
fn ticks(room: &mut Room, time: u64, ping: u64) -> Written {
    let before = room.clone();
    let answer = room.tick(time, ping, LEAST_TICK_OUTPUT);
    assert!(answer.is_err() || room.clock == time);
    written(0, &before, room, answer)
}

/// The record of a ping with this number to this seat.
fn pinged(seat: u8, ping: u64) -> Vec<u8> {
    [&[seat, 0x00, 0x09, 0x04], &ping.to_be_bytes()[..]].concat()
}

/// The pings with this number to these seats.
fn pings(seats: &[u8], ping: u64) -> Written {
    let records: Vec<Vec<u8>> = seats.iter().map(|seat| pinged(*seat, ping)).collect();
    Ok(records.concat())
}

/// The record that tells this seat disconnected with this number.
fn told(seat: u8, number: u8) -> Vec<u8> {
    vec![seat, 0x00, 0x02, 0x03, number]
}

/// A pong of this seat, which sends nobody anything.
fn pongs(room: &mut Room, seat: usize, id: u64) {
    let pong = [&[0x05], &id.to_be_bytes()[..]].concat();
    assert_eq!(sends(room, seat, &pong), run(&[]));
}

/// The ping time of a taken seat, and the number that it owes.
fn ping_of(room: &Room, seat: usize) -> (u64, u64) {
    let client = room.client(seat).expect("a taken seat");
    (client.ping_time, client.outstanding)
}

fn sits(room: &Room, seat: usize) -> bool {
    room.client(seat).is_some()
}

/// The room of P5 at 30, both clients just pinged with 7.
fn both_pinged() -> Room {
    let mut room = after_p5();
    assert_eq!(ticks(&mut room, 30, 7), pings(&[0, 1], 7));
    room
}

// "Every seat gets the time of its last ping and the ping number not yet
// answered, and the room gets a clock in whole seconds, first 0."

#[test]
fn the_clock_is_first_0() {
    assert_eq!(Room::empty(BASE).clock, 0);
    assert_eq!(after_p5().clock, 0);
    let mut room = Room::empty(BASE);
    for time in [0, 0, 1, 1_000_000, u64::MAX, u64::MAX] {
        assert_eq!(ticks(&mut room, time, 1), run(&[]));
        assert_eq!(room.seats, Room::empty(BASE).seats);
    }
}

// "An arrival starts with the last clock as its ping time."

#[test]
fn an_arrival_starts_with_the_clock_and_owes_nothing() {
    let mut room = seated(&[KA]);
    assert_eq!(ping_of(&room, 0), (0, 0));
    assert_eq!(ticks(&mut room, 29, 7), run(&[]));
    assert_eq!(arrives(&mut room, &KB), Ok(1));
    assert_eq!(ping_of(&room, 0), (0, 0));
    assert_eq!(ping_of(&room, 1), (29, 0));
    assert_eq!(ticks(&mut room, 30, 8), pings(&[0], 8));
    assert_eq!(arrives(&mut room, &KC), Ok(2));
    assert_eq!(ping_of(&room, 2), (30, 0));
    pongs(&mut room, 0, 8);
    assert_eq!(ticks(&mut room, 58, 9), run(&[]));
    assert_eq!(ticks(&mut room, 59, 9), pings(&[1], 9));
    assert_eq!(ticks(&mut room, 60, 10), pings(&[0, 2], 10));
}

#[test]
fn a_client_that_comes_back_starts_anew() {
    let mut room = both_pinged();
    assert_eq!(leaves(&mut room, 0), run(&[&told(1, 0x10)]));
    assert_eq!(ticks(&mut room, 35, 8), run(&[]));
    assert_eq!(arrives(&mut room, &KA), Ok(0));
    assert_eq!(ping_of(&room, 0), (35, 0));
    assert_eq!(ping_of(&room, 1), (30, 7));
    // It owes no pong for the ping before it left.
    assert_eq!(ticks(&mut room, 45, 9), run(&[]));
    assert!(sits(&room, 0) && !sits(&room, 1));
    assert_eq!(ticks(&mut room, 64, 9), run(&[]));
    assert_eq!(ticks(&mut room, 65, 10), pings(&[0], 10));
}

#[test]
fn a_first_tick_of_a_large_time_pings_everybody() {
    for time in [30, 1_760_000_000, u64::MAX] {
        let mut room = seated(&[KA, KB, KC]);
        assert_eq!(ticks(&mut room, time, 5), pings(&[0, 1, 2], 5));
        assert!((0..3).all(|seat| ping_of(&room, seat) == (time, 5)));
    }
}

// "A tick brings the time and a nonzero ping number."

#[test]
fn the_number_of_a_tick_is_in_its_pings() {
    for ping in [1, 255, 256, 0x0102_0304_0506_0708, 1 << 63, u64::MAX] {
        let mut room = seated(&[KA]);
        let sent = ticks(&mut room, 30, ping).unwrap();
        assert_eq!(sent.len(), 12);
        assert_eq!(Ok(sent), pings(&[0], ping));
        assert_eq!(ping_of(&room, 0), (30, ping));
    }
}

// "First, in rising seat order, every seat whose ping has stood unanswered for 10
// seconds or more leaves as if it had called."

#[test]
fn a_ping_may_stand_for_9_seconds_and_not_for_10() {
    for (time, remain) in [(30, true), (31, true), (39, true), (40, false), (41, false)] {
        let mut room = both_pinged();
        let notice = told(1, 0x10);
        let sent = if remain { run(&[]) } else { run(&[&notice]) };
        assert_eq!(ticks(&mut room, time, 8), sent);
        assert_eq!((sits(&room, 0), sits(&room, 1)), (remain, remain));
    }
    // Nor for 10 by two ticks.
    let mut room = both_pinged();
    assert_eq!(ticks(&mut room, 39, 8), run(&[]));
    assert_eq!(ping_of(&room, 0), (30, 7));
    assert_eq!(ticks(&mut room, 40, 9), run(&[&told(1, 0x10)]));
}

#[test]
fn ages_go_by_the_time_of_the_tick_and_not_by_the_clock_before() {
    let mut room = seated(&[KA]);
    assert_eq!(ticks(&mut room, 1_000, 1), pings(&[0], 1));
    assert_eq!(ticks(&mut room, 2_000, 2), run(&[]));
    assert!(!sits(&room, 0));
}

#[test]
fn a_lower_seat_tells_a_higher_one_that_the_same_tick_puts_out() {
    let mut room = both_pinged();
    // Seat 0 goes first and tells seat 1; when that goes, seat 0 is empty.
    assert_eq!(ticks(&mut room, 40, 8), run(&[&told(1, 0x10)]));
    assert_eq!(room.seats, Room::empty(BASE).seats);
    assert_eq!(room.clock, 40);
}

#[test]
fn who_stays_is_told_by_the_lower_and_by_the_higher_seat() {
    for (silent, stays) in [(0, 1), (1, 0)] {
        let mut room = both_pinged();
        pongs(&mut room, stays, 7);
        let notice = told(stays as u8, 0x10);
        assert_eq!(ticks(&mut room, 40, 8), run(&[&notice]));
        assert!(!sits(&room, silent) && sits(&room, stays));
        // Its own route goes on waiting.
        assert_eq!(sends(&mut room, stays, &[0x10, 0x61]), Err(9));
        assert_eq!(leaves(&mut room, silent), Err(3));
    }
}

#[test]
fn who_was_put_out_comes_back_as_after_a_leave() {
    let mut room = both_pinged();
    pongs(&mut room, 1, 7);
    assert_eq!(ticks(&mut room, 40, 8), run(&[&told(1, 0x10)]));
    assert_eq!(arrives(&mut room, &KC), Ok(0));
    assert_eq!(sends(&mut room, 1, &[0x10, 0x61, 0x62]), Err(9));
    assert_eq!(arrives(&mut room, &KA), Ok(2));
    assert_eq!(sends(&mut room, 2, &[0x10, 0x61, 0x62]), Err(8));
    let connects = run(&[
        &[0x02, 0x00, 0x22, 0x01, 0x10],
        &KB,
        &[0x02, 0x00, 0x02, 0x02, 0x10],
        &[0x01, 0x00, 0x02, 0x02, 0x10],
    ]);
    assert_eq!(sends(&mut room, 2, &request(&KB)), connects);
}

#[test]
fn departures_are_those_of_leaves_in_rising_seat_order() {
    // Each has a request for every other, in an order and with numbers of its
    // own; seats 1, 4 and 6 answer their ping.
    let keys: Vec<Key> = (0..8).map(other).collect();
    let mut room = seated(&keys);
    for (seat, own) in keys.iter().enumerate() {
        for _ in 0..seat {
            sends(&mut room, seat, &request(&KC)).unwrap();
        }
        for step in 1..8 {
            let key = keys[(seat * 3 + step * 5) % 8];
            if key != *own {
                sends(&mut room, seat, &request(&key)).unwrap();
            }
        }
    }
    ticks(&mut room, 100, 7).unwrap();
    for seat in [1, 4, 6] {
        pongs(&mut room, seat, 7);
    }
    let mut called = room.clone();
    let mut expected = Vec::new();
    for seat in [0, 2, 3, 5, 7] {
        expected.extend(leaves(&mut called, seat).unwrap());
    }
    assert_eq!(ticks(&mut room, 110, 8), Ok(expected));
    called.clock = 110;
    assert_eq!(room, called);
}

// "Then every remaining seat with none outstanding, last pinged 30 seconds ago or
// more, is pinged in that order."

#[test]
fn a_ping_comes_at_30_seconds_and_not_at_29() {
    for time in [0, 1, 9, 10, 11, 29, 30, 31, 40, 1_000, u64::MAX] {
        let mut room = seated(&[KA]);
        let sent = if time >= 30 { pings(&[0], 7) } else { run(&[]) };
        assert_eq!(ticks(&mut room, time, 7), sent);
        let ping = if time >= 30 { (time, 7) } else { (0, 0) };
        assert_eq!(ping_of(&room, 0), ping);
    }
}

#[test]
fn who_owes_a_pong_is_not_pinged_again() {
    let mut room = both_pinged();
    for time in 30..40 {
        assert_eq!(ticks(&mut room, time, 1_000 + time), run(&[]));
        assert_eq!(ping_of(&room, 0), (30, 7));
        assert_eq!(ping_of(&room, 1), (30, 7));
    }
}

#[test]
fn pings_come_behind_all_notices_and_in_rising_seat_order() {
    // Seat 2 is silent and tells seats 3 and 0, in the order of its numbers.
    let mut room = seated(&[KA, KB, KC, other(3)]);
    for key in [other(3), KA] {
        sends(&mut room, 2, &request(&key)).unwrap();
    }
    for seat in [0, 3] {
        sends(&mut room, seat, &request(&KC)).unwrap();
    }
    ticks(&mut room, 30, 7).unwrap();
    for seat in [0, 1, 3] {
        pongs(&mut room, seat, 7);
    }
    let sent = run(&[
        &told(3, 0x10),
        &told(0, 0x10),
        &pinged(0, 8),
        &pinged(1, 8),
        &pinged(3, 8),
    ]);
    assert_eq!(ticks(&mut room, 60, 8), sent);
}

#[test]
fn who_is_put_out_is_not_pinged() {
    let mut room = both_pinged();
    pongs(&mut room, 1, 7);
    // Both were pinged 30 seconds ago; seat 0 is gone.
    let sent = run(&[&told(1, 0x10), &pinged(1, 8)]);
    assert_eq!(ticks(&mut room, 60, 8), sent);
    assert!(!sits(&room, 0));
}

// "A pong with the outstanding number clears it; other pongs do nothing."

#[test]
fn a_pong_with_the_outstanding_number_clears_it_and_moves_no_time() {
    for answered in [30, 31, 39] {
        let mut room = both_pinged();
        assert_eq!(ticks(&mut room, answered, 8), run(&[]));
        pongs(&mut room, 0, 7);
        pongs(&mut room, 1, 7);
        assert_eq!(ping_of(&room, 0), (30, 0));
        // The next ping is 30 seconds behind the last, whenever the pong came.
        assert_eq!(ticks(&mut room, 59, 9), run(&[]));
        assert_eq!(ticks(&mut room, 60, 9), pings(&[0, 1], 9));
    }
}

#[test]
fn other_pongs_are_accepted_and_do_nothing() {
    let mut room = both_pinged();
    for id in [1, 6, 8, 7 << 8, 7 << 56, 30, u64::MAX] {
        pongs(&mut room, 0, id);
        assert_eq!(room, both_pinged());
    }
    assert_eq!(ticks(&mut room, 40, 8), run(&[&told(1, 0x10)]));
    // With none outstanding.
    let mut room = seated(&[KA]);
    pongs(&mut room, 0, 7);
    assert_eq!(room, seated(&[KA]));
    // The number 0 stands for none outstanding and is in no pong.
    assert_eq!(sends(&mut room, 0, &[5, 0, 0, 0, 0, 0, 0, 0, 0]), Err(7));
}

#[test]
fn a_late_pong_does_nothing() {
    let mut room = both_pinged();
    pongs(&mut room, 0, 7);
    pongs(&mut room, 1, 7);
    let answered = room.clone();
    pongs(&mut room, 0, 7);
    assert_eq!(room, answered);
    // Seat 0 is pinged with 8 now, and 7 does not clear that.
    assert_eq!(ticks(&mut room, 60, 8), pings(&[0, 1], 8));
    pongs(&mut room, 0, 7);
    assert_eq!(ping_of(&room, 0), (60, 8));
    pongs(&mut room, 1, 8);
    assert_eq!(ticks(&mut room, 70, 9), run(&[&told(1, 0x10)]));
    assert!(!sits(&room, 0) && sits(&room, 1));
}

#[test]
fn a_number_that_comes_again_is_cleared_by_a_pong_with_it() {
    let mut room = seated(&[KA]);
    assert_eq!(ticks(&mut room, 30, 7), pings(&[0], 7));
    pongs(&mut room, 0, 7);
    assert_eq!(ticks(&mut room, 60, 7), pings(&[0], 7));
    assert_eq!(ping_of(&room, 0), (60, 7));
    pongs(&mut room, 0, 7);
    assert_eq!(ping_of(&room, 0), (60, 0));
}

#[test]
fn a_pong_with_anothers_number_clears_nothing_of_either() {
    // Seat 0 owes 7 and seat 1, which came later, owes 8.
    let mut room = seated(&[KA]);
    ticks(&mut room, 5, 1).unwrap();
    arrives(&mut room, &KB).unwrap();
    assert_eq!(ticks(&mut room, 30, 7), pings(&[0], 7));
    assert_eq!(ticks(&mut room, 35, 8), pings(&[1], 8));
    let before = room.clone();
    pongs(&mut room, 0, 8);
    pongs(&mut room, 1, 7);
    assert_eq!(room, before);
    // The right one clears that of its own client alone.
    pongs(&mut room, 1, 8);
    assert_eq!((ping_of(&room, 0), ping_of(&room, 1)), ((30, 7), (35, 0)));
    assert_eq!(ticks(&mut room, 40, 9), run(&[]));
    assert!(!sits(&room, 0) && sits(&room, 1));
}

#[test]
fn one_pong_answers_for_one_client_though_both_owe_the_number() {
    let mut room = both_pinged();
    pongs(&mut room, 0, 7);
    assert_eq!((ping_of(&room, 0), ping_of(&room, 1)), ((30, 0), (30, 7)));
}

#[test]
fn no_other_packet_is_an_answer() {
    let mut room = both_pinged();
    let out_of_band = [&[0x06], &KB[..], &[0x61]].concat();
    let packets = [
        &request(&KC)[..],
        &request(&KB),
        &[0x03, 0x11],
        &[0x04, 0, 0, 0, 0, 0, 0, 0, 7],
        &out_of_band,
        &[0x10, 0x61, 0x62],
    ];
    for packet in packets {
        assert!(sends(&mut room, 0, packet).is_ok());
        assert_eq!(ping_of(&room, 0), (30, 7));
    }
    for packet in [&[][..], &[0x01], &[0x05, 7], &[0x10], &[0x2f, 0x61]] {
        assert!(sends(&mut room, 0, packet).is_err());
        assert_eq!(ping_of(&room, 0), (30, 7));
    }
    assert_eq!(room, both_pinged());
    assert_eq!(ticks(&mut room, 40, 8), run(&[&told(1, 0x10)]));
}

// "Prove that where the clock moves by at most one second a tick, a client that
// never answers is gone when the clock is 40 past its latest arrival."

#[test]
fn a_silent_client_sits_at_39_past_its_arrival_and_is_gone_at_40() {
    for arrival in [0, 1, 29, 30, 31, 1_000, u64::MAX - 40] {
        for repeated in [1, 2] {
            let mut room = Room::empty(BASE);
            ticks(&mut room, arrival, 1).unwrap();
            arrives(&mut room, &KA).unwrap();
            for time in arrival..=arrival + 40 {
                for _ in 0..repeated {
                    ticks(&mut room, time, 2).unwrap();
                    assert_eq!(sits(&room, 0), time < arrival + 40);
                }
            }
        }
    }
}

#[test]
fn a_silent_client_is_gone_at_40_past_its_latest_arrival() {
    let mut room = Room::empty(BASE);
    arrives(&mut room, &KA).unwrap();
    for time in 1..=35 {
        ticks(&mut room, time, 2).unwrap();
    }
    leaves(&mut room, 0).unwrap();
    arrives(&mut room, &KA).unwrap();
    for time in 36..=75 {
        ticks(&mut room, time, 2).unwrap();
        assert_eq!(sits(&room, 0), time < 75);
    }
}

#[test]
fn where_the_clock_moves_by_two_a_silent_client_may_sit_at_40() {
    let mut room = seated(&[KA]);
    for time in (1..=39).step_by(2) {
        ticks(&mut room, time, 2).unwrap();
    }
    ticks(&mut room, 40, 2).unwrap();
    assert_eq!(ping_of(&room, 0), (31, 2));
    ticks(&mut room, 41, 2).unwrap();
    assert!(!sits(&room, 0));
}

#[test]
fn a_client_that_answers_stays() {
    let mut room = seated(&[KA]);
    for time in 1..=1_000 {
        if ticks(&mut room, time, time) == pings(&[0], time) {
            assert_eq!(time % 30, 0);
        }
        if time % 30 == 9 && time > 30 {
            pongs(&mut room, 0, time - 9);
        }
        assert!(sits(&room, 0));
    }
}

// "Ticks are calls of a history too; each joins every record for C in full, with
// the departures it causes marked there as its own, so that a Leave after a tick
// reads otherwise."

#[test]
fn a_leave_after_a_tick_is_told_behind_its_pings() {
    // KB is put out by the tick: KA is told, then pinged.
    let mut put_out = both_pinged();
    pongs(&mut put_out, 0, 7);
    let mut left = put_out.clone();
    let sent = run(&[&told(0, 0x10), &pinged(0, 8)]);
    assert_eq!(ticks(&mut put_out, 60, 8), sent);
    // KB answers and leaves after the tick: KA is pinged, then told.
    pongs(&mut left, 1, 7);
    assert_eq!(ticks(&mut left, 60, 8), pings(&[0, 1], 8));
    assert_eq!(leaves(&mut left, 1), run(&[&told(0, 0x10)]));
    // The rooms are the same: only the order of what KA is handed tells.
    assert_eq!(put_out, left);
}

#[test]
fn a_leave_after_the_tick_that_put_the_client_out_is_refused() {
    let mut room = both_pinged();
    ticks(&mut room, 40, 8).unwrap();
    for seat in [0, 1] {
        assert_eq!(leaves(&mut room, seat), Err(3));
        assert_eq!(sends(&mut room, seat, &[5, 0, 0, 0, 0, 0, 0, 0, 7]), Err(3));
    }
}

#[test]
fn a_leave_and_a_packet_leave_the_clock_and_the_pings_of_others() {
    let mut room = both_pinged();
    ticks(&mut room, 35, 8).unwrap();
    leaves(&mut room, 0).unwrap();
    sends(&mut room, 1, &request(&KC)).unwrap();
    assert_eq!((room.clock, ping_of(&room, 1)), (35, (30, 7)));
}

// "Refusals: 10 (tick output under 5,120), 11, 7, 19 for a clock that goes back."

#[test]
fn a_short_output_is_refused_first_even_where_nothing_is_written() {
    for room in [Room::empty(BASE), both_pinged()] {
        let mut room = room.clone();
        let before = room.clone();
        for length in [0, 1, 2_047, 2_048, 5_119] {
            for (time, ping) in [(room.clock, 1), (1_000, 1), (1_000, 0), (0, 0), (0, 1)] {
                assert_eq!(room.tick(time, ping, length), Err(10));
                assert_eq!(room, before);
            }
        }
        assert!(room.tick(1_000, 1, 5_120).is_ok());
        assert!(room.tick(1_000, 1, 5_121).is_ok());
    }
}

#[test]
fn the_number_0_is_refused_before_a_clock_that_goes_back() {
    let mut room = both_pinged();
    for time in [0, 29, 30, 31, 40, 60, u64::MAX] {
        assert_eq!(ticks(&mut room, time, 0), Err(7));
    }
    for ping in [1, 7, u64::MAX] {
        for time in [0, 1, 28, 29] {
            assert_eq!(ticks(&mut room, time, ping), Err(19));
        }
    }
    assert_eq!(room, both_pinged());
}

#[test]
fn the_same_time_is_accepted() {
    let mut room = both_pinged();
    for _ in 0..3 {
        assert_eq!(ticks(&mut room, 30, 8), run(&[]));
        assert_eq!(room, both_pinged());
    }
    // A client that came late in the same second is put out or pinged no sooner.
    assert_eq!(arrives(&mut room, &KC), Ok(2));
    assert_eq!(ticks(&mut room, 30, 9), run(&[]));
    assert_eq!(ping_of(&room, 2), (30, 0));
}

#[test]
fn a_refused_tick_does_not_set_the_clock() {
    let mut room = seated(&[KA]);
    assert_eq!(ticks(&mut room, 1_000, 0), Err(7));
    assert_eq!(room.tick(1_000, 1, 5_119), Err(10));
    assert_eq!(ticks(&mut room, 10, 1), run(&[]));
    assert_eq!(ticks(&mut room, 9, 1), Err(19));
    assert_eq!(ticks(&mut room, 10, 1), run(&[]));
    assert_eq!(room.clock, 10);
}

#[test]
fn the_last_second_of_64_bits_is_a_time() {
    let last = u64::MAX;
    let mut room = seated(&[KA, KB]);
    assert_eq!(ticks(&mut room, last - 10, 7), pings(&[0, 1], 7));
    pongs(&mut room, 1, 7);
    assert_eq!(ticks(&mut room, last - 1, 8), run(&[]));
    assert!(sits(&room, 0));
    assert_eq!(ticks(&mut room, last, 8), run(&[]));
    assert!(!sits(&room, 0) && sits(&room, 1));
    assert_eq!(arrives(&mut room, &KC), Ok(0));
    assert_eq!(ping_of(&room, 0), (last, 0));
    assert_eq!(ticks(&mut room, last, 9), run(&[]));
    assert_eq!(ticks(&mut room, last - 1, 9), Err(19));
}

/// A room of 40 clients with so many numbers each, connected as told, all pinged
/// with 7 at 30.
fn all_pinged(numbers: usize, connected: impl Fn(usize, usize) -> bool) -> Room {
    let mut room = Room::empty(Sizes { seats: 40, numbers });
    for seat in 0..40 {
        arrives(&mut room, &other(seat)).unwrap();
    }
    for seat in 0..40 {
        for peer in (0..40).filter(|peer| *peer != seat && connected(seat, *peer)) {
            let answer = sends(&mut room, seat, &request(&other(peer as u8))).unwrap();
            assert_ne!(answer[4], 0);
        }
    }
    assert_eq!(ticks(&mut room, 30, 7).unwrap().len(), 40 * 12);
    room
}

/// Whether two places on a ring of so many are at most so many steps apart.
fn near(ring: usize, steps: usize, a: usize, b: usize) -> bool {
    let apart = a.abs_diff(b);
    apart.min(ring - apart) <= steps
}

/// The bytes of a tick that puts out all but these seats, which it pings.
fn bytes_with(mut room: Room, remain: impl Iterator<Item = usize>) -> usize {
    remain.for_each(|seat| pongs(&mut room, seat, 7));
    ticks(&mut room, 60, 8).unwrap().len()
}

/// 40 clients with 32 peers each are 640 pairs, and of each pair the one that
/// goes first tells the other.
#[test]
fn all_of_40_connected_clients_put_out_write_3_200_bytes() {
    let room = all_pinged(32, |a, b| near(40, 16, a, b));
    assert_eq!(bytes_with(room.clone(), 0..0), 640 * 5);
    let mut room = room;
    assert_eq!(ticks(&mut room, 40, 8).unwrap().len(), 3_200);
    assert_eq!(room.seats, Room::empty(BASE).seats);
}

/// 32 clients with 24 peers among themselves, and 8 who have each of the 32 for
/// a peer: 640 pairs again, and where the 8 stay they are pinged too.
#[test]
fn the_longest_output_of_a_tick_with_32_numbers_has_3_296_bytes() {
    let low = |a: usize, b: usize| match (a < 8, b < 8) {
        (true, true) => false,
        (false, false) => near(32, 12, a - 8, b - 8),
        _ => true,
    };
    let high = |a: usize, b: usize| low(39 - a, 39 - b);
    assert_eq!(bytes_with(all_pinged(32, low), 0..8), 640 * 5 + 8 * 12);
    assert_eq!(bytes_with(all_pinged(32, high), 32..40), 3_296);
    assert_eq!(most_bytes(32), 3_296);
}

#[test]
fn the_longest_output_of_a_tick_with_240_numbers_has_3_921_bytes() {
    let room = all_pinged(240, |_, _| true);
    let written: Vec<usize> = (0..=40)
        .map(|remain| bytes_with(room.clone(), 0..remain))
        .collect();
    assert_eq!(written[..5], [3_900, 3_912, 3_919, 3_921, 3_918]);
    assert_eq!(written[40], 40 * 12);
    assert_eq!(written.iter().max(), Some(&3_921));
    assert_eq!(most_bytes(240), 3_921);
}

/// No tick on 40 seats writes more than this, by count: each pair that parts takes
/// 5 bytes, and each ping to one that stays takes 12.
fn most_bytes(numbers: usize) -> usize {
    let bytes = |go: usize| most_pairs(go, numbers) * 5 + (40 - go) * 12;
    (0..=40).map(bytes).max().expect("a count")
}

/// The most pairs that part when so many of 40 clients go. In some pairs one goes
/// and the other stays; the numbers that these leave to those that go make pairs
/// among themselves.
fn most_pairs(go: usize, numbers: usize) -> usize {
    let one_stays = ((40 - go) * numbers.min(go)).min(go * numbers);
    let all_among_themselves = go * go.saturating_sub(1) / 2;
    (0..=one_stays)
        .map(|mixed| mixed + ((go * numbers - mixed) / 2).min(all_among_themselves))
        .max()
        .expect("a count")
}
