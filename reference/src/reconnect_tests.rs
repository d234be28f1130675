//! Request 04 of document 02, "One call when a laptop comes back".

use super::tests::*;
use super::*;
use crate::record;

/// An arrival of a seated key in an output of the least length: the seat answered
/// and the bytes written. "Merge them: an arrival of a seated key has the outcome
/// of the two calls in that order, notices and all."
fn reconnects(room: &mut Room, key: &Key) -> (usize, Vec<u8>) {
    let mut by_two_calls = room.clone();
    let old_seat = room.seat_of(key).expect("a seated key");
    let notices = leaves(&mut by_two_calls, old_seat).unwrap();
    let seat = arrives(&mut by_two_calls, key).unwrap();

    let accepted = room.arrive(key, LEAST_OUTPUT).unwrap();
    let written = record::bytes(&accepted.records);
    assert_eq!((accepted.seat, &written), (seat, &notices));
    assert_eq!(*room, by_two_calls);
    assert!(room.whole());
    (seat, written)
}

/// The record that tells this seat disconnected with this number.
fn told(seat: u8, number: u8) -> [u8; 5] {
    [seat, 0x00, 0x02, 0x03, number]
}

/// Two clients ask for each other.
fn connect(room: &mut Room, a: usize, b: usize) {
    let key = |seat| room.client(seat).unwrap().key;
    let (to_b, to_a) = (request(&key(b)), request(&key(a)));
    sends(room, a, &to_b).unwrap();
    sends(room, b, &to_a).unwrap();
}

fn ticks(room: &mut Room, time: u64, ping: u64) -> Vec<u8> {
    let accepted = room.tick(time, ping, LEAST_TICK_OUTPUT).unwrap();
    record::bytes(&accepted.records)
}

/// The ping time of a taken seat, and the number that it owes.
fn ping_of(room: &Room, seat: usize) -> (u64, u64) {
    let client = room.client(seat).expect("a taken seat");
    (client.ping_time, client.outstanding)
}

/// A room of 40 clients, of which each is connected with the 16 before and the 16
/// behind it on a ring.
fn full_room() -> Room {
    let keys: Vec<Key> = (0..40).map(other).collect();
    let mut room = seated(&keys);
    for seat in 0..40 {
        for peer in (0..40usize).filter(|peer| *peer != seat) {
            let apart = peer.abs_diff(seat);
            if apart.min(40 - apart) <= 16 {
                sends(&mut room, seat, &request(&keys[peer])).unwrap();
            }
        }
    }
    room
}

#[test]
fn p3_becomes_seat_0_and_0_bytes() {
    let mut room = seated(&[KA, KB]);
    assert_eq!(reconnects(&mut room, &KA), (0, vec![]));
    assert_eq!(room, seated(&[KA, KB]));
}

#[test]
fn without_peers_nobody_is_told_and_the_own_requests_are_gone() {
    let mut room = seated(&[KA, KB]);
    // KA waits for KB and for one that is not there; KB asks for another.
    for key in [KB, KC] {
        sends(&mut room, 0, &request(&key)).unwrap();
    }
    sends(&mut room, 1, &request(&KC)).unwrap();
    assert_eq!(reconnects(&mut room, &KA), (0, vec![]));
    for number in 0x10..=0x2f {
        assert_eq!(sends(&mut room, 0, &[number, 0x61]), Err(8));
        assert_eq!(sends(&mut room, 0, &[0x03, number]), Err(8));
    }
    // KB asks back, and nothing connects.
    let answer = run(&[&[0x01, 0x00, 0x22, 0x01, 0x11], &KA]);
    assert_eq!(sends(&mut room, 1, &request(&KA)), answer);
}

#[test]
fn with_peers_each_is_told_and_its_request_goes_on_waiting() {
    let mut room = after_p5();
    assert_eq!(reconnects(&mut room, &KA), (0, told(1, 0x10).to_vec()));
    assert_eq!(sends(&mut room, 1, &[0x10, 0x61]), Err(9));
    assert_eq!(sends(&mut room, 0, &[0x10, 0x61]), Err(8));
    connects_again(&mut room);
}

#[test]
fn notices_go_by_the_rising_numbers_of_the_one_that_comes_back() {
    let mut room = three_peers();
    let notices = [told(3, 0x11), told(1, 0x12), told(2, 0x10)].concat();
    assert_eq!(reconnects(&mut room, &other(0)), (0, notices));
}

/// "1 is given only to a key not seated"
#[test]
fn in_a_full_room_every_seated_key_comes_back_to_its_own_seat() {
    let mut room = full_room();
    let before = room.clone();
    assert_eq!(arrives(&mut room, &KA), Err(1));
    assert_eq!(room, before);
    for seat in 0..40 {
        let mut room = before.clone();
        let (taken, written) = reconnects(&mut room, &other(seat));
        assert_eq!((taken, written.len()), (usize::from(seat), 32 * 5));
        assert_eq!(arrives(&mut room, &KA), Err(1));
    }
    // One after the other: of each pair the first tells the other.
    let written = (0..40).map(|seat| reconnects(&mut room, &other(seat)).1.len());
    assert_eq!(written.sum::<usize>(), 640 * 5);
    let keys: Vec<Key> = (0..40).map(other).collect();
    assert_eq!(room, seated(&keys));
}

#[test]
fn the_seat_is_the_lowest_that_is_empty_behind_the_departure() {
    let mut room = seated(&[KC, KA, KB]);
    connect(&mut room, 1, 2);
    leaves(&mut room, 0).unwrap();
    assert_eq!(reconnects(&mut room, &KB), (0, told(1, 0x10).to_vec()));
    // The old seat is empty, and the next one to come takes it.
    assert_eq!(leaves(&mut room, 2), Err(3));
    assert_eq!(sends(&mut room, 2, &request(&KA)), Err(3));
    assert_eq!(arrives(&mut room, &KC), Ok(2));
    // Its peer finds it in the new seat.
    assert_eq!(sends(&mut room, 1, &[0x10, 0x61]), Err(9));
    sends(&mut room, 0, &request(&KA)).unwrap();
    let received = run(&[&[0x00, 0x00, 0x02, 0x10, 0x61]]);
    assert_eq!(sends(&mut room, 1, &[0x10, 0x61]), received);
}

#[test]
fn an_empty_seat_above_is_not_taken() {
    let keys: Vec<Key> = (0..6).map(other).collect();
    for empty in 0..6 {
        for back in (0..6).filter(|back| *back != empty) {
            let mut room = seated(&keys);
            leaves(&mut room, empty).unwrap();
            let seat = back.min(empty);
            assert_eq!(reconnects(&mut room, &keys[back]), (seat, vec![]));
        }
    }
}

#[test]
fn twice_in_a_row_the_second_tells_nobody() {
    let mut room = after_p5();
    assert_eq!(reconnects(&mut room, &KA), (0, told(1, 0x10).to_vec()));
    let once = room.clone();
    assert_eq!(reconnects(&mut room, &KA), (0, vec![]));
    assert_eq!(room, once);
}

#[test]
fn twice_in_a_row_the_second_keeps_the_lower_seat() {
    let mut room = seated(&[KA, KB, KC, other(3)]);
    connect(&mut room, 2, 3);
    for seat in [0, 1] {
        leaves(&mut room, seat).unwrap();
    }
    assert_eq!(reconnects(&mut room, &KC), (0, told(3, 0x10).to_vec()));
    assert_eq!(reconnects(&mut room, &KC), (0, vec![]));
    // Both peers in turn: the other one comes to the seat that is empty next.
    connect(&mut room, 0, 3);
    assert_eq!(
        reconnects(&mut room, &other(3)),
        (1, told(0, 0x10).to_vec())
    );
}

#[test]
fn the_one_that_comes_back_starts_with_the_clock_and_owes_nothing() {
    let mut room = after_p5();
    ticks(&mut room, 30, 7);
    assert_eq!((ping_of(&room, 0), ping_of(&room, 1)), ((30, 7), (30, 7)));
    ticks(&mut room, 35, 8);
    assert_eq!(reconnects(&mut room, &KA), (0, told(1, 0x10).to_vec()));
    assert_eq!((ping_of(&room, 0), ping_of(&room, 1)), ((35, 0), (30, 7)));
    // A pong for the ping before it came back does nothing.
    let before = room.clone();
    let pong = [0x05, 0, 0, 0, 0, 0, 0, 0, 7];
    assert_eq!(sends(&mut room, 0, &pong), run(&[]));
    assert_eq!(room, before);
    // The other one is put out, it is not, and its ping comes 30 seconds later.
    assert_eq!(ticks(&mut room, 45, 9), []);
    assert_eq!((room.seat_of(&KA), room.seat_of(&KB)), (Some(0), None));
    assert_eq!(ticks(&mut room, 64, 9), []);
    assert_eq!(ticks(&mut room, 65, 9).len(), 12);
}

#[test]
fn a_silent_client_is_gone_at_40_past_the_last_time_it_came_back() {
    let mut room = seated(&[KA]);
    for time in 1..=75 {
        ticks(&mut room, time, 2);
        if time == 35 {
            reconnects(&mut room, &KA);
        }
        assert_eq!(room.seat_of(&KA).is_some(), time < 75);
    }
}

/// "arrival checks 10 (2,048), 11, 1": 10 also where nothing would be written.
#[test]
fn a_short_output_is_refused_first() {
    let lonely = (seated(&[KA, KB]), KA);
    let connected = (after_p5(), KA);
    let new = (after_p5(), KC);
    let full = (full_room(), other(7));
    let refused_with_1 = (full_room(), KA);
    for (mut room, key) in [lonely, connected, new, full, refused_with_1] {
        let before = room.clone();
        for length in [0, 1, 5, 160, 2_047] {
            assert_eq!(room.arrive(&key, length), Err(10));
            assert_eq!(room, before);
        }
        let answer = before.clone().arrive(&key, 2_048);
        assert_ne!(answer, Err(10));
        assert_eq!(room.arrive(&key, 5_120), answer);
    }
}
