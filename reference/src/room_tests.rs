//! The examples of document 01 on the room, the errors that students make, the
//! readings of its rules, and request 02 of document 02. Request 03 is in
//! `tick_tests`, request 04 in `reconnect_tests`.

use super::*;
use crate::record;

pub(super) const KA: Key = [0x11; 32];
pub(super) const KB: Key = [0x22; 32];
pub(super) const KC: Key = [0x33; 32];

/// What a call comes to, in the form of the examples: the bytes written.
pub(super) type Written = Result<Vec<u8>, Refusal>;

/// The room after these keys arrived, in seats 0, 1 and so on.
pub(super) fn seated(keys: &[Key]) -> Room {
    let mut room = Room::empty(BASE);
    for (seat, key) in keys.iter().enumerate() {
        assert_eq!(arrives(&mut room, key), Ok(seat));
    }
    room
}

/// The seat answered to an arrival that sends nothing, in an output of the least
/// length.
pub(super) fn arrives(room: &mut Room, key: &Key) -> Result<usize, Refusal> {
    let accepted = room.arrive(key, LEAST_OUTPUT)?;
    assert_eq!(accepted.records, []);
    Ok(accepted.seat)
}

/// A packet call in an output of the least length. If it is refused the room
/// stays as it was.
pub(super) fn sends(room: &mut Room, seat: usize, packet: &[u8]) -> Written {
    let before = room.clone();
    let answer = room.packet(seat, packet, LEAST_OUTPUT);
    written(seat, &before, room, answer)
}

/// A leave in an output of the least length. If it is refused the room stays
/// as it was.
pub(super) fn leaves(room: &mut Room, seat: usize) -> Written {
    let before = room.clone();
    let answer = room.leave(seat, LEAST_OUTPUT);
    written(seat, &before, room, answer)
}

/// The bytes of the answer's records. The answer has this seat; if it is a
/// refusal the room stayed as it was.
pub(super) fn written(
    seat: usize,
    before: &Room,
    after: &Room,
    answer: Result<Accepted, Refusal>,
) -> Written {
    assert!(after.whole());
    match answer {
        Ok(accepted) => {
            assert_eq!(accepted.seat, seat);
            Ok(record::bytes(&accepted.records))
        }
        Err(number) => {
            assert_eq!(before, after);
            Err(number)
        }
    }
}

/// Parts of an expected output, put together.
pub(super) fn run(parts: &[&[u8]]) -> Written {
    Ok(parts.concat())
}

/// The packet that asks for a key.
pub(super) fn request(key: &Key) -> Vec<u8> {
    [&[0x00], &key[..]].concat()
}

/// An out-of-band packet of `length` bytes to this key.
fn out_of_band(key: &Key, length: usize) -> Vec<u8> {
    let mut packet = vec![0x61; length];
    packet[0] = 0x06;
    packet[1..33].copy_from_slice(key);
    packet
}

/// The room after P4.
fn after_p4() -> Room {
    let mut room = seated(&[KA, KB]);
    let answer = run(&[&[0x00, 0x00, 0x22, 0x01, 0x10], &KB]);
    assert_eq!(sends(&mut room, 0, &request(&KB)), answer);
    room
}

/// The room after P5: KA in seat 0 and KB in seat 1, connected as 16 and 16.
pub(super) fn after_p5() -> Room {
    let mut room = after_p4();
    let answer = run(&[
        &[0x01, 0x00, 0x22, 0x01, 0x10],
        &KA,
        &[0x01, 0x00, 0x02, 0x02, 0x10],
        &[0x00, 0x00, 0x02, 0x02, 0x10],
    ]);
    assert_eq!(sends(&mut room, 1, &request(&KA)), answer);
    room
}

/// KA, in seat 0 and without routes, asks for KB, whose request for KA stands: both
/// are told connected, KA first, and the room is that after P5 again.
pub(super) fn connects_again(room: &mut Room) {
    let connects = run(&[
        &[0x00, 0x00, 0x22, 0x01, 0x10],
        &KB,
        &[0x00, 0x00, 0x02, 0x02, 0x10],
        &[0x01, 0x00, 0x02, 0x02, 0x10],
    ]);
    assert_eq!(sends(room, 0, &request(&KB)), connects);
    assert_eq!(*room, after_p5());
}

/// A key for each number, none of them KA, KB or KC.
pub(super) fn other(number: u8) -> Key {
    let mut key = [0xcc; 32];
    key[31] = number;
    key
}

/// Seat 0 asks for seats 3, 4, 1 and 2 in turn, which gives 16 to 19. Seat 4 does
/// not ask back; each of the others has its own number for seat 0.
pub(super) fn three_peers() -> Room {
    let keys: Vec<Key> = (0..5).map(other).collect();
    let mut room = seated(&keys);
    for seat in [3, 4, 1, 2] {
        sends(&mut room, 0, &request(&keys[seat])).unwrap();
    }
    for (seat, before) in [(1, 2), (2, 0), (3, 1)] {
        for number in 0..before {
            sends(&mut room, seat, &request(&[number; 32])).unwrap();
        }
        sends(&mut room, seat, &request(&keys[0])).unwrap();
    }
    room
}

#[test]
fn p1_p2_p3_arrivals() {
    let mut room = Room::empty(BASE);
    assert_eq!(arrives(&mut room, &KA), Ok(0));
    assert_eq!(arrives(&mut room, &KB), Ok(1));
    let before = room.clone();
    assert_eq!(arrives(&mut room, &KA), Ok(0));
    assert_eq!(room, before);
}

#[test]
fn p4_a_request_waits_and_writes_37_bytes() {
    let mut room = seated(&[KA, KB]);
    let bytes = sends(&mut room, 0, &request(&KB)).unwrap();
    assert_eq!(bytes.len(), 37);
    assert_eq!(room, after_p4());
    assert_eq!(room.peer(0, 0x10), None);
}

#[test]
fn p5_the_second_request_connects_and_writes_47_bytes() {
    let mut room = after_p4();
    let bytes = sends(&mut room, 1, &request(&KA)).unwrap();
    assert_eq!(bytes.len(), 47);
    assert_eq!(room, after_p5());
    assert_eq!(room.peer(0, 0x10), Some((1, 0x10)));
    assert_eq!(room.peer(1, 0x10), Some((0, 0x10)));
}

#[test]
fn p6_data_goes_to_the_peer() {
    let mut room = after_p5();
    let sent = sends(&mut room, 0, &[0x10, 0x61, 0x62]);
    assert_eq!(sent, run(&[&[0x01, 0x00, 0x03, 0x10, 0x61, 0x62]]));
    assert_eq!(room, after_p5());
}

#[test]
fn p7_data_on_a_waiting_route_is_refused() {
    assert_eq!(sends(&mut after_p4(), 0, &[0x10, 0x61, 0x62]), Err(9));
}

#[test]
fn p8_data_on_a_number_that_names_no_route_is_refused() {
    assert_eq!(sends(&mut after_p4(), 0, &[0x11, 0x61, 0x62]), Err(8));
    assert_eq!(sends(&mut after_p5(), 0, &[0x11, 0x61, 0x62]), Err(8));
    for number in 0x30..=0xff {
        assert_eq!(sends(&mut after_p5(), 0, &[number, 0x61, 0x62]), Err(8));
    }
}

#[test]
fn p9_no_link_to_a_seat_outlives_its_client() {
    let mut room = after_p5();
    let notification = run(&[&[0x01, 0x00, 0x02, 0x03, 0x10]]);
    assert_eq!(leaves(&mut room, 0), notification);
    assert_eq!(arrives(&mut room, &KC), Ok(0));
    assert_eq!(sends(&mut room, 1, &[0x10, 0x61, 0x62]), Err(9));
    // Nor does it when the new client asks for the one that waits.
    let answer = run(&[&[0x00, 0x00, 0x22, 0x01, 0x10], &KB]);
    assert_eq!(sends(&mut room, 0, &request(&KB)), answer);
    assert_eq!(sends(&mut room, 1, &[0x10, 0x61, 0x62]), Err(9));
    assert_eq!(sends(&mut room, 0, &[0x10, 0x61, 0x62]), Err(9));
}

#[test]
fn p10_ping_number_0_is_refused() {
    for kind in [4, 5] {
        let packet = [kind, 0, 0, 0, 0, 0, 0, 0, 0];
        assert_eq!(sends(&mut after_p5(), 0, &packet), Err(7));
    }
}

#[test]
fn p11_data_of_one_byte_is_refused_with_6_before_8() {
    for number in 0x10..=0xff {
        assert_eq!(sends(&mut after_p5(), 0, &[number]), Err(6));
    }
}

#[test]
fn out_of_band_sizes() {
    let mut room = seated(&[KA, KB]);
    for length in [34, 1_057] {
        let sent = out_of_band(&KB, length);
        let head = [0x01, (length >> 8) as u8, length as u8, 0x07];
        let received = run(&[&head, &KA, &sent[33..]]);
        assert_eq!(sends(&mut room, 0, &sent), received);
    }
    for length in [33, 1_058] {
        assert_eq!(sends(&mut room, 0, &out_of_band(&KB, length)), Err(6));
    }
}

#[test]
fn data_sizes() {
    let mut room = after_p5();
    let longest = vec![0x10; 2_032];
    let received = run(&[&[0x01, 0x07, 0xf0], &longest]);
    assert_eq!(sends(&mut room, 0, &longest), received);
    assert_eq!(sends(&mut room, 0, &[0x10; 2_033]), Err(4));
}

#[test]
fn the_32nd_request_is_numbered_47_and_the_33rd_answered_0() {
    let mut room = seated(&[KA, KB]);
    for number in 16..=47 {
        let key = other(number);
        let answer = run(&[&[0x00, 0x00, 0x22, 0x01, number], &key]);
        assert_eq!(sends(&mut room, 0, &request(&key)), answer);
    }
    // The answer 0 carries the asked key, whoever has it, and nothing changes.
    let full = room.clone();
    for key in [KB, KC, [0; 32]] {
        let answer = run(&[&[0x00, 0x00, 0x22, 0x01, 0x00], &key]);
        assert_eq!(sends(&mut room, 0, &request(&key)), answer);
        assert_eq!(room, full);
    }
    // A key already named gets its old number in a full table too.
    let answer = run(&[&[0x00, 0x00, 0x22, 0x01, 30], &other(30)]);
    assert_eq!(sends(&mut room, 0, &request(&other(30))), answer);
    // A request that was answered 0 does not stand: KB is not connected.
    let answer = run(&[&[0x01, 0x00, 0x22, 0x01, 0x10], &KA]);
    assert_eq!(sends(&mut room, 1, &request(&KA)), answer);
    // A dropped number is the lowest free one again, and now they are.
    assert_eq!(sends(&mut room, 0, &[0x03, 33]), run(&[]));
    let answer = run(&[
        &[0x00, 0x00, 0x22, 0x01, 33],
        &KB,
        &[0x00, 0x00, 0x02, 0x02, 33],
        &[0x01, 0x00, 0x02, 0x02, 0x10],
    ]);
    assert_eq!(sends(&mut room, 0, &request(&KB)), answer);
}

#[test]
fn the_40th_arrival_is_accepted_and_the_41st_refused() {
    let mut room = Room::empty(BASE);
    for seat in 0..40 {
        assert_eq!(arrives(&mut room, &other(seat)), Ok(usize::from(seat)));
    }
    assert_eq!(arrives(&mut room, &KA), Err(1));
    // A seated key never gets 1.
    assert_eq!(arrives(&mut room, &other(7)), Ok(7));
    // The lowest empty seat is taken.
    for seat in [30, 12, 39] {
        assert_eq!(leaves(&mut room, seat), run(&[]));
    }
    assert_eq!(arrives(&mut room, &KA), Ok(12));
    assert_eq!(arrives(&mut room, &KB), Ok(30));
    assert_eq!(arrives(&mut room, &KC), Ok(39));
    assert_eq!(arrives(&mut room, &[0; 32]), Err(1));
}

#[test]
fn not_the_senders_number_but_the_peers_is_sent_on() {
    let mut room = after_p4();
    let waits = run(&[&[0x01, 0x00, 0x22, 0x01, 0x10], &KC]);
    assert_eq!(sends(&mut room, 1, &request(&KC)), waits);
    let connects = run(&[
        &[0x01, 0x00, 0x22, 0x01, 0x11],
        &KA,
        &[0x01, 0x00, 0x02, 0x02, 0x11],
        &[0x00, 0x00, 0x02, 0x02, 0x10],
    ]);
    assert_eq!(sends(&mut room, 1, &request(&KA)), connects);
    let received = run(&[&[0x01, 0x00, 0x03, 0x11, 0x61, 0x62]]);
    assert_eq!(sends(&mut room, 0, &[0x10, 0x61, 0x62]), received);
    let received = run(&[&[0x00, 0x00, 0x03, 0x10, 0x61, 0x62]]);
    assert_eq!(sends(&mut room, 1, &[0x11, 0x61, 0x62]), received);
}

#[test]
fn both_are_told_connected_again_after_a_drop() {
    let mut room = after_p5();
    let notification = run(&[&[0x01, 0x00, 0x02, 0x03, 0x10]]);
    assert_eq!(sends(&mut room, 0, &[0x03, 0x10]), notification);
    assert_eq!(sends(&mut room, 1, &[0x10, 0x61]), Err(9));
    assert_eq!(sends(&mut room, 0, &[0x10, 0x61]), Err(8));
    connects_again(&mut room);
}

#[test]
fn both_are_told_connected_again_after_a_leave_and_a_return_to_another_seat() {
    let mut room = after_p5();
    assert_eq!(
        leaves(&mut room, 0),
        run(&[&[0x01, 0x00, 0x02, 0x03, 0x10]])
    );
    assert_eq!(arrives(&mut room, &KC), Ok(0));
    assert_eq!(arrives(&mut room, &KA), Ok(2));
    // The request of the one that left stood until then and stands no more.
    assert_eq!(sends(&mut room, 1, &[0x10, 0x61]), Err(9));
    let connects = run(&[
        &[0x02, 0x00, 0x22, 0x01, 0x10],
        &KB,
        &[0x02, 0x00, 0x02, 0x02, 0x10],
        &[0x01, 0x00, 0x02, 0x02, 0x10],
    ]);
    assert_eq!(sends(&mut room, 2, &request(&KB)), connects);
    let received = run(&[&[0x02, 0x00, 0x02, 0x10, 0x61]]);
    assert_eq!(sends(&mut room, 1, &[0x10, 0x61]), received);
}

/// The room with KA in seat 0, of which so many numbers are held, and KB in
/// seat 1, whose request for KA stands.
fn holding(held: u8) -> Room {
    let mut room = seated(&[KA, KB]);
    sends(&mut room, 1, &request(&KA)).unwrap();
    for number in 16..16 + held {
        let answer = run(&[&[0x00, 0x00, 0x22, 0x01, number], &other(number)]);
        assert_eq!(sends(&mut room, 0, &request(&other(number))), answer);
    }
    room
}

/// The client in this seat asks for its own key: it alone is sent anything,
/// the answer 0 with that key, and the room stays as it was.
fn asks_for_itself(room: &mut Room, seat: usize) {
    let before = room.clone();
    let own = room.client(seat).unwrap().key;
    let answer = run(&[&[seat as u8, 0x00, 0x22, 0x01, 0x00], &own]);
    assert_eq!(sends(room, seat, &request(&own)), answer);
    assert_eq!(*room, before);
}

#[test]
fn the_own_key_is_answered_0_with_any_table_however_often() {
    for held in 0..=32 {
        let mut room = holding(held);
        for _ in 0..3 {
            asks_for_itself(&mut room, 0);
        }
    }
}

#[test]
fn the_own_key_does_not_get_a_number_that_was_dropped() {
    for number in 16..=47 {
        let mut room = holding(32);
        assert_eq!(sends(&mut room, 0, &[0x03, number]), run(&[]));
        asks_for_itself(&mut room, 0);
        asks_for_itself(&mut room, 0);
        // The next key gets it.
        let answer = run(&[&[0x00, 0x00, 0x22, 0x01, number], &KC]);
        assert_eq!(sends(&mut room, 0, &request(&KC)), answer);
        asks_for_itself(&mut room, 0);
    }
}

#[test]
fn a_client_that_asked_for_itself_has_no_number_to_use_or_to_drop() {
    let mut room = seated(&[KA, KB]);
    asks_for_itself(&mut room, 0);
    assert_eq!(sends(&mut room, 0, &[0x10, 0x61]), Err(8));
    assert_eq!(sends(&mut room, 0, &[0x03, 0x10]), Err(8));
    assert_eq!(sends(&mut room, 0, &[0x03, 0x00]), Err(8));
    assert_eq!(leaves(&mut room, 0), run(&[]));
}

#[test]
fn a_client_that_asks_for_itself_stays_connected() {
    let mut room = after_p5();
    asks_for_itself(&mut room, 0);
    asks_for_itself(&mut room, 1);
    assert_eq!(room, after_p5());
    let received = run(&[&[0x01, 0x00, 0x03, 0x10, 0x61, 0x62]]);
    assert_eq!(sends(&mut room, 0, &[0x10, 0x61, 0x62]), received);
    assert_eq!(
        leaves(&mut room, 0),
        run(&[&[0x01, 0x00, 0x02, 0x03, 0x10]])
    );
}

#[test]
fn a_client_that_asked_for_itself_connects_as_if_it_had_not() {
    let mut room = seated(&[KA, KB]);
    asks_for_itself(&mut room, 0);
    asks_for_itself(&mut room, 1);
    sends(&mut room, 0, &request(&KB)).unwrap();
    assert_eq!(room, after_p4());
    asks_for_itself(&mut room, 0);
    asks_for_itself(&mut room, 1);
    let bytes = sends(&mut room, 1, &request(&KA)).unwrap();
    assert_eq!(bytes.len(), 47);
    assert_eq!(room, after_p5());
}

#[test]
fn the_own_key_is_answered_0_in_every_seat() {
    let keys: Vec<Key> = (0..40).map(other).collect();
    let mut room = seated(&keys);
    for seat in 0..40 {
        asks_for_itself(&mut room, seat);
        sends(&mut room, seat, &request(&KC)).unwrap();
        asks_for_itself(&mut room, seat);
    }
}

#[test]
fn the_own_key_is_that_of_the_client_now_in_the_seat() {
    let mut room = seated(&[KA]);
    asks_for_itself(&mut room, 0);
    assert_eq!(leaves(&mut room, 0), run(&[]));
    assert_eq!(arrives(&mut room, &KC), Ok(0));
    asks_for_itself(&mut room, 0);
    // The key of the client that was here before is another's.
    let answer = run(&[&[0x00, 0x00, 0x22, 0x01, 0x10], &KA]);
    assert_eq!(sends(&mut room, 0, &request(&KA)), answer);
    assert_eq!(arrives(&mut room, &KA), Ok(1));
    asks_for_itself(&mut room, 1);
    let connects = run(&[
        &[0x01, 0x00, 0x22, 0x01, 0x10],
        &KC,
        &[0x01, 0x00, 0x02, 0x02, 0x10],
        &[0x00, 0x00, 0x02, 0x02, 0x10],
    ]);
    assert_eq!(sends(&mut room, 1, &request(&KC)), connects);
}

#[test]
fn a_key_that_differs_from_the_own_in_one_bit_gets_a_number() {
    for bit in 0..256 {
        let mut key = KA;
        key[bit / 8] ^= 1 << (bit % 8);
        let mut room = seated(&[KA]);
        let answer = run(&[&[0x00, 0x00, 0x22, 0x01, 0x10], &key]);
        assert_eq!(sends(&mut room, 0, &request(&key)), answer);
        asks_for_itself(&mut room, 0);
    }
}

#[test]
fn anothers_key_is_answered_0_only_with_a_full_table_that_does_not_name_it() {
    for held in 0..=32 {
        let number = if held < 32 { 16 + held } else { 0 };
        // KB waits for KA: with a number for KB two notifications follow.
        for (key, connects) in [(KB, held < 32), (KC, false), ([0; 32], false)] {
            let mut room = holding(held);
            let answer = sends(&mut room, 0, &request(&key)).unwrap();
            assert_eq!(answer[..5], [0x00, 0x00, 0x22, 0x01, number]);
            assert_eq!(answer[5..37], key);
            assert_eq!(answer.len(), if connects { 47 } else { 37 });
            assert_eq!(room == holding(held), number == 0);
        }
        for named in 16..16 + held {
            let mut room = holding(held);
            let answer = run(&[&[0x00, 0x00, 0x22, 0x01, named], &other(named)]);
            assert_eq!(sends(&mut room, 0, &request(&other(named))), answer);
            assert_eq!(room, holding(held));
        }
    }
}

/// In a whole room nobody can tell the order of the two tests.
#[test]
fn the_own_key_is_tested_before_the_search_for_an_old_number() {
    for place in 0..32 {
        for mut room in [holding(0), holding(5), holding(32)] {
            room.seats[0].as_mut().unwrap().routes[place] = Some(KA);
            let before = room.clone();
            let accepted = room.packet(0, &request(&KA), LEAST_OUTPUT).unwrap();
            assert_eq!(accepted.records, [routing_response(0, 0, &KA)]);
            assert_eq!(room, before);
        }
    }
}

#[test]
fn a_repeated_request_gets_its_old_number_and_nothing_else() {
    let mut room = after_p4();
    let answer = run(&[&[0x00, 0x00, 0x22, 0x01, 0x10], &KB]);
    assert_eq!(sends(&mut room, 0, &request(&KB)), answer);
    assert_eq!(room, after_p4());
    // Also when connected.
    let mut room = after_p5();
    assert_eq!(sends(&mut room, 0, &request(&KB)), answer);
    assert_eq!(room, after_p5());
}

#[test]
fn a_request_for_an_absent_key_connects_when_its_client_asks_back() {
    let mut room = seated(&[KA]);
    let answer = run(&[&[0x00, 0x00, 0x22, 0x01, 0x10], &KB]);
    assert_eq!(sends(&mut room, 0, &request(&KB)), answer);
    assert_eq!(arrives(&mut room, &KB), Ok(1));
    let bytes = sends(&mut room, 1, &request(&KA)).unwrap();
    assert_eq!(bytes.len(), 47);
    assert_eq!(room, after_p5());
}

#[test]
fn leave_notifications_go_by_the_leavers_rising_numbers() {
    let mut room = three_peers();
    let notifications = run(&[
        &[0x03, 0x00, 0x02, 0x03, 0x11],
        &[0x01, 0x00, 0x02, 0x03, 0x12],
        &[0x02, 0x00, 0x02, 0x03, 0x10],
    ]);
    assert_eq!(leaves(&mut room, 0), notifications);
    // The seat is empty now; the peers' routes go on waiting.
    assert_eq!(leaves(&mut room, 0), Err(3));
    assert_eq!(sends(&mut room, 3, &[0x11, 0x61]), Err(9));
    assert_eq!(sends(&mut room, 1, &[0x12, 0x61]), Err(9));
    assert_eq!(sends(&mut room, 2, &[0x10, 0x61]), Err(9));
}

#[test]
fn a_new_client_has_no_routes_of_the_one_before() {
    let mut room = after_p5();
    leaves(&mut room, 0).unwrap();
    assert_eq!(arrives(&mut room, &KA), Ok(0));
    assert_eq!(sends(&mut room, 0, &[0x10, 0x61]), Err(8));
    assert_eq!(sends(&mut room, 0, &[0x03, 0x10]), Err(8));
}

#[test]
fn out_of_band_goes_to_oneself_too_and_to_nobody_without_refusal() {
    let mut room = seated(&[KA, KB]);
    let received = run(&[&[0x00, 0x00, 0x22, 0x07], &KA, &[0x61]]);
    assert_eq!(sends(&mut room, 0, &out_of_band(&KA, 34)), received);
    assert_eq!(sends(&mut room, 0, &out_of_band(&KC, 34)), run(&[]));
    assert_eq!(room, seated(&[KA, KB]));
}

#[test]
fn ping_gets_a_pong_and_pong_gets_nothing() {
    let mut room = seated(&[KA, KB]);
    let pong = run(&[&[0x01, 0x00, 0x09, 0x05, 1, 2, 3, 4, 5, 6, 7, 8]]);
    assert_eq!(sends(&mut room, 1, &[0x04, 1, 2, 3, 4, 5, 6, 7, 8]), pong);
    assert_eq!(
        sends(&mut room, 1, &[0x05, 1, 2, 3, 4, 5, 6, 7, 8]),
        run(&[])
    );
    assert_eq!(room, seated(&[KA, KB]));
}

#[test]
fn drop_of_a_waiting_number_tells_nobody() {
    let mut room = after_p4();
    assert_eq!(sends(&mut room, 0, &[0x03, 0x10]), run(&[]));
    assert_eq!(room, seated(&[KA, KB]));
    // KB asks now, and nothing connects: the request stands no more.
    let answer = run(&[&[0x01, 0x00, 0x22, 0x01, 0x10], &KA]);
    assert_eq!(sends(&mut room, 1, &request(&KA)), answer);
}

#[test]
fn drop_of_a_number_that_names_no_route_is_refused() {
    let mut room = after_p5();
    for number in (0..=0x0f).chain(0x11..=0xff) {
        assert_eq!(sends(&mut room, 0, &[0x03, number]), Err(8));
    }
}

#[test]
fn a_seat_above_the_last_or_empty_is_refused_whatever_the_bytes() {
    let mut room = after_p5();
    for seat in [2, 39, 40, 255, 256, 257, usize::MAX] {
        assert_eq!(leaves(&mut room, seat), Err(3));
        for packet in [&[][..], &[1], &[4; 9], &[0x10], &[0x10; 2_033]] {
            assert_eq!(sends(&mut room, seat, packet), Err(3));
        }
    }
}

#[test]
fn short_output_is_refused_before_all_else_even_where_nothing_is_written() {
    let mut room = after_p5();
    for length in [0, 1, 2_047] {
        for key in [KA, KC] {
            assert_eq!(room.arrive(&key, length), Err(10));
        }
        for seat in [0, 2, 40] {
            assert_eq!(room.leave(seat, length), Err(10));
            for packet in [&[][..], &[5, 0, 0, 0, 0, 0, 0, 0, 1], &[0x10, 0x61]] {
                assert_eq!(room.packet(seat, packet, length), Err(10));
            }
        }
    }
    assert_eq!(room, after_p5());
    assert!(room.leave(0, 2_048).is_ok());
}

#[test]
fn the_readers_refusals_come_in_its_order() {
    let mut room = after_p5();
    assert_eq!(sends(&mut room, 0, &[]), Err(4));
    assert_eq!(sends(&mut room, 0, &[1; 2_033]), Err(4));
    for kind in [1, 2, 7, 8, 9, 10, 15] {
        for length in [1, 2, 9, 33, 34, 2_032] {
            assert_eq!(sends(&mut room, 0, &vec![kind; length]), Err(5));
        }
    }
    for (kind, length) in [(0, 32), (0, 34), (3, 1), (3, 3), (4, 8), (5, 10)] {
        assert_eq!(sends(&mut room, 0, &vec![kind; length]), Err(6));
    }
}

#[test]
fn other_sizes_follow_the_same_rules() {
    let sizes = Sizes {
        seats: 2,
        numbers: 1,
    };
    let mut room = Room::empty(sizes);
    assert_eq!(arrives(&mut room, &KA), Ok(0));
    assert_eq!(arrives(&mut room, &KB), Ok(1));
    assert_eq!(arrives(&mut room, &KC), Err(1));
    asks_for_itself(&mut room, 0);
    let answer = run(&[&[0x00, 0x00, 0x22, 0x01, 0x10], &KB]);
    assert_eq!(sends(&mut room, 0, &request(&KB)), answer);
    asks_for_itself(&mut room, 0);
    let answer = run(&[&[0x00, 0x00, 0x22, 0x01, 0x00], &KC]);
    assert_eq!(sends(&mut room, 0, &request(&KC)), answer);
    assert_eq!(sends(&mut room, 0, &[0x11, 0x61]), Err(8));
    assert_eq!(leaves(&mut room, 2), Err(3));
}

#[test]
fn a_room_with_a_key_twice_is_not_whole() {
    let mut room = after_p5();
    room.seats[1].as_mut().unwrap().key = KA;
    assert!(!room.whole());
    let mut room = after_p5();
    room.seats[1].as_mut().unwrap().routes[31] = Some(KA);
    assert!(!room.whole());
    room.seats[1].as_mut().unwrap().routes[31] = Some(KC);
    assert!(room.whole());
}

#[test]
fn a_room_with_a_ping_time_after_the_clock_is_not_whole() {
    for seat in [0, 1] {
        for (time, whole) in [(0, true), (59, true), (60, true), (61, false)] {
            let mut room = after_p5();
            room.clock = 60;
            room.seats[seat].as_mut().unwrap().ping_time = time;
            assert_eq!(room.whole(), whole);
        }
    }
}

#[test]
fn a_room_where_a_seat_names_its_own_key_is_not_whole() {
    for place in 0..32 {
        for held in [0, 1, 31, 32] {
            let mut room = holding(held);
            room.seats[0].as_mut().unwrap().routes[place] = Some(KA);
            assert!(!room.whole());
            // In the same way the key of another seat, and one of nobody.
            for key in [KB, KC] {
                room.seats[0].as_mut().unwrap().routes[place] = Some(key);
                assert!(room.whole());
            }
        }
    }
}
