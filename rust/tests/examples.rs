//! Document 01's examples of the relay, made on the library: those marked P,
//! which are proved too, the bounds, and the errors that students make; and
//! document 02's client that asks for itself, its dead laptops, and its one call
//! when a laptop comes back, which changes P3.

use banavoge::{Key, Refusal, Room, Seat, LEAST_OUTPUT, LEAST_TICK_OUTPUT};

const KA: Key = Key([0x11; 32]);
const KB: Key = Key([0x22; 32]);
const KC: Key = Key([0x33; 32]);

/// A host: a room, and the output that it lends. What is sent is shown as the
/// bytes of its records.
struct Host {
    room: Room,
    out: [u8; LEAST_OUTPUT],
}

impl Host {
    fn new() -> Self {
        Host {
            room: Room::empty(),
            out: [0xEE; LEAST_OUTPUT],
        }
    }

    fn arrive(&mut self, key: &Key) -> Result<(Seat, Vec<u8>), Refusal> {
        let arrival = self.room.arrive(key, &mut self.out)?;
        Ok((arrival.seat, arrival.records.as_bytes().to_vec()))
    }

    fn leave(&mut self, seat: Seat) -> Result<Vec<u8>, Refusal> {
        let records = self.room.leave(seat, &mut self.out)?;
        Ok(records.as_bytes().to_vec())
    }

    fn packet(&mut self, seat: Seat, packet: &[u8]) -> Result<Vec<u8>, Refusal> {
        let records = self.room.packet(seat, packet, &mut self.out)?;
        Ok(records.as_bytes().to_vec())
    }

    fn tick(&mut self, time: u64, number: u64) -> Result<Vec<u8>, Refusal> {
        let mut out = [0xEE; LEAST_TICK_OUTPUT];
        let records = self.room.tick(time, number, &mut out)?;
        Ok(records.as_bytes().to_vec())
    }

    fn pong(&mut self, seat: Seat, number: u8) -> Result<Vec<u8>, Refusal> {
        self.packet(seat, &[5, 0, 0, 0, 0, 0, 0, 0, number])
    }

    fn request(&mut self, seat: Seat, key: &Key) -> Result<Vec<u8>, Refusal> {
        self.packet(seat, &[&[0], &key.0[..]].concat())
    }

    /// P5: KA in seat 0 and KB in seat 1, each with number 16 for the other.
    fn connected() -> Self {
        let mut host = Host::new();
        assert_eq!(host.arrive(&KA), in_seat(0));
        assert_eq!(host.arrive(&KB), in_seat(1));
        host.request(Seat(0), &KB).expect("a request is accepted");
        host.request(Seat(1), &KA).expect("a request is accepted");
        host
    }
}

/// An arrival in a seat that sends 0 bytes.
fn in_seat(seat: u8) -> Result<(Seat, Vec<u8>), Refusal> {
    Ok((Seat(seat), vec![]))
}

/// The record of an answer to a request.
fn answer(seat: u8, number: u8, key: &Key) -> Vec<u8> {
    [&[seat, 0, 0x22, 1, number], &key.0[..]].concat()
}

/// The records of a request that connects two clients, with number 16 each: the
/// answer, and both are told, the asker first.
fn connects(asker: u8, peer: u8, key: &Key) -> Vec<u8> {
    [
        &answer(asker, 0x10, key)[..],
        &[asker, 0, 2, 2, 0x10],
        &[peer, 0, 2, 2, 0x10],
    ]
    .concat()
}

/// The record of a ping.
fn ping(seat: u8, number: u8) -> Vec<u8> {
    vec![seat, 0, 9, 4, 0, 0, 0, 0, 0, 0, 0, number]
}

fn key_of(number: u8) -> Key {
    let mut key = Key([0; 32]);
    key.0[31] = number;
    key
}

#[test]
fn p1_to_p6_two_clients_connect_and_send() {
    let mut host = Host::new();
    assert_eq!(host.arrive(&KA), in_seat(0));
    assert_eq!(host.arrive(&KB), in_seat(1));
    assert_eq!(host.arrive(&KA), in_seat(0));
    assert_eq!(host.request(Seat(0), &KB), Ok(answer(0, 0x10, &KB)));
    let told = connects(1, 0, &KA);
    assert_eq!(told.len(), 47);
    assert_eq!(host.request(Seat(1), &KA), Ok(told));
    assert_eq!(
        host.packet(Seat(0), &[0x10, 0x61, 0x62]),
        Ok(vec![1, 0, 3, 0x10, 0x61, 0x62])
    );
}

#[test]
fn p7_p8_data_on_a_waiting_number_and_on_none() {
    let mut host = Host::new();
    assert_eq!(host.arrive(&KA), in_seat(0));
    assert_eq!(host.arrive(&KB), in_seat(1));
    assert_eq!(host.request(Seat(0), &KB), Ok(answer(0, 0x10, &KB)));
    assert_eq!(
        host.packet(Seat(0), &[0x10, 0x61, 0x62]),
        Err(Refusal::NotConnected)
    );
    assert_eq!(
        host.packet(Seat(0), &[0x11, 0x61, 0x62]),
        Err(Refusal::NoSuchRoute)
    );
    let mut host = Host::connected();
    assert_eq!(
        host.packet(Seat(0), &[0x11, 0x61, 0x62]),
        Err(Refusal::NoSuchRoute)
    );
}

#[test]
fn p9_another_takes_the_seat_that_was_left() {
    let mut host = Host::connected();
    assert_eq!(host.leave(Seat(0)), Ok(vec![1, 0, 2, 3, 0x10]));
    assert_eq!(host.arrive(&KC), in_seat(0));
    assert_eq!(
        host.packet(Seat(1), &[0x10, 0x61]),
        Err(Refusal::NotConnected)
    );
}

#[test]
fn p10_p11_what_the_reader_refuses() {
    let mut host = Host::connected();
    assert_eq!(
        host.packet(Seat(0), &[4, 0, 0, 0, 0, 0, 0, 0, 0]),
        Err(Refusal::ZeroPing)
    );
    assert_eq!(host.packet(Seat(0), &[0x10]), Err(Refusal::WrongLength));
}

#[test]
fn bounds_of_out_of_band_packets_and_of_data() {
    let mut host = Host::connected();
    let out_of_band = |length: usize| {
        let mut packet = vec![7; length];
        packet[0] = 6;
        packet[1..33].copy_from_slice(&KB.0);
        packet
    };
    for (length, answer) in [
        (33, Err(Refusal::WrongLength)),
        (34, Ok(37)),
        (1_057, Ok(1_060)),
        (1_058, Err(Refusal::WrongLength)),
    ] {
        let sent = host
            .packet(Seat(0), &out_of_band(length))
            .map(|sent| sent.len());
        assert_eq!(sent, answer, "out-of-band of {length} bytes");
    }
    for (length, answer) in [(2_032, Ok(2_035)), (2_033, Err(Refusal::PacketSize))] {
        let sent = host
            .packet(Seat(0), &vec![0x10; length])
            .map(|sent| sent.len());
        assert_eq!(sent, answer, "data of {length} bytes");
    }
}

#[test]
fn the_32nd_request_is_numbered_47_and_the_33rd_gets_0() {
    let mut host = Host::new();
    assert_eq!(host.arrive(&KA), in_seat(0));
    for place in 0..32 {
        let wanted = key_of(place);
        assert_eq!(
            host.request(Seat(0), &wanted),
            Ok(answer(0, 16 + place, &wanted))
        );
    }
    let wanted = key_of(32);
    assert_eq!(host.request(Seat(0), &wanted), Ok(answer(0, 0, &wanted)));
    let repeated = key_of(31);
    assert_eq!(
        host.request(Seat(0), &repeated),
        Ok(answer(0, 47, &repeated))
    );
}

/// "The answer becomes 0 and no route is taken": with any table, however often.
#[test]
fn a_client_that_asks_for_itself_gets_0_and_no_number() {
    let mut host = Host::new();
    assert_eq!(host.arrive(&KA), in_seat(0));
    for held in 0..=32 {
        let before = host.room.clone();
        for _ in 0..2 {
            assert_eq!(host.request(Seat(0), &KA), Ok(answer(0, 0, &KA)));
            assert!(host.room.as_bytes() == before.as_bytes());
        }
        // The next key gets the lowest number, while there is one.
        let wanted = key_of(held);
        let number = if held < 32 { 16 + held } else { 0 };
        let answered = answer(0, number, &wanted);
        assert_eq!(host.request(Seat(0), &wanted), Ok(answered));
    }
}

#[test]
fn the_40th_arrival_is_accepted_and_the_41st_gets_1() {
    let mut host = Host::new();
    for seat in 0..40 {
        assert_eq!(host.arrive(&key_of(seat)), in_seat(seat));
    }
    assert_eq!(host.arrive(&key_of(40)), Err(Refusal::RoomFull));
}

/// "1 is given only to a key not seated": all who sit there may come back.
#[test]
fn in_a_full_room_a_seated_key_arrives_again() {
    let mut host = Host::new();
    for seat in 0..40 {
        assert_eq!(host.arrive(&key_of(seat)), in_seat(seat));
    }
    for seat in 0..40 {
        assert_eq!(host.arrive(&key_of(seat)), in_seat(seat));
        assert_eq!(host.arrive(&key_of(40)), Err(Refusal::RoomFull));
    }
}

/// After P5, KA comes back: KB is told as by P9's leave, and its request stands,
/// so that they are connected again once KA asks.
#[test]
fn who_comes_back_has_left_and_the_peer_is_told() {
    let mut host = Host::connected();
    let told = vec![1, 0, 2, 3, 0x10];
    assert_eq!(host.arrive(&KA), Ok((Seat(0), told)));
    assert_eq!(
        host.packet(Seat(0), &[0x10, 0x61]),
        Err(Refusal::NoSuchRoute)
    );
    assert_eq!(
        host.packet(Seat(1), &[0x10, 0x61]),
        Err(Refusal::NotConnected)
    );
    assert_eq!(host.request(Seat(0), &KB), Ok(connects(0, 1, &KB)));
}

/// The seat is looked for after the leave, and may be below the old one.
#[test]
fn who_comes_back_takes_the_lowest_empty_seat() {
    let mut host = Host::connected();
    assert_eq!(host.arrive(&KC), in_seat(2));
    assert_eq!(host.leave(Seat(0)), Ok(vec![1, 0, 2, 3, 0x10]));
    assert_eq!(host.arrive(&KC), in_seat(0));
    assert_eq!(host.room.key_in(Seat(2)), None);
    assert_eq!(host.arrive(&KB), in_seat(1));
}

/// A ping that was not answered is that of the old seat: who comes back counts as
/// pinged at the clock.
#[test]
fn who_comes_back_has_no_ping_to_answer() {
    let mut host = Host::connected();
    assert_eq!(host.tick(30, 2), Ok([ping(0, 2), ping(1, 2)].concat()));
    assert_eq!(host.tick(35, 3), Ok(vec![]));
    assert_eq!(host.arrive(&KB), Ok((Seat(1), vec![0, 0, 2, 3, 0x10])));
    assert_eq!(host.tick(40, 4), Ok(vec![]));
    assert_eq!(host.room.key_in(Seat(0)), None);
    assert_eq!(host.room.key_in(Seat(1)), Some(KB));
    assert_eq!(host.tick(64, 5), Ok(vec![]));
    assert_eq!(host.tick(65, 6), Ok(ping(1, 6)));
}

#[test]
fn data_goes_on_under_the_number_of_the_one_who_gets_it() {
    let mut host = Host::new();
    assert_eq!(host.arrive(&KA), in_seat(0));
    assert_eq!(host.arrive(&KB), in_seat(1));
    assert_eq!(host.request(Seat(1), &KC), Ok(answer(1, 0x10, &KC)));
    assert_eq!(host.request(Seat(0), &KB), Ok(answer(0, 0x10, &KB)));
    host.request(Seat(1), &KA).expect("a request is accepted");
    assert_eq!(
        host.packet(Seat(0), &[0x10, 0x61, 0x62]),
        Ok(vec![1, 0, 3, 0x11, 0x61, 0x62])
    );
}

#[test]
fn both_are_told_again_when_the_other_asks_again() {
    let mut host = Host::connected();
    assert_eq!(host.packet(Seat(0), &[3, 0x10]), Ok(vec![1, 0, 2, 3, 0x10]));
    assert_eq!(host.request(Seat(0), &KB), Ok(connects(0, 1, &KB)));
}

#[test]
fn who_does_not_answer_a_ping_is_put_out_and_the_peer_is_told() {
    let mut host = Host::connected();
    assert_eq!(host.tick(29, 1), Ok(vec![]));
    assert_eq!(host.tick(30, 2), Ok([ping(0, 2), ping(1, 2)].concat()));
    // Neither another number nor another packet is an answer.
    assert_eq!(host.pong(Seat(0), 2), Ok(vec![]));
    assert_eq!(host.pong(Seat(1), 1), Ok(vec![]));
    host.request(Seat(1), &KC).expect("a request is accepted");
    assert_eq!(host.tick(39, 3), Ok(vec![]));
    assert_eq!(host.room.key_in(Seat(1)), Some(KB));
    assert_eq!(host.tick(40, 4), Ok(vec![0, 0, 2, 3, 0x10]));
    assert_eq!(host.room.key_in(Seat(1)), None);
    assert_eq!(host.room.seat_of(&KA), Some(Seat(0)));
    // KA is pinged again 30 seconds after its last ping, not after its pong.
    assert_eq!(host.tick(59, 5), Ok(vec![]));
    assert_eq!(host.tick(60, 6), Ok(ping(0, 6)));
}

#[test]
fn of_two_that_go_by_one_tick_the_lower_tells_the_higher() {
    let mut host = Host::connected();
    host.tick(30, 2).expect("a tick is accepted");
    assert_eq!(host.tick(40, 3), Ok(vec![1, 0, 2, 3, 0x10]));
    assert_eq!(host.room.key_in(Seat(0)), None);
    assert_eq!(host.room.key_in(Seat(1)), None);
}

#[test]
fn an_arrival_starts_with_the_last_clock() {
    let mut host = Host::new();
    assert_eq!(host.tick(1_000, 1), Ok(vec![]));
    assert_eq!(host.arrive(&KA), in_seat(0));
    assert_eq!(host.tick(1_029, 2), Ok(vec![]));
    assert_eq!(host.tick(1_029, 3), Ok(vec![]));
    assert_eq!(host.tick(1_028, 4), Err(Refusal::ClockBack));
    assert_eq!(host.tick(1_028, 0), Err(Refusal::ZeroPing));
    assert_eq!(host.tick(1_030, 5), Ok(ping(0, 5)));
}
