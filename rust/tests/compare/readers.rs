//! The readers of both ends.

use crate::generator::{Generator, ROUTE_NUMBERS};
use crate::packets::{from_client, from_relay};
use crate::tally::{say, Tally};
use crate::writers;
use banavoge::raw::readers::{self, Places};
use banavoge::Refusal;
use reference::key::Key;
use reference::packet::{self, FromClient, FromRelay};

/// Every length around a bound of some kind.
const LENGTHS: [usize; 21] = [
    0, 1, 2, 3, 7, 8, 9, 10, 31, 32, 33, 34, 35, 1_056, 1_057, 1_058, 1_059, 2_031, 2_032, 2_033,
    2_034,
];

/// What stands in the places before a call, so that a write shows.
const PLACES_BEFORE: Places = Places {
    number: 0xa5,
    ping: 0xa5a5_5a5a_a5a5_5a5a,
    start: 0x5a5a_a5a5,
    length: 0xa5a5_5a5a,
};

/// What stands in the key before a call, so that a write shows.
const KEY_BEFORE: Key = [0xa5; 32];

/// The kind that a reader answers for a data packet.
const DATA: i32 = 16;

/// All that the two functions of one reader answer and leave behind.
#[derive(Debug, PartialEq, Eq)]
struct Reading {
    answer: i32,
    places: Places,
    key_answer: i32,
    key: Key,
}

/// Reads at the relay's end with library and reference, and fails where they
/// differ. Answers the reference's outcome.
pub fn compare_relay(bytes: &[u8]) -> Result<FromClient, u8> {
    let outcome = packet::relay_read(bytes);
    let found = library_reading(bytes, readers::relay_read, readers::relay_key);
    let expected = match &outcome {
        Ok(packet) => client_packet_reading(packet),
        Err(number) => refused_reading(*number),
    };
    assert_eq!(found, expected, "the relay's reader, {}", described(bytes));
    assert_eq!(
        banavoge::FromClient::read(bytes).map_err(Refusal::number),
        outcome.as_ref().map(from_client).map_err(|number| *number),
        "the relay's reader, {}",
        described(bytes)
    );
    if let Ok(packet) = &outcome {
        assert_eq!(
            writers::client_packet_written(packet),
            bytes,
            "a packet read by the relay and written again, {packet:?}"
        );
    }
    outcome
}

/// Reads at the client's end with library and reference, and fails where they
/// differ. Answers the reference's outcome.
pub fn compare_client(bytes: &[u8]) -> Result<FromRelay, u8> {
    let outcome = packet::client_read(bytes);
    let found = library_reading(bytes, readers::client_read, readers::client_key);
    let expected = match &outcome {
        Ok(packet) => relay_packet_reading(packet),
        Err(number) => refused_reading(*number),
    };
    assert_eq!(found, expected, "the client's reader, {}", described(bytes));
    assert_eq!(
        banavoge::FromRelay::read(bytes).map_err(Refusal::number),
        outcome.as_ref().map(from_relay).map_err(|number| *number),
        "the client's reader, {}",
        described(bytes)
    );
    if let Ok(packet) = &outcome {
        assert_eq!(
            writers::relay_packet_written(packet),
            bytes,
            "a packet read by the client and written again, {packet:?}"
        );
    }
    outcome
}

fn library_reading(
    bytes: &[u8],
    read: fn(&[u8], &mut Places) -> i32,
    read_key: fn(&[u8], &mut Key) -> i32,
) -> Reading {
    let mut places = PLACES_BEFORE;
    let mut key = KEY_BEFORE;
    let answer = read(bytes, &mut places);
    let key_answer = read_key(bytes, &mut key);
    Reading {
        answer,
        places,
        key_answer,
        key,
    }
}

/// A refusal leaves all as it was before.
fn refused_reading(number: u8) -> Reading {
    let answer = -i32::from(number);
    Reading {
        answer,
        places: PLACES_BEFORE,
        key_answer: answer,
        key: KEY_BEFORE,
    }
}

/// A reading of a packet of this kind that has no number, payload or key.
fn taken_reading(kind: i32) -> Reading {
    Reading {
        answer: kind,
        places: Places::default(),
        key_answer: kind,
        key: [0; 32],
    }
}

fn numbered_reading(kind: i32, number: u8) -> Reading {
    let mut reading = taken_reading(kind);
    reading.places.number = number;
    reading
}

fn ping_reading(kind: i32, id: u64) -> Reading {
    let mut reading = taken_reading(kind);
    reading.places.ping = id;
    reading
}

/// The payload of an out-of-band packet stands behind the kind and the key.
fn oob_reading(kind: i32, key: Key, data: &[u8]) -> Reading {
    let mut reading = taken_reading(kind);
    reading.key = key;
    reading.places.start = 33;
    reading.places.length = data.len();
    reading
}

/// The payload of a data packet stands behind the number.
fn data_reading(number: u8, data: &[u8]) -> Reading {
    let mut reading = numbered_reading(DATA, number);
    reading.places.start = 1;
    reading.places.length = data.len();
    reading
}

fn client_packet_reading(packet: &FromClient) -> Reading {
    match packet {
        FromClient::RoutingRequest { key } => Reading {
            key: *key,
            ..taken_reading(0)
        },
        FromClient::Drop { number } => numbered_reading(3, *number),
        FromClient::Ping { id } => ping_reading(4, *id),
        FromClient::Pong { id } => ping_reading(5, *id),
        FromClient::OobSend { key, data } => oob_reading(6, *key, data),
        FromClient::Data { number, data } => data_reading(*number, data),
    }
}

fn relay_packet_reading(packet: &FromRelay) -> Reading {
    match packet {
        FromRelay::RoutingResponse { number, key } => Reading {
            key: *key,
            ..numbered_reading(1, *number)
        },
        FromRelay::Connect { number } => numbered_reading(2, *number),
        FromRelay::Disconnect { number } => numbered_reading(3, *number),
        FromRelay::Ping { id } => ping_reading(4, *id),
        FromRelay::Pong { id } => ping_reading(5, *id),
        FromRelay::OobReceived { key, data } => oob_reading(7, *key, data),
        FromRelay::Data { number, data } => data_reading(*number, data),
    }
}

/// The length of a packet and its first bytes.
fn described(bytes: &[u8]) -> String {
    let front = &bytes[..bytes.len().min(12)];
    format!("packet of {} bytes: {front:02x?}", bytes.len())
}

/// The counts of both ends.
struct Tallies {
    relay: Tally,
    client: Tally,
}

impl Tallies {
    /// Compares both ends on one packet.
    fn run(&mut self, bytes: &[u8]) {
        self.relay.add(&compare_relay(bytes));
        self.client.add(&compare_client(bytes));
    }
}

/// Every kind at every length around a bound, with many second bytes. The
/// packet is the front of a longer run of bytes, so that a reader that looks
/// past its end finds something there.
fn every_kind_and_length(generator: &mut Generator, tallies: &mut Tallies) {
    let mut bytes = generator.bytes(2_100);
    for kind in 0..=255 {
        generator.fill(&mut bytes);
        bytes[0] = kind;
        for second in ROUTE_NUMBERS {
            bytes[1] = second;
            for length in LENGTHS {
                tallies.run(&bytes[..length]);
            }
        }
    }
}

/// The kinds with a number of their own, with every number.
fn every_number(generator: &mut Generator, tallies: &mut Tallies) {
    for kind in 0..=16 {
        for number in 0..=255 {
            let mut bytes = generator.bytes(64);
            bytes[0] = kind;
            bytes[1] = number;
            for length in [2, 9, 33, 34] {
                tallies.run(&bytes[..length]);
            }
        }
    }
}

/// Pings and pongs with number 0, with each single bit and with others.
fn ping_numbers(generator: &mut Generator, tallies: &mut Tallies) {
    let mut numbers = vec![0; 100];
    numbers.extend((0..64).map(|bit| 1 << bit));
    numbers.extend((0..8).map(|byte| 0xff << (8 * byte)));
    numbers.extend((0..500).map(|_| generator.number()));
    numbers.push(u64::MAX);
    for number in numbers {
        for kind in [4, 5] {
            let mut bytes = generator.bytes(16);
            bytes[0] = kind;
            bytes[1..9].copy_from_slice(&number.to_be_bytes());
            for length in [8, 9, 10] {
                tallies.run(&bytes[..length]);
            }
        }
    }
}

/// Packets that the reference wrote, whole and damaged.
fn written_and_damaged(generator: &mut Generator, tallies: &mut Tallies) {
    let mut out = vec![0; 2_048];
    for _ in 0..15_000 {
        let packet = generator.packet_from_client();
        let count = packet::write_from_client(&packet, &mut out).expect("a good packet");
        tallies.run(&out[..count]);
        let damaged = generator.damage(out[..count].to_vec());
        tallies.run(&damaged);

        let packet = generator.packet_from_relay();
        let count = packet::write_from_relay(&packet, &mut out).expect("a good packet");
        tallies.run(&out[..count]);
        let damaged = generator.damage(out[..count].to_vec());
        tallies.run(&damaged);
    }
}

/// Bytes of no design at all, and such bytes with a low kind in front.
fn random_bytes(generator: &mut Generator, tallies: &mut Tallies) {
    for turn in 0..10_000 {
        let length = match generator.below(4) {
            0 => generator.pick(&LENGTHS),
            1 => generator.below(2_100),
            _ => generator.below(40),
        };
        let mut bytes = generator.bytes(length);
        if turn % 2 == 0 && length > 0 {
            bytes[0] = generator.below(18) as u8;
        }
        tallies.run(&bytes);
    }
}

/// What is read borrows its payload: it is a part of the packet itself, at its
/// place. The other end refuses the kind.
fn payloads_are_lent(generator: &mut Generator) {
    let mut out = vec![0; 2_048];
    for _ in 0..1_000 {
        let key = generator.key();
        let length = 1 + generator.below(1_024);
        let data = generator.bytes(length);

        let send = FromClient::OobSend {
            key,
            data: data.clone(),
        };
        let count = from_client(&send).write(&mut out).expect("a good packet");
        let packet = &out[..count];
        match banavoge::FromClient::read(packet) {
            Ok(banavoge::FromClient::OobSend {
                destination,
                payload,
            }) => {
                assert_eq!(destination.0, key);
                assert_eq!(payload, data);
                assert!(std::ptr::eq(payload, &packet[33..]));
            }
            other => panic!("{other:?}"),
        }
        let refused = banavoge::FromRelay::read(packet);
        assert_eq!(refused, Err(Refusal::UnexpectedKind));

        let received = FromRelay::OobReceived {
            key,
            data: data.clone(),
        };
        let count = from_relay(&received)
            .write(&mut out)
            .expect("a good packet");
        let packet = &out[..count];
        match banavoge::FromRelay::read(packet) {
            Ok(banavoge::FromRelay::OobReceived { sender, payload }) => {
                assert_eq!(sender.0, key);
                assert_eq!(payload, data);
                assert!(std::ptr::eq(payload, &packet[33..]));
            }
            other => panic!("{other:?}"),
        }
        let refused = banavoge::FromClient::read(packet);
        assert_eq!(refused, Err(Refusal::UnexpectedKind));

        let data_packet = FromClient::Data { number: 16, data };
        let count = from_client(&data_packet)
            .write(&mut out)
            .expect("a good packet");
        let packet = &out[..count];
        match banavoge::FromClient::read(packet) {
            Ok(banavoge::FromClient::Data { payload, .. }) => {
                assert!(std::ptr::eq(payload, &packet[1..]));
            }
            other => panic!("{other:?}"),
        }
    }
}

#[test]
fn readers_agree_with_the_reference() {
    let mut generator = Generator::new(1);
    let mut tallies = Tallies {
        relay: Tally::new(),
        client: Tally::new(),
    };
    every_kind_and_length(&mut generator, &mut tallies);
    every_number(&mut generator, &mut tallies);
    ping_numbers(&mut generator, &mut tallies);
    written_and_damaged(&mut generator, &mut tallies);
    random_bytes(&mut generator, &mut tallies);
    payloads_are_lent(&mut generator);

    let Tallies { relay, client } = tallies;
    say(&format!(
        "readers\n{}{}",
        relay.line("relay's end"),
        client.line("client's end")
    ));
    relay.demand("the relay's reader", &[4, 5, 6, 7]);
    client.demand("the client's reader", &[4, 5, 6, 7, 8]);
    assert!(relay.total() + client.total() >= 200_000);
}
