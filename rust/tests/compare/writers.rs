//! The writers of both ends.

use crate::generator::Generator;
use crate::output::Output;
use crate::packets::{from_client, from_relay};
use crate::readers::{compare_client, compare_relay};
use crate::tally::{say, Tally};
use banavoge::Refusal;
use reference::packet::{self, FromClient, FromRelay};

/// Payload lengths around each bound, and past the longest packet.
const PAYLOADS: [usize; 27] = [
    0, 1, 2, 7, 8, 9, 31, 32, 33, 34, 1_022, 1_023, 1_024, 1_025, 1_026, 1_056, 1_057, 1_998,
    1_999, 2_000, 2_001, 2_029, 2_030, 2_031, 2_032, 2_033, 5_000,
];

/// The bytes that the library writes for a packet that it must accept.
pub fn client_packet_written(packet: &FromClient) -> Vec<u8> {
    let mut out = vec![0; 2_048];
    let count = from_client(packet)
        .write(&mut out)
        .expect("a packet that may be sent");
    out.truncate(count);
    out
}

/// The bytes that the library writes for a packet that it must accept.
pub fn relay_packet_written(packet: &FromRelay) -> Vec<u8> {
    let mut out = vec![0; 2_048];
    let count = from_relay(packet)
        .write(&mut out)
        .expect("a packet that may be sent");
    out.truncate(count);
    out
}

/// The length of a packet of the client, whether or not it may be sent.
fn client_packet_length(packet: &FromClient) -> usize {
    match packet {
        FromClient::RoutingRequest { .. } => 33,
        FromClient::Drop { .. } => 2,
        FromClient::Ping { .. } | FromClient::Pong { .. } => 9,
        FromClient::OobSend { data, .. } => 33 + data.len(),
        FromClient::Data { data, .. } => 1 + data.len(),
    }
}

/// The length of a packet of the relay, whether or not it may be sent.
fn relay_packet_length(packet: &FromRelay) -> usize {
    match packet {
        FromRelay::RoutingResponse { .. } => 34,
        FromRelay::Connect { .. } | FromRelay::Disconnect { .. } => 2,
        FromRelay::Ping { .. } | FromRelay::Pong { .. } => 9,
        FromRelay::OobReceived { data, .. } => 33 + data.len(),
        FromRelay::Data { data, .. } => 1 + data.len(),
    }
}

/// Output lengths around the exact one, and the ends of what is usual.
fn output_lengths(exact: usize) -> Vec<usize> {
    let mut lengths = vec![0, 1, 2_048];
    lengths.extend(exact.saturating_sub(2)..=exact + 2);
    lengths.sort();
    lengths.dedup();
    lengths
}

/// Outputs of one length with two patterns that differ in every byte. A write
/// that one of them hides, since the byte stood there already, shows in the
/// other.
fn outputs(length: usize) -> [Output; 2] {
    [Output::new(length, 0x5a), Output::new(length, 0xa5)]
}

/// The outcome that an answer of the library tells.
pub fn answered(answer: i32) -> Result<usize, u8> {
    usize::try_from(answer).map_err(|_| answer.unsigned_abs() as u8)
}

/// Compares two writers on one packet or node and one output length, and
/// answers the reference's outcome.
pub fn compare(
    what: &str,
    length: usize,
    by_library: impl Fn(&mut [u8]) -> Result<usize, u8>,
    by_reference: impl Fn(&mut [u8]) -> Result<usize, u8>,
) -> Result<usize, u8> {
    let outcomes =
        outputs(length).map(|before| compare_on(what, &before, &by_library, &by_reference));
    outcomes[0]
}

/// Compares two writers on copies of one output.
fn compare_on(
    what: &str,
    before: &Output,
    by_library: &impl Fn(&mut [u8]) -> Result<usize, u8>,
    by_reference: &impl Fn(&mut [u8]) -> Result<usize, u8>,
) -> Result<usize, u8> {
    let mut expected = before.clone();
    let outcome = by_reference(expected.lent());
    let mut found = before.clone();
    let length = found.lent().len();
    let answered = by_library(found.lent());
    assert_eq!(answered, outcome, "{what}, output of {length} bytes");
    if found != expected {
        let place = found.first_difference(&expected);
        panic!("{what}, output of {length} bytes: byte {place} is wrong");
    }
    outcome
}

/// The name of a packet for a message: its first 80 characters.
fn named(packet: &impl std::fmt::Debug) -> String {
    format!("{packet:?}").chars().take(80).collect()
}

/// The counts of both ends.
struct Tallies {
    client: Tally,
    relay: Tally,
}

impl Tallies {
    /// Compares a client's writer on one packet with every output length
    /// around its own, then reads back what was written.
    fn run_client(&mut self, packet: &FromClient) {
        let what = named(packet);
        let mut accepted = false;
        for length in output_lengths(client_packet_length(packet)) {
            let outcome = compare(
                &what,
                length,
                |out| from_client(packet).write(out).map_err(Refusal::number),
                |out| packet::write_from_client(packet, out),
            );
            accepted |= outcome.is_ok();
            self.client.add(&outcome);
        }
        if accepted {
            let written = client_packet_written(packet);
            assert_eq!(compare_relay(&written).as_ref(), Ok(packet));
        }
    }

    /// Compares a relay's writer on one packet with every output length
    /// around its own, then reads back what was written.
    fn run_relay(&mut self, packet: &FromRelay) {
        let what = named(packet);
        let mut accepted = false;
        for length in output_lengths(relay_packet_length(packet)) {
            let outcome = compare(
                &what,
                length,
                |out| from_relay(packet).write(out).map_err(Refusal::number),
                |out| packet::write_from_relay(packet, out),
            );
            accepted |= outcome.is_ok();
            self.relay.add(&outcome);
        }
        if accepted {
            let written = relay_packet_written(packet);
            assert_eq!(compare_client(&written).as_ref(), Ok(packet));
        }
    }
}

fn requests(generator: &mut Generator, tallies: &mut Tallies) {
    tallies.run_client(&FromClient::RoutingRequest { key: [0; 32] });
    for _ in 0..500 {
        let key = generator.key();
        tallies.run_client(&FromClient::RoutingRequest { key });
    }
}

/// Answers, connected, disconnected and drop packets with every number.
fn numbered(generator: &mut Generator, tallies: &mut Tallies) {
    for number in 0..=255 {
        let key = generator.key();
        tallies.run_relay(&FromRelay::RoutingResponse { number, key });
        tallies.run_relay(&FromRelay::Connect { number });
        tallies.run_relay(&FromRelay::Disconnect { number });
        tallies.run_client(&FromClient::Drop { number });
    }
}

/// Pings and pongs with number 0, with each single bit and with others.
fn pings(generator: &mut Generator, tallies: &mut Tallies) {
    let mut numbers = vec![0; 20];
    numbers.extend((0..64).map(|bit| 1 << bit));
    numbers.extend((0..200).map(|_| generator.number()));
    numbers.push(u64::MAX);
    for id in numbers {
        tallies.run_client(&FromClient::Ping { id });
        tallies.run_client(&FromClient::Pong { id });
        tallies.run_relay(&FromRelay::Ping { id });
        tallies.run_relay(&FromRelay::Pong { id });
    }
}

/// Out-of-band packets with payloads around each bound and of any length.
fn out_of_band(generator: &mut Generator, tallies: &mut Tallies) {
    let mut lengths = PAYLOADS.to_vec();
    lengths.extend((0..300).map(|_| generator.below(2_100)));
    for length in lengths {
        let key = generator.key();
        let data = generator.bytes(length);
        tallies.run_client(&FromClient::OobSend {
            key,
            data: data.clone(),
        });
        tallies.run_relay(&FromRelay::OobReceived { key, data });
    }
}

/// Data packets with every number and payloads around each bound. Every
/// number below 16 meets every length; the others take turns.
fn data(generator: &mut Generator, tallies: &mut Tallies) {
    for number in 0..=255 {
        for (turn, length) in PAYLOADS.into_iter().enumerate() {
            let all_lengths = number < 20 || number == 255;
            if !all_lengths && turn % 4 != usize::from(number) % 4 {
                continue;
            }
            let data = generator.bytes(length);
            tallies.run_client(&FromClient::Data {
                number,
                data: data.clone(),
            });
            tallies.run_relay(&FromRelay::Data { number, data });
        }
    }
}

/// Packets of all kinds that may be sent.
fn good_packets(generator: &mut Generator, tallies: &mut Tallies) {
    for _ in 0..1_000 {
        tallies.run_client(&generator.packet_from_client());
        tallies.run_relay(&generator.packet_from_relay());
    }
}

#[test]
fn writers_agree_with_the_reference() {
    let mut generator = Generator::new(2);
    let mut tallies = Tallies {
        client: Tally::new(),
        relay: Tally::new(),
    };
    requests(&mut generator, &mut tallies);
    numbered(&mut generator, &mut tallies);
    pings(&mut generator, &mut tallies);
    out_of_band(&mut generator, &mut tallies);
    data(&mut generator, &mut tallies);
    good_packets(&mut generator, &mut tallies);

    let Tallies { client, relay } = tallies;
    say(&format!(
        "writers\n{}{}",
        client.line("client's end"),
        relay.line("relay's end")
    ));
    client.demand("the client's writers", &[4, 5, 6, 7, 10]);
    relay.demand("the relay's writers", &[4, 5, 6, 7, 8, 10]);
    assert!(client.total() + relay.total() >= 50_000);
}
