//! Relay packets, read and written for both ends.
//!
//! The client reads what the relay writes and the relay reads what the client
//! writes. Numbers of more than one byte stand with their highest byte first.

use crate::key::Key;
use crate::refusal;

/// The most bytes that a packet may have, its kind byte included.
pub const LONGEST_PACKET: usize = 2_032;

/// The lowest connection number. A packet whose first byte is this or more is
/// a data packet, and its first byte is the number.
pub const FIRST_NUMBER: u8 = 16;

/// A packet that a client sends and the relay reads.
#[derive(Debug, Clone, PartialEq, Eq)]
pub enum FromClient {
    /// Kind 0: asks for a route to a key.
    RoutingRequest { key: Key },
    /// Kind 3: drops a route.
    Drop { number: u8 },
    /// Kind 4.
    Ping { id: u64 },
    /// Kind 5.
    Pong { id: u64 },
    /// Kind 6: `key` is the destination.
    OobSend { key: Key, data: Vec<u8> },
    /// Kinds 16 to 255: the kind is the number.
    Data { number: u8, data: Vec<u8> },
}

/// A packet that the relay sends and a client reads.
#[derive(Debug, Clone, PartialEq, Eq)]
pub enum FromRelay {
    /// Kind 1: the answer to a request; number 0 says that none is given: the key
    /// is the asker's own, or no number is free.
    RoutingResponse { number: u8, key: Key },
    /// Kind 2.
    Connect { number: u8 },
    /// Kind 3.
    Disconnect { number: u8 },
    /// Kind 4.
    Ping { id: u64 },
    /// Kind 5.
    Pong { id: u64 },
    /// Kind 7: `key` is the sender's.
    OobReceived { key: Key, data: Vec<u8> },
    /// Kinds 16 to 255: the kind is the number.
    Data { number: u8, data: Vec<u8> },
}

/// Reads a packet at the relay's end, or answers the refusal number.
///
/// The relay's reader judges no connection number.
pub fn relay_read(packet: &[u8]) -> Result<FromClient, u8> {
    check_size(packet)?;
    check_kind(relay_takes(packet[0]))?;
    check_length(packet)?;
    check_ping_number(packet)?;
    Ok(match packet[0] {
        0 => FromClient::RoutingRequest {
            key: key_at(packet, 1),
        },
        3 => FromClient::Drop { number: packet[1] },
        4 => FromClient::Ping {
            id: ping_number(packet),
        },
        5 => FromClient::Pong {
            id: ping_number(packet),
        },
        6 => FromClient::OobSend {
            key: key_at(packet, 1),
            data: packet[33..].to_vec(),
        },
        number => FromClient::Data {
            number,
            data: packet[1..].to_vec(),
        },
    })
}

/// Reads a packet at the client's end, or answers the refusal number.
pub fn client_read(packet: &[u8]) -> Result<FromRelay, u8> {
    check_size(packet)?;
    check_kind(client_takes(packet[0]))?;
    check_length(packet)?;
    check_ping_number(packet)?;
    check_route_number(packet)?;
    Ok(match packet[0] {
        1 => FromRelay::RoutingResponse {
            number: packet[1],
            key: key_at(packet, 2),
        },
        2 => FromRelay::Connect { number: packet[1] },
        3 => FromRelay::Disconnect { number: packet[1] },
        4 => FromRelay::Ping {
            id: ping_number(packet),
        },
        5 => FromRelay::Pong {
            id: ping_number(packet),
        },
        7 => FromRelay::OobReceived {
            key: key_at(packet, 1),
            data: packet[33..].to_vec(),
        },
        number => FromRelay::Data {
            number,
            data: packet[1..].to_vec(),
        },
    })
}

/// Writes a packet of the client and answers how many bytes it has, or
/// answers the refusal number and leaves `out` as it was.
pub fn write_from_client(packet: &FromClient, out: &mut [u8]) -> Result<usize, u8> {
    let bytes = bytes_from_client(packet);
    check_size(&bytes)?;
    if let FromClient::Data { number, .. } = packet {
        check_kind(*number >= FIRST_NUMBER)?;
    }
    // A writer refuses what the reader of the other end would refuse.
    relay_read(&bytes)?;
    put(&bytes, out)
}

/// Writes a packet of the relay and answers how many bytes it has, or answers
/// the refusal number and leaves `out` as it was.
pub fn write_from_relay(packet: &FromRelay, out: &mut [u8]) -> Result<usize, u8> {
    let bytes = bytes_from_relay(packet);
    check_size(&bytes)?;
    if let FromRelay::Data { number, .. } = packet {
        check_kind(*number >= FIRST_NUMBER)?;
    }
    // A writer refuses what the reader of the other end would refuse.
    client_read(&bytes)?;
    put(&bytes, out)
}

/// The kinds that the relay takes.
fn relay_takes(kind: u8) -> bool {
    matches!(kind, 0 | 3 | 4 | 5 | 6 | 16..=255)
}

/// The kinds that the client takes.
fn client_takes(kind: u8) -> bool {
    matches!(kind, 1 | 2 | 3 | 4 | 5 | 7 | 16..=255)
}

/// Refusal 4.
fn check_size(packet: &[u8]) -> Result<(), u8> {
    if packet.is_empty() || packet.len() > LONGEST_PACKET {
        return Err(refusal::PACKET_SIZE);
    }
    Ok(())
}

/// Refusal 5.
fn check_kind(taken: bool) -> Result<(), u8> {
    if !taken {
        return Err(refusal::KIND);
    }
    Ok(())
}

/// Refusal 6, for a packet that is not empty.
fn check_length(packet: &[u8]) -> Result<(), u8> {
    let length = packet.len();
    let fits = match packet[0] {
        0 => length == 33,
        1 => length == 34,
        2 | 3 => length == 2,
        4 | 5 => length == 9,
        6 | 7 => (34..=1_057).contains(&length),
        // No end takes these kinds, whatever their length.
        8..=15 => false,
        16..=255 => (2..=LONGEST_PACKET).contains(&length),
    };
    if !fits {
        return Err(refusal::LENGTH);
    }
    Ok(())
}

/// Refusal 7, for a packet with the right length for its kind.
fn check_ping_number(packet: &[u8]) -> Result<(), u8> {
    if matches!(packet[0], 4 | 5) && ping_number(packet) == 0 {
        return Err(refusal::PING_NUMBER);
    }
    Ok(())
}

/// Refusal 8 at the client's end, for a packet with the right length for its
/// kind.
fn check_route_number(packet: &[u8]) -> Result<(), u8> {
    let refused = match packet[0] {
        1 => (1..=15).contains(&packet[1]),
        2 | 3 => packet[1] < FIRST_NUMBER,
        _ => false,
    };
    if refused {
        return Err(refusal::ROUTE_NUMBER);
    }
    Ok(())
}

/// The ping number of a packet of kind 4 or 5.
fn ping_number(packet: &[u8]) -> u64 {
    let mut number = 0;
    for byte in &packet[1..9] {
        number = number * 256 + u64::from(*byte);
    }
    number
}

/// The key that starts at `place`.
fn key_at(packet: &[u8], place: usize) -> Key {
    let mut key = [0; 32];
    key.copy_from_slice(&packet[place..place + 32]);
    key
}

/// The bytes of a packet of the client, whether or not it may be sent.
fn bytes_from_client(packet: &FromClient) -> Vec<u8> {
    match packet {
        FromClient::RoutingRequest { key } => [&[0], &key[..]].concat(),
        FromClient::Drop { number } => vec![3, *number],
        FromClient::Ping { id } => [&[4], &id.to_be_bytes()[..]].concat(),
        FromClient::Pong { id } => [&[5], &id.to_be_bytes()[..]].concat(),
        FromClient::OobSend { key, data } => [&[6], &key[..], &data[..]].concat(),
        FromClient::Data { number, data } => [&[*number], &data[..]].concat(),
    }
}

/// The bytes of a packet of the relay, whether or not it may be sent.
fn bytes_from_relay(packet: &FromRelay) -> Vec<u8> {
    match packet {
        FromRelay::RoutingResponse { number, key } => [&[1, *number], &key[..]].concat(),
        FromRelay::Connect { number } => vec![2, *number],
        FromRelay::Disconnect { number } => vec![3, *number],
        FromRelay::Ping { id } => [&[4], &id.to_be_bytes()[..]].concat(),
        FromRelay::Pong { id } => [&[5], &id.to_be_bytes()[..]].concat(),
        FromRelay::OobReceived { key, data } => [&[7], &key[..], &data[..]].concat(),
        FromRelay::Data { number, data } => [&[*number], &data[..]].concat(),
    }
}

/// Copies `bytes` to the front of `out` and answers their count, or refuses
/// with 10. Bytes of `out` behind them keep their contents.
fn put(bytes: &[u8], out: &mut [u8]) -> Result<usize, u8> {
    if out.len() < bytes.len() {
        return Err(refusal::OUTPUT);
    }
    out[..bytes.len()].copy_from_slice(bytes);
    Ok(bytes.len())
}

#[cfg(test)]
mod tests {
    use super::*;

    const KA: Key = [0x11; 32];
    const KB: Key = [0x22; 32];

    /// A packet of `length` bytes: the kind, then bytes 61 hex.
    fn packet(kind: u8, length: usize) -> Vec<u8> {
        let mut packet = vec![0x61; length];
        packet[0] = kind;
        packet
    }

    /// Writes into an output of 2,048 bytes and answers the bytes written.
    fn client_writes(packet: &FromClient) -> Result<Vec<u8>, u8> {
        let mut out = vec![0xee; 2_048];
        let count = write_from_client(packet, &mut out)?;
        assert!(out[count..].iter().all(|byte| *byte == 0xee));
        Ok(out[..count].to_vec())
    }

    /// Writes into an output of 2,048 bytes and answers the bytes written.
    fn relay_writes(packet: &FromRelay) -> Result<Vec<u8>, u8> {
        let mut out = vec![0xee; 2_048];
        let count = write_from_relay(packet, &mut out)?;
        assert!(out[count..].iter().all(|byte| *byte == 0xee));
        Ok(out[..count].to_vec())
    }

    #[test]
    fn p10_ping_number_zero_is_refused() {
        let zero = [4, 0, 0, 0, 0, 0, 0, 0, 0];
        assert_eq!(relay_read(&zero), Err(7));
        assert_eq!(client_read(&zero), Err(7));
        assert_eq!(client_writes(&FromClient::Ping { id: 0 }), Err(7));
        assert_eq!(client_writes(&FromClient::Pong { id: 0 }), Err(7));
        assert_eq!(relay_writes(&FromRelay::Ping { id: 0 }), Err(7));
        assert_eq!(relay_writes(&FromRelay::Pong { id: 0 }), Err(7));
    }

    #[test]
    fn p11_data_packet_without_data_is_refused() {
        assert_eq!(relay_read(&[0x10]), Err(6));
        assert_eq!(client_read(&[0x10]), Err(6));
    }

    #[test]
    fn p4_to_p6_packets_are_read_and_written() {
        let request = FromClient::RoutingRequest { key: KB };
        let bytes = [&[0x00], &KB[..]].concat();
        assert_eq!(client_writes(&request), Ok(bytes.clone()));
        assert_eq!(relay_read(&bytes), Ok(request));

        let answer = FromRelay::RoutingResponse {
            number: 0x10,
            key: KA,
        };
        let bytes = [&[0x01, 0x10], &KA[..]].concat();
        assert_eq!(relay_writes(&answer), Ok(bytes.clone()));
        assert_eq!(client_read(&bytes), Ok(answer));

        let connect = FromRelay::Connect { number: 0x10 };
        assert_eq!(relay_writes(&connect), Ok(vec![0x02, 0x10]));
        assert_eq!(client_read(&[0x02, 0x10]), Ok(connect));

        let number = 0x10;
        let data = vec![0x61, 0x62];
        let sent = FromClient::Data {
            number,
            data: data.clone(),
        };
        let received = FromRelay::Data { number, data };
        let bytes = vec![0x10, 0x61, 0x62];
        assert_eq!(client_writes(&sent), Ok(bytes.clone()));
        assert_eq!(relay_writes(&received), Ok(bytes.clone()));
        assert_eq!(relay_read(&bytes), Ok(sent));
        assert_eq!(client_read(&bytes), Ok(received));
    }

    #[test]
    fn ping_number_has_its_highest_byte_first() {
        let bytes = vec![4, 1, 2, 3, 4, 5, 6, 7, 8];
        let ping = FromClient::Ping {
            id: 0x0102_0304_0506_0708,
        };
        assert_eq!(client_writes(&ping), Ok(bytes.clone()));
        assert_eq!(relay_read(&bytes), Ok(ping));
    }

    #[test]
    fn out_of_band_has_1_to_1_024_bytes() {
        for length in [34, 1_057] {
            let sent = packet(6, length);
            let read = relay_read(&sent).unwrap();
            assert_eq!(client_writes(&read), Ok(sent));
            let received = packet(7, length);
            let read = client_read(&received).unwrap();
            assert_eq!(relay_writes(&read), Ok(received));
        }
        for length in [33, 1_058] {
            assert_eq!(relay_read(&packet(6, length)), Err(6));
            assert_eq!(client_read(&packet(7, length)), Err(6));
        }
    }

    #[test]
    fn out_of_band_writers_refuse_by_the_packet_they_would_make() {
        for (length, number) in [(0, 6), (1_025, 6), (1_999, 6), (2_000, 4)] {
            let data = vec![0x61; length];
            let sent = FromClient::OobSend {
                key: KB,
                data: data.clone(),
            };
            let received = FromRelay::OobReceived { key: KA, data };
            assert_eq!(client_writes(&sent), Err(number));
            assert_eq!(relay_writes(&received), Err(number));
        }
    }

    #[test]
    fn data_packet_has_up_to_2_032_bytes() {
        let longest = packet(16, 2_032);
        let read = relay_read(&longest).unwrap();
        assert_eq!(client_writes(&read), Ok(longest.clone()));
        let read = client_read(&longest).unwrap();
        assert_eq!(relay_writes(&read), Ok(longest));

        let too_long = packet(16, 2_033);
        assert_eq!(relay_read(&too_long), Err(4));
        assert_eq!(client_read(&too_long), Err(4));
        let data = vec![0x61; 2_032];
        assert_eq!(
            client_writes(&FromClient::Data { number: 16, data }),
            Err(4)
        );
    }

    #[test]
    fn empty_packet_is_refused() {
        assert_eq!(relay_read(&[]), Err(4));
        assert_eq!(client_read(&[]), Err(4));
    }

    #[test]
    fn each_end_refuses_the_kinds_it_does_not_take() {
        for kind in 0..=255 {
            for length in [1, 2, 9, 33, 34, 2_032] {
                let relay_refuses = matches!(kind, 1 | 2 | 7..=15);
                let read = relay_read(&packet(kind, length));
                assert_eq!(read == Err(5), relay_refuses, "kind {kind}");
                let client_refuses = matches!(kind, 0 | 6 | 8..=15);
                let read = client_read(&packet(kind, length));
                assert_eq!(read == Err(5), client_refuses, "kind {kind}");
            }
        }
    }

    #[test]
    fn size_is_judged_before_kind_and_kind_before_length() {
        assert_eq!(relay_read(&packet(1, 2_033)), Err(4));
        assert_eq!(relay_read(&packet(1, 2_032)), Err(5));
        assert_eq!(relay_read(&packet(1, 34)), Err(5));
        assert_eq!(relay_read(&packet(0, 34)), Err(6));
    }

    #[test]
    fn client_judges_route_numbers_and_relay_does_not() {
        for number in 0..=255 {
            let answer = [&[1, number], &KA[..]].concat();
            let refused = (1..16).contains(&number);
            assert_eq!(client_read(&answer) == Err(8), refused);
            for kind in [2, 3] {
                let refused = number < 16;
                assert_eq!(client_read(&[kind, number]) == Err(8), refused);
            }
            assert_eq!(relay_read(&[3, number]), Ok(FromClient::Drop { number }));
        }
    }

    #[test]
    fn relay_writers_refuse_low_route_numbers_and_the_drop_writer_takes_all() {
        for number in 0..16 {
            assert_eq!(relay_writes(&FromRelay::Connect { number }), Err(8));
            assert_eq!(relay_writes(&FromRelay::Disconnect { number }), Err(8));
            let answer = FromRelay::RoutingResponse { number, key: KA };
            assert_eq!(relay_writes(&answer).is_ok(), number == 0);
            let drop = FromClient::Drop { number };
            assert_eq!(client_writes(&drop), Ok(vec![3, number]));
        }
    }

    #[test]
    fn data_number_below_16_is_refused_after_4_and_before_6() {
        for number in 0..16 {
            for (length, refusal) in [(0, 5), (1, 5), (8, 5), (32, 5), (2_031, 5), (2_032, 4)] {
                let data = vec![0x61; length];
                let sent = FromClient::Data {
                    number,
                    data: data.clone(),
                };
                let received = FromRelay::Data { number, data };
                assert_eq!(client_writes(&sent), Err(refusal));
                assert_eq!(relay_writes(&received), Err(refusal));
            }
        }
    }

    #[test]
    fn short_output_is_refused_last_and_left_as_it_was() {
        let mut out = [0xee; 9];
        let ping = FromClient::Ping { id: 1 };
        assert_eq!(write_from_client(&ping, &mut out[..8]), Err(10));
        let zero = FromClient::Ping { id: 0 };
        assert_eq!(write_from_client(&zero, &mut out[..8]), Err(7));
        assert_eq!(out, [0xee; 9]);
        assert_eq!(write_from_client(&ping, &mut out), Ok(9));
    }
}
