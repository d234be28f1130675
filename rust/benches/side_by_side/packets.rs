//! A packet of each kind, as bytes and as the second program's value.

use crate::table::thousands;
use reference::packet::{write_from_client, write_from_relay, LONGEST_PACKET};
use reference::packet::{FromClient, FromRelay};
use reference::random::Random;

/// A short data packet, and one that nearly fills a frame of a network.
pub const DATA: [usize; 2] = [100, 1_400];

/// A packet.
pub struct Sample<P> {
    pub name: String,
    pub bytes: Vec<u8>,
    pub packet: P,
}

impl<P> Sample<P> {
    /// The kind as a reader of the library answers it: 16 for all data.
    pub fn kind(&self) -> i32 {
        i32::from(self.bytes[0].min(16))
    }

    /// Whether a packet of its kind has a key.
    pub fn has_key(&self) -> bool {
        matches!(self.bytes[0], 0 | 1 | 6 | 7)
    }
}

/// What a client sends.
pub fn client_packets() -> Vec<Sample<FromClient>> {
    let mut random = Random::new(2);
    let key = random.key();
    let (number, id) = (23, 0x0102_0304_0506_0708);
    let mut data = |length| random.bytes(length);
    let packets = [
        FromClient::RoutingRequest { key },
        FromClient::Drop { number },
        FromClient::Ping { id },
        FromClient::Pong { id },
        FromClient::OobSend {
            key,
            data: data(DATA[0]),
        },
        FromClient::Data {
            number,
            data: data(DATA[0]),
        },
        FromClient::Data {
            number,
            data: data(DATA[1]),
        },
    ];
    packets.into_iter().map(client_sample).collect()
}

/// What the relay sends.
pub fn relay_packets() -> Vec<Sample<FromRelay>> {
    let mut random = Random::new(3);
    let key = random.key();
    let (number, id) = (23, 0x0102_0304_0506_0708);
    let mut data = |length| random.bytes(length);
    let packets = [
        FromRelay::RoutingResponse { number, key },
        FromRelay::Connect { number },
        FromRelay::Disconnect { number },
        FromRelay::Ping { id },
        FromRelay::Pong { id },
        FromRelay::OobReceived {
            key,
            data: data(DATA[0]),
        },
        FromRelay::Data {
            number,
            data: data(DATA[0]),
        },
        FromRelay::Data {
            number,
            data: data(DATA[1]),
        },
    ];
    packets.into_iter().map(relay_sample).collect()
}

fn client_sample(packet: FromClient) -> Sample<FromClient> {
    let name = match &packet {
        FromClient::RoutingRequest { .. } => "routing request".into(),
        FromClient::Drop { .. } => "drop".into(),
        FromClient::Ping { .. } => "ping".into(),
        FromClient::Pong { .. } => "pong".into(),
        FromClient::OobSend { data, .. } => carrying("out-of-band", data),
        FromClient::Data { data, .. } => carrying("data", data),
    };
    let bytes = written(|out| write_from_client(&packet, out));
    Sample {
        name,
        bytes,
        packet,
    }
}

fn relay_sample(packet: FromRelay) -> Sample<FromRelay> {
    let name = match &packet {
        FromRelay::RoutingResponse { .. } => "routing response".into(),
        FromRelay::Connect { .. } => "connect notification".into(),
        FromRelay::Disconnect { .. } => "disconnect notification".into(),
        FromRelay::Ping { .. } => "ping".into(),
        FromRelay::Pong { .. } => "pong".into(),
        FromRelay::OobReceived { data, .. } => carrying("out-of-band", data),
        FromRelay::Data { data, .. } => carrying("data", data),
    };
    let bytes = written(|out| write_from_relay(&packet, out));
    Sample {
        name,
        bytes,
        packet,
    }
}

/// The name of a packet with data.
fn carrying(kind: &str, data: &[u8]) -> String {
    format!("{kind}, {} bytes", thousands(data.len()))
}

/// The bytes that a writer makes.
fn written(write: impl Fn(&mut [u8]) -> Result<usize, u8>) -> Vec<u8> {
    let mut out = vec![0; LONGEST_PACKET];
    let count = write(&mut out).expect("a packet that may be sent");
    out.truncate(count);
    out
}
