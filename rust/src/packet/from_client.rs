//! What a client sends and the relay reads.

use super::{key_of, kind};
use crate::answer::accepted;
use crate::raw::{readers, writers};
use crate::{ConnectionNumber, Key, Refusal};

/// A packet that a client sends and the relay reads. Its payload is a part of
/// the packet that was read.
///
/// Any values can stand in it; what may be sent is judged when it is written,
/// by the rules by which the relay reads.
///
/// ```
/// use banavoge::{ConnectionNumber, FromClient, Refusal, LONGEST_PACKET};
///
/// let number = ConnectionNumber(16);
/// let packet = FromClient::Data { number, payload: b"ab" };
/// let mut out = [0; LONGEST_PACKET];
/// let count = packet.write(&mut out)?;
/// assert_eq!(out[..count], [16, b'a', b'b']);
/// assert_eq!(FromClient::read(&out[..count]), Ok(packet));
///
/// assert_eq!(FromClient::Ping(0).write(&mut out), Err(Refusal::ZeroPing));
/// # Ok::<(), Refusal>(())
/// ```
#[derive(Debug, Clone, Copy, PartialEq, Eq)]
pub enum FromClient<'a> {
    /// Kind 0: asks for a route to the client that holds a key. A client that
    /// asks for its own key is answered with [`ConnectionNumber::NONE`] and gets
    /// no route.
    RoutingRequest {
        /// The wanted key.
        key: Key,
    },
    /// Kind 3: drops a route.
    DropRoute(ConnectionNumber),
    /// Kind 4, with the ping number, which is not 0.
    Ping(u64),
    /// Kind 5, with the number of the ping that it answers.
    Pong(u64),
    /// Kind 6: bytes for the client that holds a key, with no route.
    OobSend {
        /// The key of the client that they are for.
        destination: Key,
        /// 1 to 1,024 bytes.
        payload: &'a [u8],
    },
    /// Kinds 16 to 255: bytes on a route.
    Data {
        /// The sender's number for the route.
        number: ConnectionNumber,
        /// 1 to 2,031 bytes.
        payload: &'a [u8],
    },
}

impl<'a> FromClient<'a> {
    /// Reads a packet at the relay's end. Refused with 4, 5, 6 or 7; no
    /// connection number is judged.
    pub fn read(packet: &'a [u8]) -> Result<FromClient<'a>, Refusal> {
        let mut places = readers::Places::default();
        let kind = accepted(readers::relay_read(packet, &mut places))?;
        let number = ConnectionNumber(places.number);
        let payload = places.payload(packet);
        Ok(match kind {
            kind::ROUTING_REQUEST => FromClient::RoutingRequest {
                key: key_of(packet, readers::relay_key)?,
            },
            kind::DISCONNECT => FromClient::DropRoute(number),
            kind::PING => FromClient::Ping(places.ping),
            kind::PONG => FromClient::Pong(places.ping),
            kind::OOB_SEND => FromClient::OobSend {
                destination: key_of(packet, readers::relay_key)?,
                payload,
            },
            kind::DATA => FromClient::Data { number, payload },
            _ => unreachable!("kind {kind} from the relay's reader"),
        })
    }

    /// Writes the packet at the front of `out` and answers how many bytes it
    /// has; the bytes behind it stay. Refused as the relay would refuse to
    /// read it, with 5 for a data number below 16, and then with 10 for an
    /// output that is too short.
    pub fn write(&self, out: &mut [u8]) -> Result<usize, Refusal> {
        accepted(match self {
            FromClient::RoutingRequest { key } => writers::routing_request(&key.0, out),
            FromClient::DropRoute(number) => writers::drop_route(number.0, out),
            FromClient::Ping(number) => writers::ping(*number, out),
            FromClient::Pong(number) => writers::pong(*number, out),
            FromClient::OobSend {
                destination,
                payload,
            } => writers::oob_send(&destination.0, payload, out),
            FromClient::Data { number, payload } => writers::data(number.0, payload, out),
        })
    }
}
