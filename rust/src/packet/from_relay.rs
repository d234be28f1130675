//! What the relay sends and a client reads.

use super::{key_of, kind};
use crate::answer::accepted;
use crate::raw::{readers, writers};
use crate::{ConnectionNumber, Key, Refusal};

/// A packet that the relay sends and a client reads. Its payload is a part of
/// the packet that was read.
///
/// A host of the relay need not write these: the room puts them into its
/// records. They are here for clients, and for a host that looks at what it
/// sends.
///
/// ```
/// use banavoge::{ConnectionNumber, FromRelay, Refusal};
///
/// let connected = FromRelay::ConnectNotification(ConnectionNumber(16));
/// assert_eq!(FromRelay::read(&[2, 16]), Ok(connected));
/// assert_eq!(FromRelay::read(&[2, 15]), Err(Refusal::NoSuchRoute));
///
/// let mut out = [0; 2];
/// assert_eq!(connected.write(&mut out), Ok(2));
/// assert_eq!(out, [2, 16]);
/// ```
#[derive(Debug, Clone, Copy, PartialEq, Eq)]
pub enum FromRelay<'a> {
    /// Kind 1: the answer to a routing request.
    RoutingResponse {
        /// The number of the route, or [`ConnectionNumber::NONE`]: the client
        /// had no number free, or asked for its own key.
        number: ConnectionNumber,
        /// The key that was asked for.
        key: Key,
    },
    /// Kind 2: both ends of the route now want each other.
    ConnectNotification(ConnectionNumber),
    /// Kind 3: the other end has dropped the route or has left.
    DisconnectNotification(ConnectionNumber),
    /// Kind 4, with the ping number, which is not 0.
    Ping(u64),
    /// Kind 5, with the number of the ping that it answers.
    Pong(u64),
    /// Kind 7: bytes from the client that holds a key, with no route.
    OobReceived {
        /// The key of the client that sent them.
        sender: Key,
        /// 1 to 1,024 bytes.
        payload: &'a [u8],
    },
    /// Kinds 16 to 255: bytes on a route.
    Data {
        /// The receiver's number for the route.
        number: ConnectionNumber,
        /// 1 to 2,031 bytes.
        payload: &'a [u8],
    },
}

impl<'a> FromRelay<'a> {
    /// Reads a packet at the client's end. Refused with 4, 5, 6, 7 or 8.
    pub fn read(packet: &'a [u8]) -> Result<FromRelay<'a>, Refusal> {
        let mut places = readers::Places::default();
        let kind = accepted(readers::client_read(packet, &mut places))?;
        let number = ConnectionNumber(places.number);
        let payload = places.payload(packet);
        Ok(match kind {
            kind::ROUTING_RESPONSE => FromRelay::RoutingResponse {
                number,
                key: key_of(packet, readers::client_key)?,
            },
            kind::CONNECT_NOTIFICATION => FromRelay::ConnectNotification(number),
            kind::DISCONNECT => FromRelay::DisconnectNotification(number),
            kind::PING => FromRelay::Ping(places.ping),
            kind::PONG => FromRelay::Pong(places.ping),
            kind::OOB_RECEIVED => FromRelay::OobReceived {
                sender: key_of(packet, readers::client_key)?,
                payload,
            },
            kind::DATA => FromRelay::Data { number, payload },
            _ => unreachable!("kind {kind} from the client's reader"),
        })
    }

    /// Writes the packet at the front of `out` and answers how many bytes it
    /// has; the bytes behind it stay. Refused as a client would refuse to read
    /// it, with 5 for a data number below 16, and then with 10 for an output
    /// that is too short.
    pub fn write(&self, out: &mut [u8]) -> Result<usize, Refusal> {
        accepted(match self {
            FromRelay::RoutingResponse { number, key } => {
                writers::routing_response(number.0, &key.0, out)
            }
            FromRelay::ConnectNotification(number) => writers::connect_notification(number.0, out),
            FromRelay::DisconnectNotification(number) => {
                writers::disconnect_notification(number.0, out)
            }
            FromRelay::Ping(number) => writers::ping(*number, out),
            FromRelay::Pong(number) => writers::pong(*number, out),
            FromRelay::OobReceived { sender, payload } => {
                writers::oob_received(&sender.0, payload, out)
            }
            FromRelay::Data { number, payload } => writers::data(number.0, payload, out),
        })
    }
}
