//! The second program's packets as the library has them.

use banavoge::{ConnectionNumber, Key};
use reference::packet::{FromClient, FromRelay};

/// A packet of the client.
pub fn from_client(packet: &FromClient) -> banavoge::FromClient<'_> {
    match packet {
        FromClient::RoutingRequest { key } => {
            banavoge::FromClient::RoutingRequest { key: Key(*key) }
        }
        FromClient::Drop { number } => banavoge::FromClient::DropRoute(ConnectionNumber(*number)),
        FromClient::Ping { id } => banavoge::FromClient::Ping(*id),
        FromClient::Pong { id } => banavoge::FromClient::Pong(*id),
        FromClient::OobSend { key, data } => banavoge::FromClient::OobSend {
            destination: Key(*key),
            payload: data,
        },
        FromClient::Data { number, data } => banavoge::FromClient::Data {
            number: ConnectionNumber(*number),
            payload: data,
        },
    }
}

/// A packet of the relay.
pub fn from_relay(packet: &FromRelay) -> banavoge::FromRelay<'_> {
    match packet {
        FromRelay::RoutingResponse { number, key } => banavoge::FromRelay::RoutingResponse {
            number: ConnectionNumber(*number),
            key: Key(*key),
        },
        FromRelay::Connect { number } => {
            banavoge::FromRelay::ConnectNotification(ConnectionNumber(*number))
        }
        FromRelay::Disconnect { number } => {
            banavoge::FromRelay::DisconnectNotification(ConnectionNumber(*number))
        }
        FromRelay::Ping { id } => banavoge::FromRelay::Ping(*id),
        FromRelay::Pong { id } => banavoge::FromRelay::Pong(*id),
        FromRelay::OobReceived { key, data } => banavoge::FromRelay::OobReceived {
            sender: Key(*key),
            payload: data,
        },
        FromRelay::Data { number, data } => banavoge::FromRelay::Data {
            number: ConnectionNumber(*number),
            payload: data,
        },
    }
}
