//! The writers of both ends.

use crate::harness::{used, Harness};
use crate::packets::{client_packets, relay_packets, Sample};
use crate::table::{Row, Table};
use banavoge::raw::writers;
use reference::packet::{write_from_client, write_from_relay};
use reference::packet::{FromClient, FromRelay, LONGEST_PACKET};
use std::hint::black_box;

/// Writes in a turn.
const WRITES: usize = 1_024;

pub fn table(harness: &mut Harness) -> Table {
    let mut rows = Vec::new();
    for sample in client_packets() {
        let end = "client writes";
        rows.push(row(harness, end, &sample, from_client, write_from_client));
    }
    for sample in relay_packets() {
        let end = "relay writes";
        rows.push(row(harness, end, &sample, from_relay, write_from_relay));
    }
    Table {
        title: "Writers",
        words: "One packet written. The second program makes the packet, reads it back to judge \
                it, and copies it to the output.",
        rows_are: "packet",
        sides: &["library", "second program"],
        same_tests: 1,
        rows,
    }
}

/// One packet, written again and again.
fn row<P>(
    harness: &mut Harness,
    end: &str,
    sample: &Sample<P>,
    library: fn(&P, &mut [u8]) -> i32,
    second: fn(&P, &mut [u8]) -> Result<usize, u8>,
) -> Row {
    let mut out = [0; LONGEST_PACKET];
    let count = library(&sample.packet, &mut out);
    assert_eq!(usize::try_from(count), Ok(sample.bytes.len()));
    assert!(out.starts_with(&sample.bytes));

    let mut other = out;
    let mut by_library = || {
        for _ in 0..WRITES {
            used(&library(black_box(&sample.packet), black_box(&mut out)));
        }
    };
    let mut by_second = || {
        for _ in 0..WRITES {
            used(&second(black_box(&sample.packet), black_box(&mut other)));
        }
    };
    let times = harness.measure(WRITES, &mut [&mut by_library, &mut by_second]);
    Row::new(format!("{end}: {}", sample.name), times)
}

/// The library's writer for a packet of the client.
fn from_client(packet: &FromClient, out: &mut [u8]) -> i32 {
    match packet {
        FromClient::RoutingRequest { key } => writers::routing_request(key, out),
        FromClient::Drop { number } => writers::drop_route(*number, out),
        FromClient::Ping { id } => writers::ping(*id, out),
        FromClient::Pong { id } => writers::pong(*id, out),
        FromClient::OobSend { key, data } => writers::oob_send(key, data, out),
        FromClient::Data { number, data } => writers::data(*number, data, out),
    }
}

/// The library's writer for a packet of the relay.
fn from_relay(packet: &FromRelay, out: &mut [u8]) -> i32 {
    match packet {
        FromRelay::RoutingResponse { number, key } => writers::routing_response(*number, key, out),
        FromRelay::Connect { number } => writers::connect_notification(*number, out),
        FromRelay::Disconnect { number } => writers::disconnect_notification(*number, out),
        FromRelay::Ping { id } => writers::ping(*id, out),
        FromRelay::Pong { id } => writers::pong(*id, out),
        FromRelay::OobReceived { key, data } => writers::oob_received(key, data, out),
        FromRelay::Data { number, data } => writers::data(*number, data, out),
    }
}
