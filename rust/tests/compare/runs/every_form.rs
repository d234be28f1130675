//! A history with answers of every form.

use super::history::History;
use reference::call::Call;
use reference::room::{Room, BASE};

fn key(client: u8) -> [u8; 32] {
    [client; 32]
}

fn packet(seat: u8, kind: u8, rest: &[u8]) -> Call {
    let bytes = [&[kind], rest].concat();
    Call::Packet { seat, bytes }
}

/// Of the empty room: answers that are a head alone, accepted or refused, with
/// each of 3 to 9; with one record, from the shortest to the longest; with three,
/// when two are connected; an arrival of a seated key that tells nobody, and one
/// that tells three peers; and a leave that tells one.
pub fn every_form() -> History {
    let mut calls: Vec<Call> = (0..4).map(|c| Call::Arrive { key: key(c) }).collect();
    calls.push(Call::Arrive { key: key(0) });
    for peer in 1..4 {
        calls.push(packet(0, 0, &key(peer)));
        calls.push(packet(peer, 0, &key(0)));
    }
    calls.push(packet(0, 16, &[0x61]));
    calls.push(packet(2, 6, &[&key(3)[..], &[0x62; 1_024]].concat()));
    calls.push(packet(1, 4, &[0, 0, 0, 0, 0, 0, 0, 9]));
    calls.push(packet(0, 17, &[0x63; 2_031]));
    calls.push(packet(0, 19, &[0x64]));
    calls.push(packet(3, 3, &[16]));
    calls.push(packet(0, 18, &[0x65]));
    calls.push(packet(3, 0, &key(0)));
    calls.push(packet(1, 5, &[0, 0, 0, 0, 0, 0, 0, 9]));
    let (seat, bytes) = (1, Vec::new());
    calls.push(Call::Packet { seat, bytes });
    calls.push(packet(1, 1, &[]));
    calls.push(packet(1, 16, &[]));
    calls.push(packet(1, 4, &[0; 8]));
    calls.push(Call::Arrive { key: key(0) });
    calls.push(packet(0, 0, &key(3)));
    calls.push(Call::Leave { seat: 0 });
    calls.push(Call::Leave { seat: 0 });
    History::new("answers of every form".into(), calls, &Room::empty(BASE))
}

/// How many bytes each answer has: a head of 4, and for each record 3 and its
/// packet.
#[test]
fn the_answers_have_every_form() {
    let history = every_form();
    let lengths: Vec<usize> = history.answers.windows(2).map(|w| w[1] - w[0]).collect();
    let (head, response, told) = (4, 3 + 34, 3 + 2);
    let connected = head + response + 2 * told;
    let mut expected = vec![head; 5];
    expected.extend([head + response, connected].repeat(3));
    expected.extend([
        head + 3 + 2,
        head + 3 + 1_057,
        head + 3 + 9,
        head + 3 + 2_032,
    ]);
    expected.extend([head, head + told, head, connected, head]);
    expected.extend([head; 4]);
    expected.extend([head + 3 * told, connected, head + told, head]);
    assert_eq!(lengths, expected);
}
