//! Each case of a reconnect, with what it must come to.

use super::scene::{arrival, client, told, Scene};
use crate::relay::refused;
use reference::room::{BASE, LEAST_OUTPUT};

const SEATS: u8 = BASE.seats as u8;

/// The bytes of a routing response, and of two connect notifications behind it.
const CONNECTED: usize = 37 + 5 + 5;

#[test]
fn without_peers_nobody_is_told() {
    let mut scene = Scene::of(1);
    assert_eq!(scene.comes_back(0), (0, vec![]));

    // Its own requests wait, and others wait for it.
    let mut scene = Scene::of(3);
    scene.asks(1, 0);
    scene.asks(1, 9);
    scene.asks(2, 1);
    assert_eq!(scene.comes_back(1), (1, vec![]));
    let room = scene.room();
    let back = room.client(1).expect("a taken seat");
    assert!(back.routes.iter().all(Option::is_none));
    let waits = room.client(2).expect("a taken seat");
    assert_eq!(waits.number_for(&client(1)), Some(16));
}

/// Peers are told in the rising numbers of the one that comes back, each under
/// its own number, and their requests stand.
#[test]
fn peers_are_told_and_go_on_waiting() {
    let mut scene = Scene::of(5);
    for (asker, wanted) in [(2, 4), (2, 1), (2, 0), (2, 3)] {
        scene.asks(asker, wanted);
    }
    for (asker, wanted) in [(0, 8), (0, 9), (0, 2), (3, 2), (4, 9), (4, 2)] {
        scene.asks(asker, wanted);
    }
    let sent = [told(4, 17), told(0, 18), told(3, 16)].concat();
    assert_eq!(scene.comes_back(2), (2, sent));

    for peer in [0, 3, 4] {
        assert_eq!(scene.asks(2, peer), CONNECTED, "client {peer}");
    }
    let sent = [told(0, 18), told(3, 16), told(4, 17)].concat();
    assert_eq!(scene.comes_back(2), (2, sent));
}

/// All numbers of a client are connected: no reconnect sends more.
#[test]
fn all_peers_of_a_full_table_are_told() {
    for back in [0, 20, 39] {
        let mut scene = Scene::of(SEATS);
        let others = (0..SEATS).filter(|other| *other != back);
        let peers: Vec<u8> = others.rev().take(BASE.numbers).collect();
        for peer in &peers {
            scene.connect(back, *peer);
        }
        let sent = peers.iter().map(|peer| told(*peer, 16));
        let sent = sent.collect::<Vec<_>>().concat();
        assert_eq!(sent.len(), 160);
        assert_eq!(scene.comes_back(back), (back, sent));
    }
}

/// All seats are taken: a key that is seated is never refused with 1, and one that
/// is not seated always is.
#[test]
fn in_a_full_room_only_a_key_that_is_not_seated_is_refused() {
    let mut scene = Scene::of(SEATS);
    for number in 0..SEATS {
        scene.connect(number, (number + 1) % SEATS);
    }
    let length = scene.memory.lent().len();
    for number in 0..SEATS {
        refused(&arrival(SEATS), &scene.memory, length, LEAST_OUTPUT, 1);
        let (seat, sent) = scene.comes_back(number);
        assert_eq!(seat, number);
        // Those before it have lost their routes to it by coming back themselves.
        let peers = match number {
            0 => 2,
            39 => 0,
            _ => 1,
        };
        assert_eq!(sent.len(), 5 * peers, "client {number}");
    }
    refused(&arrival(SEATS), &scene.memory, length, LEAST_OUTPUT, 1);
}

/// The seat is the lowest that is empty after the leave: one below the old seat
/// where there is one, else the old seat itself. All pairs of seats.
#[test]
fn the_seat_is_the_lowest_empty_one() {
    let full = Scene::of(SEATS);
    for empty in 0..SEATS {
        let mut scene = full.clone();
        scene.leaves(empty);
        for number in (0..SEATS).filter(|number| *number != empty) {
            let mut scene = scene.clone();
            let (seat, sent) = scene.comes_back(number);
            assert_eq!((seat, sent), (number.min(empty), vec![]));
            let left = number.max(empty);
            assert!(scene.room().client(usize::from(left)).is_none());
            // The next that arrives takes the seat that is left.
            assert_eq!(scene.accepted(&arrival(SEATS)).seat, left);
        }
    }
}

/// Into a lower seat, with a peer; then into its own seat, with nobody to tell.
#[test]
fn twice_in_a_row_the_peers_are_told_once() {
    let mut scene = Scene::of(6);
    scene.leaves(0);
    scene.leaves(3);
    scene.connect(5, 1);
    scene.connect(2, 5);
    let sent = [told(1, 16), told(2, 16)].concat();
    assert_eq!(scene.comes_back(5), (0, sent));
    assert!(scene.room().client(5).is_none());
    assert_eq!(scene.comes_back(5), (0, vec![]));
    assert_eq!(scene.comes_back(4), (3, vec![]));
    assert_eq!(scene.comes_back(4), (3, vec![]));
}

/// The ping time of the client in a seat, and its ping not yet answered or 0.
fn pings(scene: &Scene, seat: usize) -> (u64, u64) {
    let room = scene.room();
    let client = room.client(seat).expect("a taken seat");
    (client.ping_time, client.outstanding)
}

/// The ping that the client left unanswered is gone: it counts as pinged at the
/// clock, and a pong with the old number answers nothing.
#[test]
fn an_outstanding_ping_does_not_come_back() {
    let mut scene = Scene::of(3);
    scene.connect(0, 1);
    scene.tick(30, 7);
    scene.tick(35, 8);
    assert_eq!(pings(&scene, 1), (30, 7));
    assert_eq!(scene.comes_back(1), (1, told(0, 16).to_vec()));
    assert_eq!(pings(&scene, 1), (35, 0));
    scene.pong(1, 7);
    assert_eq!(pings(&scene, 1), (35, 0));

    // The others have not answered, and are put out.
    scene.tick(40, 9);
    assert_eq!(scene.room().seats.iter().flatten().count(), 1);
    scene.tick(64, 10);
    assert_eq!(pings(&scene, 1), (35, 0));
    scene.tick(65, 11);
    assert_eq!(pings(&scene, 1), (65, 11));

    // Once more, and into a lower seat.
    scene.tick(70, 12);
    assert_eq!(scene.comes_back(1), (0, vec![]));
    assert_eq!(pings(&scene, 0), (70, 0));
}
