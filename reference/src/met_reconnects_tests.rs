//! The cases of reconnects: told apart as they are meant to be.

use std::collections::HashSet;

use super::*;
use crate::call::Call;
use crate::met::CASES;
use crate::met_ticks::TICK_CASES;
use crate::room::Sizes;

const KA: Key = [0x11; 32];
const KB: Key = [0x22; 32];
const KC: Key = [0x33; 32];
const KD: Key = [0x44; 32];

const SMALL: Sizes = Sizes {
    seats: 4,
    numbers: 2,
};

const ALONE: &str = "reconnect without peers";
const PEERS: &str = "reconnect with peers";
const TWO: &str = "reconnect that tells two peers or more";
const FULL: &str = "reconnect in a full room";
const FULL_PEERS: &str = "reconnect in a full room, with peers";
const LOWER: &str = "reconnect into a lower seat";
const LOWER_PEERS: &str = "reconnect into a lower seat, with peers";
const OWN: &str = "reconnect into its own seat";
const TWICE: &str = "reconnect twice in a row";
const OWED: &str = "reconnect with a ping outstanding";
const EARLIER: &str = "reconnect with a ping time before the clock";

fn arrive(key: Key) -> Call {
    Call::Arrive { key }
}

fn leave(seat: u8) -> Call {
    Call::Leave { seat }
}

fn request(seat: u8, key: Key) -> Call {
    let bytes = [&[0], &key[..]].concat();
    Call::Packet { seat, bytes }
}

fn tick(time: u64, ping: u64) -> Call {
    Call::Tick { time, ping }
}

/// KA in seat 0 and KB in seat 1, connected.
fn connected() -> Vec<Call> {
    vec![arrive(KA), arrive(KB), request(0, KB), request(1, KA)]
}

/// The last call behind the others meets just these cases, once each.
fn meets(first: &[Call], last: Call, expected: &[&str]) {
    let mut met = Met::new(SMALL);
    for call in first {
        let _ = met.make(call);
    }
    let before = reconnect_counts(&met);
    let _ = met.make(&last);
    for ((case, now), (_, before)) in reconnect_counts(&met).into_iter().zip(before) {
        let times = usize::from(expected.contains(&case));
        assert_eq!(now - before, times, "{case}");
    }
}

#[test]
fn every_case_is_listed_once() {
    let all = CASES.into_iter().chain(TICK_CASES).chain(RECONNECT_CASES);
    let cases: HashSet<&str> = all.clone().collect();
    assert_eq!(cases.len(), all.count());
}

#[test]
fn peers_are_counted_and_waiting_requests_are_none() {
    meets(&[arrive(KA)], arrive(KA), &[ALONE, OWN]);
    let waiting = [arrive(KA), arrive(KB), request(0, KB)];
    meets(&waiting, arrive(KA), &[ALONE, OWN]);
    meets(&waiting, arrive(KB), &[ALONE, OWN]);
    meets(&connected(), arrive(KA), &[PEERS, OWN]);
    meets(&connected(), arrive(KB), &[PEERS, OWN]);
    let more = [arrive(KC), request(0, KC), request(2, KA)];
    let three = [connected(), more.to_vec()].concat();
    meets(&three, arrive(KA), &[PEERS, TWO, OWN]);
    meets(&three, arrive(KC), &[PEERS, OWN]);
}

#[test]
fn other_arrivals_are_no_reconnects() {
    meets(&[], arrive(KA), &[]);
    meets(&connected(), arrive(KC), &[]);
    meets(&[arrive(KA), leave(0)], arrive(KA), &[]);
    let full = [KA, KB, KC, KD].map(arrive);
    meets(&full, arrive([0x55; 32]), &[]);
}

#[test]
fn full_rooms_and_lower_seats() {
    let full = [connected(), vec![arrive(KC), arrive(KD)]].concat();
    meets(&full, arrive(KC), &[ALONE, FULL, OWN]);
    meets(&full, arrive(KA), &[PEERS, FULL, FULL_PEERS, OWN]);
    let below = [&full[..], &[leave(0)]].concat();
    meets(&below, arrive(KC), &[ALONE, LOWER]);
    let shifted = [arrive(KC), arrive(KA), arrive(KB)];
    let asked = [request(1, KB), request(2, KA), leave(0)];
    let below = [shifted, asked].concat();
    meets(&below, arrive(KB), &[PEERS, LOWER, LOWER_PEERS]);
    let above = [&full[..], &[leave(3)]].concat();
    meets(&above, arrive(KC), &[ALONE, OWN]);
}

#[test]
fn twice_in_a_row_is_without_any_call_between() {
    let twice = [&connected()[..], &[arrive(KA)]].concat();
    meets(&twice, arrive(KA), &[ALONE, OWN, TWICE]);
    meets(&twice, arrive(KB), &[ALONE, OWN]);
    let thrice = [&twice[..], &[arrive(KA)]].concat();
    meets(&thrice, arrive(KA), &[ALONE, OWN, TWICE]);
    // A call between, accepted or refused, and a tick.
    for between in [request(1, KC), leave(9), tick(0, 1), tick(0, 0), arrive(KB)] {
        let calls = [&twice[..], &[between]].concat();
        meets(&calls, arrive(KA), &[ALONE, OWN]);
    }
    // Nor does it reach from one history into the next.
    let mut met = Met::new(SMALL);
    for _ in 0..2 {
        met.begin();
        for _ in 0..2 {
            met.make(&arrive(KA)).unwrap();
        }
    }
    assert_eq!((met.counts()[ALONE], met.counts()[TWICE]), (2, 0));
}

#[test]
fn pings_outstanding_and_earlier_ping_times() {
    let pinged = [arrive(KA), tick(30, 7)];
    meets(&pinged, arrive(KA), &[ALONE, OWN, OWED]);
    let later = [&pinged[..], &[tick(39, 8)]].concat();
    meets(&later, arrive(KA), &[ALONE, OWN, OWED, EARLIER]);
    meets(
        &[arrive(KA), tick(9, 7)],
        arrive(KA),
        &[ALONE, OWN, EARLIER],
    );
    meets(&[tick(9, 7), arrive(KA)], arrive(KA), &[ALONE, OWN]);
}

/// The departure of one that comes back counts for the other cases too.
#[test]
fn those_that_came_back_connect_again() {
    let mut met = Met::new(SMALL);
    let calls = [connected(), vec![arrive(KA), request(0, KB)]].concat();
    for call in &calls {
        met.make(call).unwrap();
    }
    assert_eq!(met.counts()["disconnect by reconnect"], 1);
    assert_eq!(met.counts()["disconnect by leave"], 0);
    assert_eq!(met.counts()["connect"], 2);
    assert_eq!(met.counts()["connect again"], 1);
    assert_eq!(met.counts()["arrival of a key that is asked for"], 1);
    assert_eq!(met.counts()["arrival in another seat"], 0);
    // A request for the own key is repeated only while its client sits.
    let repeated = "request for the own key repeated, empty table";
    for (call, count) in [
        (arrive(KA), 0),
        (request(0, KA), 0),
        (request(0, KA), 1),
        (arrive(KA), 1),
        (request(0, KA), 1),
        (request(0, KA), 2),
    ] {
        met.make(&call).unwrap();
        assert_eq!(met.counts()[repeated], count);
    }
}
