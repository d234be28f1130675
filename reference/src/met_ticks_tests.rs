//! The cases of ticks: told apart as they are meant to be.

use super::*;
use crate::call::Call;
use crate::generate::Generator;
use crate::met::{Met, CASES};
use crate::room::{Sizes, BASE};

const KA: Key = [0x11; 32];
const KB: Key = [0x22; 32];
const KC: Key = [0x33; 32];

const SMALL: Sizes = Sizes {
    seats: 3,
    numbers: 2,
};

fn arrive(key: Key) -> Call {
    Call::Arrive { key }
}

fn request(seat: u8, key: Key) -> Call {
    let bytes = [&[0], &key[..]].concat();
    Call::Packet { seat, bytes }
}

fn pong(seat: u8, id: u64) -> Call {
    let bytes = [&[5], &id.to_be_bytes()[..]].concat();
    Call::Packet { seat, bytes }
}

fn tick(time: u64, ping: u64) -> Call {
    Call::Tick { time, ping }
}

/// KA in seat 0 and KB in seat 1, connected.
fn connected() -> Vec<Call> {
    vec![arrive(KA), arrive(KB), request(0, KB), request(1, KA)]
}

/// The calls behind `first` meet just these cases, so often.
fn meets(first: &[Call], calls: &[Call], expected: &[(&str, usize)]) {
    let mut met = Met::new(BASE);
    for call in first {
        met.make(call).unwrap();
    }
    let before = met.tick_counts().clone();
    for call in calls {
        let _ = met.make(call);
    }
    let after = met.tick_counts().iter();
    let more: Vec<(&str, usize)> = after
        .map(|(case, count)| (*case, count - before[case]))
        .filter(|(_, count)| *count > 0)
        .collect();
    let mut expected = expected.to_vec();
    expected.sort_unstable();
    assert_eq!(more, expected);
}

#[test]
fn every_case_is_listed_once() {
    let all = CASES.into_iter().chain(TICK_CASES);
    let cases: HashSet<&str> = all.collect();
    assert_eq!(cases.len(), CASES.len() + TICK_CASES.len());
}

#[test]
fn pings_and_their_grounds() {
    let two = [arrive(KA), arrive(KB)];
    let early = [("not pinged since too early", 2)];
    meets(&two, &[tick(28, 7)], &with(&early, &[IDLE]));
    let edge = [("not pinged at 29 seconds", 2)];
    let early_at_29 = [&early[..], &edge].concat();
    meets(&two, &[tick(29, 7)], &with(&early_at_29, &[IDLE]));
    let pinged = [("pinged", 2), ("pinged at 30 seconds", 2)];
    meets(&two, &[tick(30, 7)], &pinged);
    let later = [("pinged", 2), ("pinged later than at 30 seconds", 2)];
    meets(&two, &[tick(31, 7)], &later);
    let owing = [&two[..], &[tick(30, 7)]].concat();
    let owed = [("not pinged since one is outstanding", 2)];
    meets(&owing, &[tick(38, 8)], &with(&owed, &[IDLE]));
    let edge = [("not put out at 9 seconds", 2)];
    let owed_at_9 = [&owed[..], &edge].concat();
    meets(&owing, &[tick(39, 8)], &with(&owed_at_9, &[IDLE]));
}

const IDLE: (&str, usize) = ("tick that does neither", 1);

/// These cases and those.
fn with<'a>(cases: &[(&'a str, usize)], more: &[(&'a str, usize)]) -> Vec<(&'a str, usize)> {
    [cases, more].concat()
}

#[test]
fn departures_with_peers_and_without() {
    let pinged = [&connected()[..], &[tick(30, 7)]].concat();
    let both = [
        ("put out with peers", 2),
        ("put out at 10 seconds", 2),
        ("two connected clients put out by one tick", 1),
        ("notice to a seat that the same tick empties", 1),
        ("all put out by one tick", 1),
    ];
    meets(&pinged, &[tick(40, 8)], &both);

    let alone = [arrive(KA), tick(30, 7)];
    let gone = [
        ("put out without peers", 1),
        ("put out later than at 10 seconds", 1),
    ];
    meets(&alone, &[tick(41, 8)], &gone);
    let spoken = [&alone[..], &[request(0, KB)]].concat();
    let spoke = [("put out though it sent packets since its ping", 1)];
    meets(&spoken, &[tick(41, 8)], &with(&gone, &spoke));
    // What was sent before the ping is none of these.
    let earlier = [arrive(KA), request(0, KB), tick(30, 7)];
    meets(&earlier, &[tick(41, 8)], &gone);
}

#[test]
fn notices_to_the_lower_and_to_the_higher_seat_that_stays() {
    for (stays, case) in [
        (0, "notice to a lower seat that stays"),
        (1, "notice to a higher seat that stays"),
    ] {
        let answered = [&connected()[..], &[tick(30, 7), pong(stays, 7)]].concat();
        let gone = [("put out with peers", 1), (case, 1)];
        let cases = [
            ("put out at 10 seconds", 1),
            ("not pinged since too early", 1),
        ];
        meets(&answered, &[tick(40, 8)], &with(&gone, &cases));
        let cases = [
            ("put out later than at 10 seconds", 1),
            ("pinged", 1),
            ("pinged at 30 seconds", 1),
            ("tick that puts out and pings", 1),
            ("tick that puts out and pings, with notices", 1),
        ];
        meets(&answered, &[tick(60, 8)], &with(&gone, &cases));
    }
}

#[test]
fn pongs_of_every_sort() {
    // Seat 0 owes 7 and seat 1 owes 8.
    let owing = [arrive(KA), tick(5, 1), arrive(KB), tick(30, 7), tick(35, 8)];
    meets(&owing, &[pong(0, 7)], &[("cleared by a pong", 1)]);
    meets(&owing, &[pong(0, 8)], &[("pong of another's number", 1)]);
    meets(&owing, &[pong(1, 7)], &[("pong of another's number", 1)]);
    meets(&owing, &[pong(0, 1)], &[("pong of a wrong number", 1)]);
    meets(&owing, &[pong(2, 7)], &[]);
    let cleared = [&owing[..], &[pong(0, 7), pong(1, 8)]].concat();
    let late = [
        ("pong late", 1),
        ("pong late, none outstanding", 1),
        ("pong with none outstanding", 1),
    ];
    meets(&cleared, &[pong(0, 7)], &late);
    meets(
        &cleared,
        &[pong(0, 8)],
        &[("pong with none outstanding", 1)],
    );
    // Seat 0 is pinged anew, under 30 seconds after its pong.
    let pinged = [
        ("pinged", 1),
        ("pinged at 30 seconds", 1),
        ("pinged under 30 seconds after its pong", 1),
        ("not pinged since too early", 1),
    ];
    meets(&cleared, &[tick(60, 9)], &pinged);
    let replaced = [&cleared[..], &[tick(60, 9)]].concat();
    let late = [("pong late", 1), ("pong late, another outstanding", 1)];
    meets(&replaced, &[pong(0, 7)], &late);
}

#[test]
fn arrivals_and_leaves_between_ticks() {
    let idle = [
        IDLE,
        ("not pinged since too early", 1),
        ("tick with the same time", 1),
    ];
    let arrived = [&idle[..], &[("arrival between two ticks", 1)]].concat();
    meets(&[arrive(KA)], &[tick(0, 7)], &idle);
    meets(&[tick(0, 7), arrive(KA)], &[tick(0, 7)], &arrived);
    meets(&[tick(0, 7), arrive(KA), tick(0, 7)], &[tick(0, 7)], &idle);
    // A refused tick is none.
    let refused = [("tick refused with 7", 1)];
    meets(&[], &[tick(0, 0), arrive(KA)], &refused);

    let emptied = [arrive(KA), tick(30, 7), tick(40, 8)];
    let again = [("arrival in a seat that a tick emptied", 1)];
    meets(&emptied, &[arrive(KB), arrive(KC)], &again);
    let leave = Call::Leave { seat: 0 };
    meets(&[arrive(KA)], &[leave.clone(), arrive(KB)], &[]);
    let owed = [("leave with a ping outstanding", 1)];
    meets(&[arrive(KA), tick(30, 7)], &[leave, arrive(KB)], &owed);
}

#[test]
fn times_and_refusals() {
    let at_60 = [tick(60, 7)];
    let idle = |case| vec![IDLE, (case, 1)];
    meets(&at_60, &[tick(60, 8)], &idle("tick with the same time"));
    meets(&at_60, &[tick(59, 8)], &[("tick refused with 19", 1)]);
    meets(&at_60, &[tick(61, 0)], &[("tick refused with 7", 1)]);
    let both = [
        ("tick refused with 7", 1),
        ("tick refused with 7, of a time before the clock", 1),
    ];
    meets(&at_60, &[tick(59, 0)], &both);
    let earlier = [
        IDLE,
        ("tick refused with 7", 1),
        ("tick before the time of one refused with 7", 1),
    ];
    meets(&at_60, &[tick(90, 0), tick(89, 8)], &earlier);
    let last = u64::MAX;
    let at_last = "tick at the last second of 64 bits";
    meets(&at_60, &[tick(last, 8)], &idle(at_last));
    let from_last = [
        IDLE,
        (at_last, 1),
        ("tick from the last second of 64 bits", 1),
        ("tick with the same time", 1),
    ];
    meets(&[tick(last, 7)], &[tick(last, 8)], &from_last);
}

#[test]
fn the_largest_tick_goes_on_over_histories() {
    let mut met = Met::new(SMALL);
    for call in connected().iter().chain(&[tick(30, 7)]) {
        met.make(call).unwrap();
    }
    assert_eq!(met.largest_tick(), 24);
    met.make(&tick(40, 8)).unwrap();
    assert_eq!(met.largest_tick(), 24);
    met.begin();
    assert_eq!(met.largest_tick(), 24);
    for key in [KA, KB, KC] {
        met.make(&arrive(key)).unwrap();
    }
    met.make(&tick(30, 7)).unwrap();
    assert_eq!(met.largest_tick(), 36);
}

#[test]
fn nothing_is_remembered_from_one_history_in_the_next() {
    let mut met = Met::new(SMALL);
    for call in [arrive(KA), tick(30, 7), tick(40, 8), tick(90, 0)] {
        let _ = met.make(&call);
    }
    met.begin();
    let before = met.tick_counts().clone();
    for call in [arrive(KA), pong(0, 7), tick(1, 8)] {
        met.make(&call).unwrap();
    }
    let mut expected = before.clone();
    for case in [
        "pong with none outstanding",
        "not pinged since too early",
        IDLE.0,
    ] {
        *expected.get_mut(case).unwrap() += 1;
    }
    assert_eq!(*met.tick_counts(), expected);
}

/// Those that a tick puts out are away for the other cases too.
#[test]
fn clients_that_were_put_out_connect_again() {
    let mut met = Met::new(SMALL);
    let out = [tick(30, 7), pong(1, 7), tick(40, 8)];
    for call in connected().iter().chain(&out) {
        met.make(call).unwrap();
    }
    for call in [arrive(KC), arrive(KA), request(2, KB)] {
        met.make(&call).unwrap();
    }
    assert_eq!(met.counts()["connect"], 2);
    assert_eq!(met.counts()["connect again"], 1);
    assert_eq!(met.counts()["arrival in another seat"], 1);
    assert_eq!(met.counts()["arrival of a key that is asked for"], 1);
    assert_eq!(met.counts()["disconnect by leave"], 0);
}

/// The cases add up, each told in its own way.
#[test]
fn the_cases_of_ticks_add_up() {
    for sizes in [BASE, SMALL] {
        let mut met = Met::new(sizes);
        let (mut ticks, mut pings, mut notices) = (0, 0, 0);
        for seed in 0..10 {
            met.begin();
            for call in Generator::with_ticks(seed, sizes).take(2_000) {
                let answer = met.make(&call);
                let (Call::Tick { .. }, Ok(accepted)) = (call, answer) else {
                    continue;
                };
                let kind = |kind: u8| {
                    let all = accepted.records.iter();
                    all.filter(|sent| sent.packet[0] == kind).count()
                };
                ticks += 1;
                pings += kind(4);
                notices += kind(3);
                assert_eq!(kind(3) + kind(4), accepted.records.len());
            }
        }
        let of = |case: &str| met.tick_counts()[case];
        let pairs = of("two connected clients put out by one tick");
        assert_eq!(pairs, of("notice to a seat that the same tick empties"));
        let lower = of("notice to a lower seat that stays");
        let higher = of("notice to a higher seat that stays");
        assert_eq!(pairs + lower + higher, notices);
        assert_eq!(of("pinged"), pings);
        let pinged = of("pinged at 30 seconds") + of("pinged later than at 30 seconds");
        assert_eq!(pinged, pings);
        let put_out = of("put out with peers") + of("put out without peers");
        let by_age = of("put out at 10 seconds") + of("put out later than at 10 seconds");
        assert_eq!(put_out, by_age);
        let late = of("pong late, none outstanding") + of("pong late, another outstanding");
        assert_eq!(late, of("pong late"));
        let pongs = of("cleared by a pong") + of("pong with none outstanding");
        assert!(pongs <= met.counts()["pong"]);
        assert!(of("tick that does neither") < ticks);
    }
}

/// A history without ticks meets none of these cases but pongs that clear nothing.
#[test]
fn histories_without_ticks_meet_no_case_of_ticks() {
    let mut met = Met::new(BASE);
    for call in Generator::new(1, BASE).take(3_000) {
        let _ = met.make(&call);
    }
    for (case, count) in met.tick_counts() {
        let pong = *case == "pong with none outstanding";
        assert_eq!(*count > 0, pong, "{case}");
    }
    assert_eq!(met.largest_tick(), 0);
}
