//! The made-up histories meet what they are meant to meet, and the second
//! program keeps its own rules on them.

use std::collections::BTreeMap;

use super::*;
use crate::memory;
use crate::met::Met;
use crate::packet::client_read;
use crate::play::{answer_bytes, play, Why};
use crate::record::{self, Record};
use crate::room::{Accepted, LEAST_OUTPUT};

pub(super) const SMALL: Sizes = Sizes {
    seats: 5,
    numbers: 3,
};

/// Two histories: without ticks, and with them.
pub(super) fn both_histories(seed: u64, sizes: Sizes) -> [Generator; 2] {
    [
        Generator::new(seed, sizes),
        Generator::with_ticks(seed, sizes),
    ]
}

fn is_tick(call: &Call) -> bool {
    matches!(call, Call::Tick { .. })
}

#[test]
fn a_seed_fixes_a_history_and_seeds_differ() {
    assert_eq!(history(5, 2_000), history(5, 2_000));
    assert_ne!(history(5, 2_000), history(6, 2_000));
    assert_eq!(history(5, 2_000)[..700], history(5, 700));
    let (five, six) = (history_with_ticks(5, 2_000), history_with_ticks(6, 2_000));
    assert_eq!(five, history_with_ticks(5, 2_000));
    assert_ne!(five, six);
    assert_eq!(five[..700], history_with_ticks(5, 700));
}

#[test]
fn ticks_are_in_histories_with_ticks_alone() {
    for seed in 0..10 {
        assert!(!history(seed, 2_000).iter().any(is_tick));
        let with_ticks = history_with_ticks(seed, 2_000);
        let ticks = with_ticks.iter().filter(|call| is_tick(call)).count();
        assert!((50..1_000).contains(&ticks), "{ticks}");
    }
}

#[test]
fn keys_differ() {
    for seed in 0..20 {
        let keys = keys(&mut Random::new(seed), 80);
        assert_eq!(keys.len(), 80);
        assert!((0..80).all(|place| !keys[..place].contains(&keys[place])));
    }
}

/// 300,000 calls meet each case at least 50 times.
#[test]
fn every_case_is_met() {
    let mut met = Met::new(BASE);
    for seed in 0..100 {
        met.begin();
        for call in Generator::new(seed, BASE).take(3_000) {
            let _ = met.make(&call);
        }
    }
    for (case, count) in met.counts() {
        println!("{count:>8} {case}");
    }
    at_least(50, met.counts());
}

/// Small rooms meet every case sooner, and have other sizes.
#[test]
fn every_case_is_met_in_small_rooms() {
    let mut met = Met::new(SMALL);
    for seed in 0..60 {
        met.begin();
        for call in Generator::new(seed, SMALL).take(2_000) {
            let _ = met.make(&call);
        }
    }
    at_least(10, met.counts());
}

/// 300,000 calls with ticks among them meet each case at least 50 times, those of
/// ticks and the others.
#[test]
fn every_case_is_met_with_ticks() {
    let met = met_with_ticks(BASE, 100, 3_000);
    for (case, count) in met.tick_counts() {
        println!("{count:>8} {case}");
    }
    println!("{:>8} bytes of the longest tick", met.largest_tick());
    at_least(50, met.tick_counts());
    at_least(50, met.counts());
    // No tick of this room writes more than 3,296.
    assert!((3_000..=3_296).contains(&met.largest_tick()));
}

#[test]
fn every_case_is_met_with_ticks_in_small_rooms() {
    let met = met_with_ticks(SMALL, 80, 2_000);
    at_least(10, met.tick_counts());
    at_least(10, met.counts());
}

/// What so many histories with ticks meet, each of so many calls.
fn met_with_ticks(sizes: Sizes, seeds: u64, calls: usize) -> Met {
    let mut met = Met::new(sizes);
    for seed in 0..seeds {
        met.begin();
        for call in Generator::with_ticks(seed, sizes).take(calls) {
            let _ = met.make(&call);
        }
    }
    met
}

fn at_least(least: usize, counts: &BTreeMap<&'static str, usize>) {
    for (case, count) in counts {
        assert!(*count >= least, "{case}: {count}");
    }
}

/// The accepted ticks move the clock by each of the steps told, and by much; some
/// histories come to the last second of 64 bits, and more do not.
#[test]
fn the_clock_moves_by_every_step() {
    let mut steps = BTreeMap::new();
    let mut ended = 0;
    for seed in 0..60 {
        let mut room = Room::empty(BASE);
        for call in history_with_ticks(seed, 3_000) {
            let clock = room.clock;
            let accepted = call.make(&mut room, call.least_output()).is_ok();
            if accepted && is_tick(&call) {
                *steps.entry(room.clock - clock).or_insert(0) += 1;
            }
        }
        ended += usize::from(room.clock == u64::MAX);
    }
    for step in [0, 1, 2, 3, 4, 5, 6, 7, 8, 9, 10, 11, 29, 30, 31, 86_400] {
        let count = steps.get(&step).copied().unwrap_or(0);
        assert!(count > 30, "{step}: {count}");
    }
    assert!((8..=22).contains(&ended), "{ended}");
}

/// A refused call leaves the room as it was; an accepted one leaves it whole,
/// writes no more than the least output, and sends packets that the client's
/// reader takes to seats that are taken, or that it empties.
#[test]
fn the_room_keeps_its_rules() {
    for seed in 0..10 {
        for history in both_histories(1_000 + seed, BASE) {
            let mut room = Room::empty(BASE);
            for call in history.take(1_500) {
                let before = room.clone();
                match call.make(&mut room, call.least_output()) {
                    Err(_) => assert_eq!(room, before),
                    Ok(accepted) => keeps_its_rules(&call, &accepted, &before, &room),
                }
            }
        }
    }
}

fn keeps_its_rules(call: &Call, accepted: &Accepted, before: &Room, after: &Room) {
    assert!(after.whole());
    assert!(record::bytes(&accepted.records).len() <= call.least_output());
    for record in &accepted.records {
        // A tick may tell a client of which it empties the seat next.
        let told_before = is_tick(call) && record.packet[0] == 3;
        let room = if told_before { before } else { after };
        assert!(room.client(record.seat).is_some());
        assert!(client_read(&record.packet).is_ok());
    }
    match call {
        Call::Tick { time, .. } => assert_eq!(after.clock, *time),
        _ => assert_eq!(after.clock, before.clock),
    }
}

/// A tick comes to the leaves of those that it puts out, in rising seat order, and
/// then to its pings.
#[test]
fn a_tick_is_its_leaves_and_then_its_pings() {
    let (mut notices, mut pings) = (0, 0);
    for seed in 0..40 {
        let mut room = Room::empty(BASE);
        for call in Generator::with_ticks(7_000 + seed, BASE).take(2_000) {
            let mut by_rule = room.clone();
            let answer = call.make(&mut room, call.least_output());
            let (Call::Tick { time, ping }, Ok(accepted)) = (call, answer) else {
                continue;
            };
            let told = leaves_at(&mut by_rule, time);
            let pinged = pings_at(&mut by_rule, time, ping);
            by_rule.clock = time;
            notices += told.len();
            pings += pinged.len();
            assert_eq!(accepted.records, [told, pinged].concat());
            assert_eq!(room, by_rule);
        }
    }
    assert!(notices > 500 && pings > 2_000, "{notices} {pings}");
}

/// The leaves that this time brings about, one after the other.
fn leaves_at(room: &mut Room, time: u64) -> Vec<Record> {
    let mut records = Vec::new();
    for seat in 0..room.seats.len() {
        let Some(client) = room.client(seat) else {
            continue;
        };
        if client.outstanding != 0 && time - client.ping_time >= 10 {
            let accepted = room.leave(seat, LEAST_OUTPUT).unwrap();
            records.extend(accepted.records);
        }
    }
    records
}

/// The pings that this time brings about.
fn pings_at(room: &mut Room, time: u64, ping: u64) -> Vec<Record> {
    let mut records = Vec::new();
    for (seat, client) in room.seats.iter_mut().enumerate() {
        let Some(client) = client else { continue };
        if client.outstanding == 0 && time - client.ping_time >= 30 {
            (client.ping_time, client.outstanding) = (time, ping);
            let packet = [&[4], &ping.to_be_bytes()[..]].concat();
            records.push(Record { seat, packet });
        }
    }
    records
}

/// "where the clock moves by at most one second a tick, a client that never
/// answers is gone when the clock is 40 past its latest arrival". Clients that are
/// so far within these terms sit at 39 at times, and go at 40.
#[test]
fn silent_clients_are_gone_at_40_seconds_past_their_arrival() {
    let (mut at_39, mut gone_at_40) = (0, 0);
    for seed in 0..40 {
        let mut room = Room::empty(BASE);
        // The clock at its arrival, by the seat of each client within these terms.
        let mut arrivals: BTreeMap<usize, u64> = BTreeMap::new();
        for call in Generator::with_ticks(8_000 + seed, BASE).take(2_000) {
            let before = room.clone();
            let answer = call.make(&mut room, call.least_output());
            let Ok(accepted) = answer else { continue };
            match &call {
                Call::Arrive { .. } => {
                    arrivals.insert(accepted.seat, room.clock);
                }
                Call::Tick { time, .. } if time - before.clock > 1 => arrivals.clear(),
                Call::Packet { bytes, .. } if bytes[0] == 5 => {
                    let seat = accepted.seat;
                    if room.client(seat) != before.client(seat) {
                        arrivals.remove(&seat);
                    }
                }
                _ => {}
            }
            for (seat, arrival) in &arrivals {
                let since = room.clock - arrival;
                let sits = room.client(*seat).is_some();
                let sat = before.client(*seat).is_some();
                assert!(!sits || since < 40);
                at_39 += usize::from(sits && since == 39);
                gone_at_40 += usize::from(is_tick(&call) && sat && !sits && since == 40);
            }
            arrivals.retain(|seat, _| room.client(*seat).is_some());
        }
    }
    assert!(at_39 > 100 && gone_at_40 > 100, "{at_39} {gone_at_40}");
}

/// The own room of the generator is the one that its calls lead to.
#[test]
fn the_generator_sees_the_room_of_its_history() {
    for mut generator in both_histories(3, BASE) {
        let mut room = Room::empty(BASE);
        for _ in 0..2_000 {
            let call = generator.next().unwrap();
            let _ = call.make(&mut room, call.least_output());
            assert_eq!(generator.room(), &room);
        }
    }
}

/// A replay of the stored history comes to what its calls come to one by one.
#[test]
fn a_replay_is_the_calls_one_by_one() {
    for seed in 0..20 {
        let mut room = Room::empty(BASE);
        let mut output = Vec::new();
        for call in history(seed, 2_000) {
            output.extend(answer_bytes(&call.make(&mut room, LEAST_OUTPUT)));
        }
        let stored = stored_history(seed, 2_000);
        let mut replayed = Room::empty(BASE);
        let out_len = output.len() + 4 + LEAST_OUTPUT;
        let played = play(&mut replayed, &stored, 2_000, out_len);
        assert_eq!((played.calls, played.read), (2_000, stored.len()));
        assert_eq!(played.why, Why::End);
        assert!(played.output == output);
        assert!(replayed == room);
    }
}

/// Every room of a history is read back from its memory.
#[test]
fn rooms_are_read_back_from_memory() {
    for seed in 0..4 {
        for mut generator in both_histories(2_000 + seed, BASE) {
            for _ in 0..200 {
                generator.by_ref().take(10).for_each(drop);
                let memory = memory::encode(generator.room());
                assert!(memory::whole(&memory));
                assert!(memory::decode(&memory).as_ref() == Some(generator.room()));
            }
        }
    }
}

/// A room of a history is whole no more once a seat was pinged after the clock.
#[test]
fn rooms_with_a_ping_time_after_the_clock_are_not_whole() {
    let mut random = Random::new(8);
    let mut met = 0;
    for seed in 0..4 {
        let mut generator = Generator::with_ticks(9_000 + seed, BASE);
        for _ in 0..100 {
            generator.by_ref().take(20).for_each(drop);
            let mut room = generator.room().clone();
            let seat = random.one_of(&generator.taken());
            let (Some(seat), Some(after)) = (seat, room.clock.checked_add(1)) else {
                continue;
            };
            room.seats[seat].as_mut().expect("a taken seat").ping_time = after;
            assert!(!room.whole());
            assert!(!memory::whole(&memory::encode(&room)));
            met += 1;
        }
    }
    assert!(met > 200, "{met}");
}

/// A room of a history is whole no more once a seat names its own key.
#[test]
fn rooms_with_a_route_for_the_own_key_are_not_whole() {
    let mut random = Random::new(7);
    for seed in 0..4 {
        let mut generator = Generator::new(3_000 + seed, BASE);
        for _ in 0..100 {
            generator.by_ref().take(20).for_each(drop);
            let mut room = generator.room().clone();
            let Some(seat) = random.one_of(&generator.taken()) else {
                continue;
            };
            let client = room.seats[seat].as_mut().expect("a taken seat");
            client.routes[random.below(32)] = Some(client.key);
            assert!(!room.whole());
            assert!(!memory::whole(&memory::encode(&room)));
        }
    }
}
