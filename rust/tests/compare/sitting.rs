//! Who sits where, asked of a room in lent memory, against the second program's
//! room: every seat of a byte, and the keys of a history.

use crate::generator::Generator;
use crate::memory::{damage, memory_of, Damage, DAMAGES};
use crate::outcome::make;
use crate::output::Output;
use crate::relay::empty_room;
use crate::tally::{say, Tally};
use banavoge::raw::sitting;
use reference::call::Call;
use reference::generate::Generator as Histories;
use reference::key::Key;
use reference::memory;
use reference::room::{Room, BASE, LEAST_TICK_OUTPUT};

/// What the second program answers for a seat: 11 for no whole room, 3 for a
/// seat that is empty or above the last.
fn key_expected(room: Option<&Room>, seat: u8) -> Result<Key, u8> {
    let client = room.ok_or(11)?.client(usize::from(seat));
    client.map(|client| client.key).ok_or(3)
}

/// The same for a key: 3 where it does not sit in the room.
fn seat_expected(room: Option<&Room>, key: &Key) -> Result<usize, u8> {
    room.ok_or(11)?.seat_of(key).ok_or(3)
}

/// Asks for the key in a seat. A refusal sets no byte; nothing around the key is
/// ever set.
fn key_in(memory: &[u8], seat: u8) -> Result<Key, u8> {
    let mut key = Output::new(32, seat);
    let before = key.clone();
    let lent: &mut Key = key.lent().try_into().expect("32 bytes");
    let answer = sitting::key_in(memory, seat, lent);
    let found = *lent;
    if answer < 0 {
        assert!(key == before, "seat {seat}: the key was set");
        return Err(-answer as u8);
    }
    assert_eq!(answer, 0, "seat {seat}");
    assert!(key.around(32) == before.around(32), "seat {seat}");
    Ok(found)
}

fn seat_of(memory: &[u8], key: &Key) -> Result<usize, u8> {
    let answer = sitting::seat_of(memory, key);
    usize::try_from(answer).map_err(|_| -answer as u8)
}

/// Asks for every seat of a byte and for these keys, and fails where the second
/// program, which decodes the memory, answers otherwise. Answers the tallies of
/// seats and of keys.
pub fn ask_by_both(memory: &[u8], keys: &[Key], told: &str) -> [Tally; 2] {
    let room = memory::decode(memory);
    let before = memory.to_vec();
    let mut tallies = [Tally::new(), Tally::new()];
    for seat in 0..=255 {
        let found = key_in(memory, seat);
        assert_eq!(found, key_expected(room.as_ref(), seat), "{told}: {seat}");
        tallies[0].add(&found);
    }
    for key in keys {
        let found = seat_of(memory, key);
        assert_eq!(found, seat_expected(room.as_ref(), key), "{told}: {key:?}");
        tallies[1].add(&found);
    }
    assert!(memory == before, "{told}: the memory was changed");
    tallies
}

/// The keys that a room knows, those that differ from them in one bit, and those
/// that were seen before.
fn keys_to_ask(room: &Room, seen: &[Key], random: &mut Generator) -> Vec<Key> {
    let seated = room.seats.iter().flatten();
    let mut keys: Vec<Key> = seated.clone().map(|client| client.key).collect();
    keys.extend(seated.filter_map(|client| client.routes[0]));
    for place in 0..keys.len() {
        let mut near = keys[place];
        near[random.below(32)] ^= 1 << random.below(8);
        keys.push(near);
    }
    keys.extend([[0; 32], [0xff; 32], random.key()]);
    keys.extend(seen);
    keys
}

#[test]
fn who_sits_where_is_the_second_programs() {
    let mut random = Generator::new(61);
    let mut tallies = [Tally::new(), Tally::new()];
    for seed in 0..12 {
        let mut histories = Histories::with_ticks(50_000 + seed, BASE);
        let mut seen: Vec<Key> = Vec::new();
        for made in 0..40 {
            let room = histories.room().clone();
            let sound = memory_of(&room, &mut random);
            let keys = keys_to_ask(&room, &seen, &mut random);
            // Every damage is done to some rooms; most have none.
            let kinds = match made % 8 {
                0 => &DAMAGES[..],
                _ => &[Damage::Sound],
            };
            for kind in kinds {
                let mut memory = sound.clone();
                if !damage(*kind, &mut memory, &mut random) {
                    continue;
                }
                let told = format!("room {made} of history {seed}, {kind:?}");
                let found = ask_by_both(&memory, &keys, &told);
                for (all, found) in tallies.iter_mut().zip(&found) {
                    all.join(found);
                }
            }
            for call in histories.by_ref().take(60) {
                if let Call::Arrive { key } = call {
                    seen.push(key);
                }
            }
            seen.sort_unstable();
            seen.dedup();
        }
    }
    let [seats, keys] = &tallies;
    say(&format!(
        "who sits where\n{}{}",
        seats.line("seats asked for"),
        keys.line("keys asked for")
    ));
    seats.demand("seats asked for", &[3, 11]);
    keys.demand("keys asked for", &[3, 11]);
}

/// What each seat answers to a lookup of its key.
fn all_seated(memory: &[u8]) -> Vec<Option<Key>> {
    (0..BASE.seats as u8)
        .map(|seat| key_in(memory, seat).ok())
        .collect()
}

/// Who was put out by a tick is told by the keys in the seats before and after
/// it: those who sat there and sit no more. A tick seats nobody.
#[test]
fn who_was_put_out_is_told_by_the_seats() {
    let (mut put_out, mut silently, mut ticks) = (0, 0, 0);
    for seed in 0..6 {
        let mut room = empty_room(seed as u8);
        let mut second = Room::empty(BASE);
        let mut out = vec![0; LEAST_TICK_OUTPUT];
        for call in Histories::with_ticks(51_000 + seed, BASE).take(3_000) {
            let tick = matches!(call, Call::Tick { .. });
            let before = second.clone();
            let seated = if tick {
                all_seated(room.lent())
            } else {
                Vec::new()
            };
            let sent = make(&call, room.lent(), &mut out).written();
            let _ = call.make(&mut second, call.least_output());
            if !tick {
                continue;
            }
            ticks += 1;
            let now = all_seated(room.lent());
            for (seat, (was, is)) in seated.iter().zip(&now).enumerate() {
                let gone = was.filter(|_| is.is_none());
                let client = before
                    .client(seat)
                    .filter(|_| second.client(seat).is_none());
                assert_eq!(gone, client.map(|client| client.key), "seat {seat}");
                assert!(is.is_none() || is == was, "seat {seat} was taken");
                if gone.is_some() {
                    put_out += 1;
                    silently += usize::from(sent == 0);
                }
            }
        }
    }
    say(&format!(
        "put out by {ticks} ticks and told by their seats: {put_out}, \
         {silently} of them by ticks that sent nothing\n"
    ));
    assert!(put_out >= 500 && silently >= 50);
}
