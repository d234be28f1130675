//! Arrivals that are refused: 10, 11 and 1, in this order. A refusal leaves every
//! byte of the memory and of the output, and sets no seat.

use super::scene::{arrival, Scene};
use crate::generator::Generator;
use crate::memory::{damage, memory_of, DAMAGES, ROOM_BYTES};
use crate::own_key::make_by_both;
use crate::relay::refused;
use crate::tally::{say, Tally};
use reference::call::Call;
use reference::generate::Generator as Histories;
use reference::key::Key;
use reference::refusal::Refusal;
use reference::room::{Room, BASE, LEAST_OUTPUT};

/// How many rooms are damaged, each in every way.
const ROOMS: usize = 120;

/// A room of so many clients: client 0 has peers, client 1 has none.
fn scene(clients: u8) -> Scene {
    let mut scene = Scene::of(clients);
    for peer in 2..clients.min(30) {
        scene.connect(0, peer);
    }
    scene
}

/// Every output that is too short, also where nothing would be sent: of a seated
/// key with peers, of one without, and of one that is not seated.
#[test]
fn outputs_under_the_least_are_refused() {
    let mut refusals = 0;
    for mut scene in [scene(5), scene(40)] {
        let length = scene.memory.lent().len();
        for number in [0, 1, 50] {
            for output in 0..LEAST_OUTPUT {
                refused(&arrival(number), &scene.memory, length, output, 10);
                refusals += 1;
            }
        }
    }
    say(&format!(
        "arrivals with every output that is too short, refusal 10: {refusals}\n"
    ));
}

/// The first ground that holds. `no_seat` is whether a key that is not seated finds
/// all seats taken.
fn ground(output: usize, length: usize, no_seat: bool) -> Option<Refusal> {
    let grounds = [
        (output < LEAST_OUTPUT, 10),
        (length < ROOM_BYTES, 11),
        (no_seat, 1),
    ];
    let first = grounds.into_iter().find(|(holds, _)| *holds);
    first.map(|(_, refusal)| refusal)
}

/// Each ground by itself, and with each of the others.
#[test]
fn the_refusals_of_an_arrival_come_in_their_order() {
    for (clients, number) in [(5, 0), (5, 1), (5, 50), (40, 0), (40, 1), (40, 50)] {
        let scene = scene(clients);
        let no_seat = clients == 40 && number == 50;
        for output in [0, LEAST_OUTPUT - 1, LEAST_OUTPUT] {
            for length in [0, ROOM_BYTES - 1, ROOM_BYTES] {
                if let Some(refusal) = ground(output, length, no_seat) {
                    refused(&arrival(number), &scene.memory, length, output, refusal);
                }
            }
        }
        if !no_seat {
            scene.clone().accepted(&arrival(number));
        }
    }
}

/// The keys that are seated, and one that is not.
fn keys(room: &Room, random: &mut Generator) -> Vec<Key> {
    let seated = room.seats.iter().flatten();
    seated
        .map(|client| client.key)
        .chain([random.key()])
        .collect()
}

/// Damaged memory that holds no whole room is refused with 11, and with 10 before
/// that; on memory that holds one, the arrival is the second program's.
#[test]
fn arrivals_on_damaged_memory_are_refused_or_the_second_programs() {
    let mut random = Generator::new(71);
    let (mut long, mut short) = (Tally::new(), Tally::new());
    let mut histories = Histories::with_ticks(61_000, BASE);
    for made in 0..ROOMS {
        histories.nth(60);
        let room = histories.room().clone();
        let sound = memory_of(&room, &mut random);
        for kind in DAMAGES {
            let mut memory = sound.clone();
            if !damage(kind, &mut memory, &mut random) {
                continue;
            }
            let keys = keys(&room, &mut random);
            let key = random.pick(&keys);
            let call = Call::Arrive { key };
            let told = format!("{kind:?} of room {made}: {call:?}");
            long.add(&make_by_both(&memory, &call, LEAST_OUTPUT, &told));
            let answer = make_by_both(&memory, &call, LEAST_OUTPUT - 1, &told);
            assert_eq!(answer, Err(10), "{told}");
            short.add(&answer);
        }
    }
    say(&(long.line("arrivals on damaged memory") + &short.line("with output too short")));
    long.demand("arrivals on damaged memory", &[11]);
}
