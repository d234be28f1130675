//! Calls that change a room, in groups after which it is as before, so that
//! each group meets the same room.

use crate::rooms::{Filling, Rooms};
use crate::traffic::Traffic;
use reference::call::Call;
use reference::random::Random;
use reference::room::BASE;
use reference::seat::number_at;

/// Groups in a turn.
const TURN: usize = 128;

/// Groups that differ, where they are chosen at random.
const DIFFERENT: usize = 16 * TURN;

/// Groups of calls.
#[derive(Clone)]
pub struct Groups {
    /// The calls of each turn.
    turns: Vec<Vec<Call>>,
    /// How many groups each turn has.
    pub in_turn: usize,
    next: usize,
}

impl Groups {
    /// A route is dropped, and its key asked for again. The number is then the
    /// lowest free one, so the room is as it was.
    pub fn drop_and_request(rooms: &Rooms, filling: &Filling) -> Groups {
        let mut random = Random::new(6);
        let mut pair = || {
            let seat = random.below(BASE.seats);
            let route = random.below(filling.routes());
            let number = number_at(route);
            vec![packet(seat, vec![3, number]), request(rooms, seat, route)]
        };
        Groups::new((0..DIFFERENT).map(|_| pair()).collect(), TURN)
    }

    /// A new client arrives in the last seat, which is empty, and leaves again.
    pub fn arrive_and_leave() -> Groups {
        let mut random = Random::new(7);
        let seat = BASE.seats as u8 - 1;
        let mut pair = || {
            let key = random.key();
            vec![Call::Arrive { key }, Call::Leave { seat }]
        };
        Groups::new((0..DIFFERENT).map(|_| pair()).collect(), TURN)
    }

    /// Each client leaves, arrives again and asks for all its keys again. Its
    /// seat is the only empty one, so the room is as it was.
    pub fn go_and_return(rooms: &Rooms, filling: &Filling) -> Groups {
        let one = |seat: usize| {
            let key = rooms.client(seat).key;
            let leave = Call::Leave { seat: seat as u8 };
            let requests = (0..filling.routes()).map(|route| request(rooms, seat, route));
            let calls = [leave, Call::Arrive { key }].into_iter();
            calls.chain(requests).collect()
        };
        Groups::new((0..BASE.seats).map(one).collect(), BASE.seats)
    }

    fn new(groups: Vec<Vec<Call>>, in_turn: usize) -> Groups {
        Groups {
            turns: groups.chunks(in_turn).map(<[_]>::concat).collect(),
            in_turn,
            next: 0,
        }
    }
}

impl Traffic for Groups {
    fn turns(&self) -> usize {
        self.turns.len()
    }

    fn turn(&mut self, make: impl FnMut(&Call)) {
        self.turns[self.next].iter().for_each(make);
        self.next = (self.next + 1) % self.turns.len();
    }
}

/// The request for the key that a route of a seat names.
fn request(rooms: &Rooms, seat: usize, route: usize) -> Call {
    let wanted = rooms.client(seat).routes[route].expect("a held route");
    packet(seat, [&[0], &wanted[..]].concat())
}

fn packet(seat: usize, bytes: Vec<u8>) -> Call {
    let seat = seat as u8;
    Call::Packet { seat, bytes }
}
