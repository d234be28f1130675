//! The rooms that calls are measured on, as the library has them and as the
//! second program has them.

use reference::memory;
use reference::random::Random;
use reference::room::{Room, BASE};
use reference::seat::Seat;

/// How full a room is.
pub struct Filling {
    pub name: &'static str,
    /// Every client asks for the clients up to so many seats further on, and
    /// as many seats back, so all routes are connected.
    reach: usize,
    seats: usize,
}

pub const EMPTY: Filling = Filling {
    name: "empty",
    reach: 0,
    seats: 0,
};

/// 40 seats with 4 routes each.
pub const THIN: Filling = Filling {
    name: "thin",
    reach: 2,
    seats: 40,
};

/// 40 seats with 32 routes each.
pub const FULL: Filling = Filling {
    name: "full",
    reach: 16,
    seats: 40,
};

/// The same room for both.
#[derive(Clone)]
pub struct Rooms {
    /// In lent memory, for the library.
    pub memory: Vec<u8>,
    /// As the second program's value.
    pub plain: Room,
}

impl Rooms {
    /// The room of this filling; its keys are random.
    pub fn filled(filling: &Filling) -> Rooms {
        let mut random = Random::new(1);
        let keys: Vec<_> = (0..filling.seats).map(|_| random.key()).collect();
        let mut plain = Room::empty(BASE);
        for place in 0..filling.seats {
            let mut seat = Seat::taken_by(&keys[place], BASE.numbers, 0);
            for (route, wanted) in seat.routes.iter_mut().zip(filling.wanted(place)) {
                *route = Some(keys[wanted]);
            }
            plain.seats[place] = Some(seat);
        }
        Rooms::of(plain)
    }

    /// The room after the client in the last seat has left.
    pub fn without_the_last(mut self) -> Rooms {
        self.plain.seats[BASE.seats - 1] = None;
        Rooms::of(self.plain)
    }

    /// The room in which the client of a taken seat has asked for nobody: its peers
    /// wait for it.
    pub fn without_routes_of(mut self, seat: usize) -> Rooms {
        let client = self.plain.seats[seat].as_mut().expect("a taken seat");
        client.routes.fill(None);
        Rooms::of(self.plain)
    }

    /// The room at this clock, with the pings that a seat is to have: its ping
    /// time, and its ping not yet answered or 0.
    pub fn at(mut self, clock: u64, pings: impl Fn(u64) -> (u64, u64)) -> Rooms {
        self.plain.clock = clock;
        for (seat, client) in (0..).zip(&mut self.plain.seats) {
            if let Some(client) = client {
                (client.ping_time, client.outstanding) = pings(seat);
            }
        }
        Rooms::of(self.plain)
    }

    /// The client in a seat that is taken.
    pub fn client(&self, seat: usize) -> &Seat {
        self.plain.client(seat).expect("a taken seat")
    }

    fn of(plain: Room) -> Rooms {
        Rooms {
            memory: memory::encode(&plain),
            plain,
        }
    }
}

impl Filling {
    /// How many routes each seat has.
    pub fn routes(&self) -> usize {
        2 * self.reach
    }

    /// The seats that the client in a seat asks for, in turn.
    fn wanted(&self, seat: usize) -> impl Iterator<Item = usize> + '_ {
        let around = move |far| [seat + far, seat + self.seats - far];
        (1..=self.reach)
            .flat_map(around)
            .map(|wanted| wanted % self.seats)
    }
}
