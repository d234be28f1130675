//! A taken seat: its client's key, when it was last pinged and whether it owes
//! an answer, and the routes that the client asked for.

use crate::key::Key;
use crate::packet::FIRST_NUMBER;

/// A client whose ping has stood unanswered for so many seconds or more is put
/// out by a tick.
pub const PUT_OUT_AFTER: u64 = 10;

/// A client that owes no answer, and was last pinged so many seconds ago or
/// more, is pinged by a tick.
pub const PING_AFTER: u64 = 30;

/// A taken seat. The route at place 0 has the lowest connection number, 16;
/// a free route is `None`, a held one names the wanted key.
#[derive(Debug, Clone, PartialEq, Eq)]
pub struct Seat {
    pub key: Key,
    /// "the time of its last ping": while there was none, the clock at its
    /// arrival.
    pub ping_time: u64,
    /// "the ping number not yet answered"; 0 for none outstanding.
    pub outstanding: u64,
    pub routes: Vec<Option<Key>>,
}

impl Seat {
    /// A seat just taken: "An arrival starts with the last clock as its ping
    /// time". No ping is outstanding and all its routes are free.
    pub fn taken_by(key: &Key, numbers: usize, clock: u64) -> Seat {
        Seat {
            key: *key,
            ping_time: clock,
            outstanding: 0,
            routes: vec![None; numbers],
        }
    }

    /// The key that this number names, if it names a route at all.
    pub fn wanted(&self, number: u8) -> Option<Key> {
        let place = place_of(number)?;
        self.routes.get(place).copied().flatten()
    }

    /// The number of the route that names this key.
    pub fn number_for(&self, key: &Key) -> Option<u8> {
        self.numbers()
            .find(|number| self.wanted(*number) == Some(*key))
    }

    /// Whether a route names the key of the client itself.
    pub fn names_itself(&self) -> bool {
        self.number_for(&self.key).is_some()
    }

    /// The lowest free number.
    pub fn lowest_free(&self) -> Option<u8> {
        self.numbers().find(|number| self.wanted(*number).is_none())
    }

    /// All the numbers of this seat, free or held, in rising order.
    pub fn numbers(&self) -> impl Iterator<Item = u8> {
        (0..self.routes.len()).map(number_at)
    }

    /// Lets a number of this seat name this key.
    pub fn hold(&mut self, number: u8, key: &Key) {
        let place = place_of(number).expect("a number of this seat");
        self.routes[place] = Some(*key);
    }

    /// Makes a number of this seat free.
    pub fn free(&mut self, number: u8) {
        let place = place_of(number).expect("a number of this seat");
        self.routes[place] = None;
    }
}

/// Pings. A time given is never before the ping time: a clock does not go back.
impl Seat {
    /// Whether a ping is not yet answered.
    pub fn owes_pong(&self) -> bool {
        self.outstanding != 0
    }

    /// Whether the ping "has stood unanswered for 10 seconds or more".
    pub fn is_dead(&self, time: u64) -> bool {
        self.owes_pong() && self.since_ping(time) >= PUT_OUT_AFTER
    }

    /// Whether a ping is due: "with none outstanding, last pinged 30 seconds ago
    /// or more".
    pub fn is_ping_due(&self, time: u64) -> bool {
        !self.owes_pong() && self.since_ping(time) >= PING_AFTER
    }

    /// Notes that the client was sent a ping with this number at this time.
    pub fn note_ping(&mut self, time: u64, ping: u64) {
        self.ping_time = time;
        self.outstanding = ping;
    }

    /// "A pong with the outstanding number clears it; other pongs do nothing."
    /// No pong moves the ping time.
    pub fn note_pong(&mut self, id: u64) {
        if id == self.outstanding {
            self.outstanding = 0;
        }
    }

    /// The seconds from the last ping to this time.
    pub fn since_ping(&self, time: u64) -> u64 {
        time - self.ping_time
    }
}

/// The connection number of the route at this place.
pub fn number_at(place: usize) -> u8 {
    FIRST_NUMBER + place as u8
}

/// The place of the route with this number; numbers below 16 have none.
fn place_of(number: u8) -> Option<usize> {
    number.checked_sub(FIRST_NUMBER).map(usize::from)
}

#[cfg(test)]
mod tests {
    use super::*;

    #[test]
    fn numbers_start_at_16_and_others_name_no_route() {
        let mut seat = Seat::taken_by(&[0x11; 32], 32, 0);
        assert!(seat.numbers().eq(16..=47));
        for number in seat.numbers() {
            seat.hold(number, &[number; 32]);
        }
        for number in 0..=255 {
            let wanted = (16..=47).contains(&number).then_some([number; 32]);
            assert_eq!(seat.wanted(number), wanted);
            assert_eq!(seat.number_for(&[number; 32]), wanted.map(|_| number));
        }
    }

    #[test]
    fn a_seat_names_itself_by_any_of_its_routes() {
        let mut seat = Seat::taken_by(&[0x11; 32], 32, 0);
        assert!(!seat.names_itself());
        for number in seat.numbers() {
            seat.hold(number, &[number + 1; 32]);
        }
        // Number 16 names the key of 32 bytes 11 hex.
        assert!(seat.names_itself());
        seat.free(16);
        assert!(!seat.names_itself());
        for number in 17..=47 {
            seat.hold(number, &[0x11; 32]);
            assert!(seat.names_itself());
            seat.free(number);
            assert!(!seat.names_itself());
        }
    }

    #[test]
    fn the_lowest_free_number_is_found_in_a_gap_too() {
        let mut seat = Seat::taken_by(&[0x11; 32], 3, 0);
        assert_eq!(seat.lowest_free(), Some(16));
        seat.hold(16, &[1; 32]);
        seat.hold(17, &[2; 32]);
        assert_eq!(seat.lowest_free(), Some(18));
        seat.free(16);
        assert_eq!(seat.lowest_free(), Some(16));
        seat.hold(16, &[1; 32]);
        seat.hold(18, &[3; 32]);
        assert_eq!(seat.lowest_free(), None);
    }

    /// A seat that was pinged at 100 with the number 7.
    fn pinged() -> Seat {
        let mut seat = Seat::taken_by(&[0x11; 32], 32, 60);
        seat.note_ping(100, 7);
        seat
    }

    #[test]
    fn an_arrival_starts_with_the_clock_and_none_outstanding() {
        for clock in [0, 60, u64::MAX] {
            let seat = Seat::taken_by(&[0x11; 32], 32, clock);
            assert_eq!((seat.ping_time, seat.outstanding), (clock, 0));
            assert!(!seat.owes_pong());
            assert!(!seat.is_dead(clock) && !seat.is_ping_due(clock));
        }
    }

    #[test]
    fn a_ping_is_due_from_30_seconds_on_and_a_client_dead_from_10() {
        let silent = pinged();
        assert_eq!((silent.ping_time, silent.outstanding), (100, 7));
        let mut answered = pinged();
        answered.note_pong(7);
        for time in [100, 101, 109, 110, 111, 129, 130, 131, u64::MAX] {
            assert_eq!(silent.is_dead(time), time >= 110);
            assert_eq!(answered.is_ping_due(time), time >= 130);
            assert!(!silent.is_ping_due(time) && !answered.is_dead(time));
        }
    }

    #[test]
    fn only_a_pong_with_the_outstanding_number_clears_it_and_none_moves_the_time() {
        let mut seat = pinged();
        for id in [0, 1, 6, 8, 7 << 56, u64::MAX] {
            seat.note_pong(id);
            assert_eq!(seat, pinged());
        }
        seat.note_pong(7);
        assert_eq!((seat.ping_time, seat.outstanding), (100, 0));
        let answered = seat.clone();
        for id in [0, 7, 8] {
            seat.note_pong(id);
            assert_eq!(seat, answered);
        }
    }
}
