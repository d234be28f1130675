//! Time in a made-up history: when a tick comes, how far it moves the clock, and
//! which pings are answered.
//!
//! Time at random would put everybody out again and again. So the clock has
//! paces that last for some ticks, and in each of them the clients answer pings
//! always, seldom or never: rooms stay full for a while, and then many clients
//! are put out at once.

use crate::random::Random;
use crate::record::Record;

/// How many numbers of former pings are kept, to be answered late.
const KEPT: usize = 6;

/// The time of a history, and the pings of its ticks.
pub struct Ticking {
    pace: Pace,
    /// How many ticks the pace lasts.
    lasts: usize,
    /// Of a hundred pings, how many are answered.
    answered: usize,
    /// The pings that will be answered: the seat and the ping number.
    due: Vec<(usize, u64)>,
    /// The numbers of the last ticks that pinged somebody.
    former: Vec<u64>,
    /// After about how many calls the clock leaps to the end of 64 bits, if it
    /// does.
    end: Option<usize>,
}

/// By how many seconds most ticks move the clock for a while.
#[derive(Debug, Clone, Copy, PartialEq, Eq)]
enum Pace {
    /// By none.
    Standing,
    /// By 1.
    Slow,
    /// By 2 to 8.
    Walking,
    /// By 9, 10 or 11.
    Tens,
    /// By 29, 30 or 31.
    Thirties,
    /// By any of these.
    Mixed,
    /// By much more.
    Leaping,
}

const PACES: [Pace; 8] = [
    Pace::Standing,
    Pace::Slow,
    Pace::Slow,
    Pace::Walking,
    Pace::Tens,
    Pace::Thirties,
    Pace::Mixed,
    Pace::Leaping,
];

impl Pace {
    /// Of a hundred calls, how many are ticks.
    fn share(self) -> usize {
        match self {
            Pace::Standing => 4,
            Pace::Slow => 50,
            Pace::Walking => 20,
            Pace::Tens => 12,
            Pace::Thirties => 8,
            Pace::Mixed => 15,
            Pace::Leaping => 5,
        }
    }

    /// How many ticks the pace lasts at least, and over that below what.
    fn ticks(self) -> (usize, usize) {
        match self {
            Pace::Slow => (40, 50),
            Pace::Leaping => (1, 3),
            _ => (3, 10),
        }
    }

    /// By how many seconds the next tick moves the clock.
    fn step(self, random: &mut Random) -> u64 {
        match self {
            Pace::Standing => 0,
            Pace::Slow => 1,
            Pace::Walking => 2 + random.below(7) as u64,
            Pace::Tens => 9 + random.below(3) as u64,
            Pace::Thirties => 29 + random.below(3) as u64,
            Pace::Mixed => {
                let (few, edge) = (random.below(9) as u64, random.below(6));
                choose(random, &[few, [9, 10, 11, 29, 30, 31][edge]])
            }
            Pace::Leaping => {
                let any = random.below(1 << 40) as u64;
                choose(random, &[32, 40, 86_400, 1 << 32, any])
            }
        }
    }
}

impl Ticking {
    /// In one of four histories the clock leaps to the end of 64 bits.
    pub fn new(random: &mut Random) -> Ticking {
        let end = match random.below(4) {
            0 => Some(600 + random.below(1_400)),
            _ => None,
        };
        Ticking {
            pace: Pace::Slow,
            lasts: 10,
            answered: 100,
            due: Vec::new(),
            former: Vec::new(),
            end,
        }
    }

    /// The clock stands, and all pings are answered, until it falls silent.
    pub fn settle(&mut self) {
        self.pace = Pace::Standing;
        self.lasts = usize::MAX;
        self.answered = 100;
    }

    /// The next ticks ping everybody, and few answer: they go together.
    pub fn fall_silent(&mut self, random: &mut Random) {
        self.pace = Pace::Thirties;
        self.lasts = 4 + random.below(4);
        self.answered = choose(random, &[0, 10, 25]);
        self.due.clear();
    }

    /// The seat and the number of a pong that is due, if it comes next.
    pub fn next_pong(&mut self, random: &mut Random) -> Option<(usize, u64)> {
        if self.due.is_empty() || !random.percent(70) {
            return None;
        }
        let place = random.below(self.due.len());
        Some(self.due.swap_remove(place))
    }

    /// The time and the ping number of a tick, if one comes next. Where many
    /// pongs are due it seldom does, so that they are not too late.
    pub fn next_tick(&mut self, random: &mut Random, clock: u64) -> Option<(u64, u64)> {
        self.end = self.end.map(|calls| calls.saturating_sub(1));
        let share = match (clock, self.due.len()) {
            (u64::MAX, _) => 3,
            (_, 0..=3) => self.pace.share(),
            _ => 4,
        };
        if !random.percent(share) {
            return None;
        }
        if self.lasts == 0 {
            self.change_pace(random);
        }
        self.lasts -= 1;
        Some(self.tick(random, clock))
    }

    /// Takes in what an accepted tick sent: some of its pings are answered.
    pub fn note(&mut self, random: &mut Random, number: u64, sent: &[Record]) {
        let pinged = sent.iter().filter(|record| record.packet[0] == 4);
        let seats: Vec<usize> = pinged.map(|record| record.seat).collect();
        if seats.is_empty() {
            return;
        }
        self.former.push(number);
        if self.former.len() > KEPT {
            self.former.remove(0);
        }
        for seat in seats {
            if random.percent(self.answered) {
                self.due.push((seat, number));
            }
        }
    }

    /// The number of a former ping.
    pub fn former(&self, random: &mut Random) -> Option<u64> {
        random.one_of(&self.former)
    }

    fn change_pace(&mut self, random: &mut Random) {
        self.pace = choose(random, &PACES);
        let (least, more) = self.pace.ticks();
        self.lasts = least + random.below(more);
        self.answered = choose(random, &[0, 20, 60, 95, 100, 100]);
    }

    /// Mostly a good tick; now and then one of a time before the clock, one with
    /// the number 0, or both.
    fn tick(&mut self, random: &mut Random, clock: u64) -> (u64, u64) {
        let number = self.number(random);
        if self.end == Some(0) {
            self.end = None;
            return (clock.max(u64::MAX - random.below(150) as u64), number);
        }
        let time = self.time(random, clock);
        match random.below(100) {
            0..=3 => (before(random, clock), number),
            4..=6 => (time, 0),
            7 => (before(random, clock), 0),
            _ => (time, number),
        }
    }

    /// Mostly a step of the pace past the clock, at times the clock itself.
    fn time(&mut self, random: &mut Random, clock: u64) -> u64 {
        match random.below(12) {
            0 => clock,
            _ => clock.saturating_add(self.pace.step(random)),
        }
    }

    /// A number of any size, at times a former one.
    fn number(&mut self, random: &mut Random) -> u64 {
        match random.below(25) {
            0..=1 => self.former(random).unwrap_or(1),
            2 => choose(random, &[1, u64::MAX]),
            _ => ping_number(random),
        }
    }
}

/// A time before the clock, by little or by much; the clock itself if it is 0.
fn before(random: &mut Random, clock: u64) -> u64 {
    let few = 1 + random.below(40) as u64;
    let back = choose(random, &[1, few, 1 << 32, clock]);
    clock.saturating_sub(back)
}

/// One bit anywhere, and a byte: numbers of every size, and never 0.
pub fn ping_number(random: &mut Random) -> u64 {
    1 << random.below(64) | u64::from(random.byte()) << 8
}

/// One of these, of which there is one at least.
fn choose<T: Copy>(random: &mut Random, choices: &[T]) -> T {
    random.one_of(choices).expect("a choice")
}

#[cfg(test)]
mod tests {
    use super::*;

    /// The steps of a pace, in rising order.
    fn steps(pace: Pace) -> Vec<u64> {
        let mut random = Random::new(1);
        let mut steps: Vec<u64> = (0..500).map(|_| pace.step(&mut random)).collect();
        steps.sort_unstable();
        steps.dedup();
        steps
    }

    #[test]
    fn each_pace_has_its_steps() {
        assert_eq!(steps(Pace::Standing), [0]);
        assert_eq!(steps(Pace::Slow), [1]);
        assert_eq!(steps(Pace::Walking), [2, 3, 4, 5, 6, 7, 8]);
        assert_eq!(steps(Pace::Tens), [9, 10, 11]);
        assert_eq!(steps(Pace::Thirties), [29, 30, 31]);
        let all: Vec<u64> = (0..=11).chain(29..=31).collect();
        assert_eq!(steps(Pace::Mixed), all);
        assert!(steps(Pace::Leaping).iter().all(|step| *step > 31));
    }

    #[test]
    fn a_time_before_the_clock_is_before_it() {
        let mut random = Random::new(1);
        for clock in [1, 2, 39, 1_000, 1 << 40, u64::MAX] {
            assert!((0..200).all(|_| before(&mut random, clock) < clock));
        }
        assert_eq!(before(&mut random, 0), 0);
    }

    #[test]
    fn ping_numbers_are_not_0() {
        let mut random = Random::new(1);
        assert!((0..10_000).all(|_| ping_number(&mut random) != 0));
    }
}
