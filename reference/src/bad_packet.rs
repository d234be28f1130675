//! Packets that the relay's reader refuses, on every ground it has.

use crate::packet::LONGEST_PACKET;
use crate::random::Random;

/// The kinds that the relay takes, with 16 and 255 for all the data packets.
const TAKEN: [u8; 7] = [0, 3, 4, 5, 6, 16, 255];

/// The kinds that the relay does not take.
const NOT_TAKEN: [u8; 11] = [1, 2, 7, 8, 9, 10, 11, 12, 13, 14, 15];

/// Lengths at which some kind begins or ceases to fit.
const LENGTHS: [usize; 18] = [
    1, 2, 3, 8, 9, 10, 32, 33, 34, 35, 1_056, 1_057, 1_058, 1_999, 2_000, 2_031, 2_032, 2_033,
];

/// A packet that is bad on a ground chosen at random, or bytes at random.
pub fn bad_packet(random: &mut Random) -> Vec<u8> {
    match random.below(6) {
        0 => Vec::new(),
        1 => too_long(random),
        2 => not_taken(random),
        3 => wrong_length(random),
        4 => ping_number_0(random),
        _ => any_bytes(random),
    }
}

/// Refusal 4. Seldom much too long, since such packets make a history long.
fn too_long(random: &mut Random) -> Vec<u8> {
    let over = match random.below(200) {
        0 => 65_535 - LONGEST_PACKET,
        1..=9 => 1 + random.below(2_000),
        _ => 1 + random.below(3),
    };
    let kind = random.byte();
    filled(random, kind, LONGEST_PACKET + over)
}

/// Refusal 5, with a length that some kind has or just misses.
fn not_taken(random: &mut Random) -> Vec<u8> {
    let kind = choose(random, &NOT_TAKEN);
    let length = length(random);
    filled(random, kind, length.min(LONGEST_PACKET))
}

/// Refusal 6, mostly: a length that this kind or another has or just misses.
fn wrong_length(random: &mut Random) -> Vec<u8> {
    let kind = choose(random, &TAKEN);
    let length = if kind >= 16 { 1 } else { length(random) };
    filled(random, kind, length.min(LONGEST_PACKET))
}

/// Refusal 7, and 6 where the length is not 9.
fn ping_number_0(random: &mut Random) -> Vec<u8> {
    let mut packet = vec![0; 9];
    packet[0] = choose(random, &[4, 5]);
    if random.percent(10) {
        packet.push(0);
    }
    packet
}

/// Any kind and any length, mostly short.
fn any_bytes(random: &mut Random) -> Vec<u8> {
    let limit = choose(random, &[4, 40, 1_100]);
    let length = random.below(limit);
    random.bytes(length)
}

/// A length of any sort, mostly one where a kind begins or ceases to fit.
fn length(random: &mut Random) -> usize {
    if random.percent(20) {
        return 1 + random.below(60);
    }
    choose(random, &LENGTHS)
}

/// A packet of this kind and this length, which is not 0.
fn filled(random: &mut Random, kind: u8, length: usize) -> Vec<u8> {
    let mut packet = random.bytes(length);
    packet[0] = kind;
    packet
}

/// One of these, of which there is one at least.
fn choose<T: Copy>(random: &mut Random, choices: &[T]) -> T {
    random.one_of(choices).expect("a choice")
}

#[cfg(test)]
mod tests {
    use super::*;
    use crate::packet::relay_read;

    #[test]
    fn every_ground_of_the_reader_is_met_for_every_kind() {
        let mut random = Random::new(1);
        let mut met = vec![[0; 8]; 256];
        for _ in 0..50_000 {
            let packet = bad_packet(&mut random);
            if let Err(number) = relay_read(&packet) {
                let kind = packet.first().copied().unwrap_or(0);
                met[usize::from(kind)][usize::from(number)] += 1;
            }
        }
        assert!(met.iter().all(|grounds| grounds[4] > 5));
        for kind in NOT_TAKEN {
            assert!(met[usize::from(kind)][5] > 100, "{kind}");
        }
        for kind in TAKEN {
            assert!(met[usize::from(kind)][6] > 100, "{kind}");
        }
        assert!(met[4][7] > 100 && met[5][7] > 100);
    }
}
