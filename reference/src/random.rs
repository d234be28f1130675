//! Numbers that look random and are the same at every run: xorshift, 64 bits.

use crate::key::Key;

/// A run of numbers that its seed fixes.
#[derive(Debug, Clone)]
pub struct Random {
    state: u64,
}

impl Random {
    /// The run for this seed. The state must not be 0, and near seeds should
    /// not give like runs, so the seed is spread over the bits first.
    pub fn new(seed: u64) -> Random {
        let spread = seed.wrapping_add(1).wrapping_mul(0x9e37_79b9_7f4a_7c15);
        let mut random = Random { state: spread | 1 };
        for _ in 0..8 {
            random.next();
        }
        random
    }

    fn next(&mut self) -> u64 {
        self.state ^= self.state << 13;
        self.state ^= self.state >> 7;
        self.state ^= self.state << 17;
        // The low bits of the bare state are the weaker ones.
        self.state.wrapping_mul(0x2545_f491_4f6c_dd1d) >> 16
    }

    /// A number below `limit`, which is not 0.
    pub fn below(&mut self, limit: usize) -> usize {
        (self.next() % limit as u64) as usize
    }

    pub fn byte(&mut self) -> u8 {
        self.below(256) as u8
    }

    /// `length` bytes.
    pub fn bytes(&mut self, length: usize) -> Vec<u8> {
        (0..length).map(|_| self.byte()).collect()
    }

    pub fn key(&mut self) -> Key {
        let mut key = [0; 32];
        key.fill_with(|| self.byte());
        key
    }

    /// True in so many of a hundred cases.
    pub fn percent(&mut self, chance: usize) -> bool {
        self.below(100) < chance
    }

    /// One of these; none where there are none.
    pub fn one_of<T: Copy>(&mut self, choices: &[T]) -> Option<T> {
        if choices.is_empty() {
            return None;
        }
        Some(choices[self.below(choices.len())])
    }
}

#[cfg(test)]
mod tests {
    use super::*;

    #[test]
    fn a_seed_fixes_the_run_and_seeds_differ() {
        for seed in [0, 1, 2, u64::MAX] {
            let run = Random::new(seed).bytes(100);
            assert_eq!(run, Random::new(seed).bytes(100));
            assert_ne!(run, Random::new(seed ^ 1).bytes(100));
        }
    }

    #[test]
    fn every_byte_comes_up() {
        let mut met = [false; 256];
        for byte in Random::new(7).bytes(10_000) {
            met[usize::from(byte)] = true;
        }
        assert!(met.iter().all(|met| *met));
    }
}
