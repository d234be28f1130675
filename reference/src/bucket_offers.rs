//! Offers and targets made up for buckets, that a seed fixes.
//!
//! Of keys at random nearly all belong to the first ten buckets. So it is chosen
//! first how many leading bits a key shares with the base key, and then the key.

use crate::buckets::{BUCKETS, PLACES};
use crate::key::{flipped, Key};
use crate::node::Node;
use crate::random::Random;

/// The families that are known.
pub const FAMILIES: [u8; 4] = [2, 10, 130, 138];

/// Families that are not known: the ends, and neighbours of the known ones.
pub const UNKNOWN_FAMILIES: [u8; 10] = [0, 1, 3, 9, 11, 128, 129, 131, 139, 255];

/// The buckets that new keys belong to.
#[derive(Debug, Clone, Copy, PartialEq, Eq)]
pub enum Spread {
    /// All.
    All,
    /// A few, which are soon full.
    Few,
    /// The first 14, as by keys at random.
    First,
    /// The last 8. For the last 3 of them there are fewer keys than places.
    Last,
}

pub const SPREADS: [Spread; 4] = [Spread::All, Spread::Few, Spread::First, Spread::Last];

/// A run of offers and targets for one base key.
#[derive(Debug, Clone)]
pub struct BucketOffers {
    random: Random,
    base: Key,
    /// The buckets that new keys belong to.
    numbers: Vec<usize>,
    /// The keys offered so far, kept or not.
    offered: Vec<Key>,
}

impl BucketOffers {
    pub fn new(seed: u64, spread: Spread) -> BucketOffers {
        let mut random = Random::new(seed);
        let any = random.key();
        let base = random.one_of(&[[0; 32], [0xff; 32], any, any, any]);
        let numbers = match spread {
            Spread::All => (0..BUCKETS).collect(),
            Spread::Few => (0..4).map(|_| random.below(BUCKETS)).collect(),
            Spread::First => (0..14).collect(),
            Spread::Last => (BUCKETS - 8..BUCKETS).collect(),
        };
        BucketOffers {
            random,
            base: base.expect("a key"),
            numbers,
            offered: Vec::new(),
        }
    }

    pub fn base(&self) -> &Key {
        &self.base
    }

    /// A node to offer: of a new key, of one that was offered before or of the base
    /// key, and now and then of an unknown family.
    pub fn offer(&mut self) -> Node {
        let key = match self.random.below(100) {
            0..4 => self.base,
            4..40 => self.offered_key(),
            _ => self.new_key(),
        };
        self.offered.push(key);
        let family = match self.random.percent(8) {
            true => self.random.one_of(&UNKNOWN_FAMILIES),
            false => self.random.one_of(&FAMILIES),
        };
        node(&mut self.random, family.expect("a family"), &key)
    }

    /// A target to ask for: any key, the base key, one that was offered, one that
    /// differs from such a key in one bit, or another key of the buckets in use.
    pub fn target(&mut self) -> Key {
        match self.random.below(6) {
            0 => self.random.key(),
            1 => self.base,
            2 => self.new_key(),
            3 => flipped(&self.offered_key(), self.random.below(BUCKETS)),
            _ => self.offered_key(),
        }
    }

    /// A key of a bucket in use, mostly one that was not offered before.
    fn new_key(&mut self) -> Key {
        let number = self.random.one_of(&self.numbers).expect("a bucket");
        key_of_bucket(&mut self.random, &self.base, number)
    }

    /// A key that was offered before; the base key where there is none.
    fn offered_key(&mut self) -> Key {
        self.random.one_of(&self.offered).unwrap_or(self.base)
    }
}

/// A key of a bucket: one that shares so many leading bits with the base key, and no
/// more.
pub fn key_of_bucket(random: &mut Random, base: &Key, number: usize) -> Key {
    let mut key = flipped(base, number);
    for place in number + 1..BUCKETS {
        if random.percent(50) {
            key = flipped(&key, place);
        }
    }
    key
}

/// As many different keys of a bucket as it can hold.
pub fn keys_that_fill(random: &mut Random, base: &Key, number: usize) -> Vec<Key> {
    let mut keys = Vec::new();
    while keys.len() < most_held(number) {
        let key = key_of_bucket(random, base, number);
        if !keys.contains(&key) {
            keys.push(key);
        }
    }
    keys
}

/// How many nodes a bucket can hold: 8, but only 4, 2 and 1 keys share 253, 254 and
/// 255 bits with a base key, and no more.
pub fn most_held(number: usize) -> usize {
    match number {
        253 => 4,
        254 => 2,
        255 => 1,
        _ => PLACES,
    }
}

/// A node of this family with this key. All 16 bytes of its address are filled, also
/// where the family has but 4, and its port is 0 now and then.
pub fn node(random: &mut Random, family: u8, key: &Key) -> Node {
    let mut address = [0; 16];
    address.fill_with(|| random.byte());
    let port = match random.percent(10) {
        true => 0,
        false => random.below(65_536) as u16,
    };
    Node {
        family,
        address,
        port,
        key: *key,
    }
}

#[cfg(test)]
mod tests {
    use super::*;
    use crate::key::shared_bits;
    use crate::node::known_family;

    #[test]
    fn a_seed_fixes_the_offers_and_the_targets() {
        for spread in SPREADS {
            let run = |seed| -> Vec<(Node, Key)> {
                let mut offers = BucketOffers::new(seed, spread);
                (0..50).map(|_| (offers.offer(), offers.target())).collect()
            };
            assert_eq!(run(3), run(3));
            assert_ne!(run(3), run(4));
        }
    }

    #[test]
    fn families_are_known_and_unknown_as_they_are_named() {
        assert!(FAMILIES.into_iter().all(known_family));
        assert!(!UNKNOWN_FAMILIES.into_iter().any(known_family));
    }

    #[test]
    fn a_key_of_a_bucket_shares_so_many_bits_and_no_more() {
        let mut random = Random::new(1);
        for base in [[0; 32], [0xff; 32], random.key()] {
            for number in 0..BUCKETS {
                for _ in 0..20 {
                    let key = key_of_bucket(&mut random, &base, number);
                    assert_eq!(shared_bits(&base, &key), number);
                }
            }
        }
    }

    #[test]
    fn the_keys_that_fill_all_buckets_are_2031_and_differ() {
        let mut random = Random::new(2);
        let base = random.key();
        let mut keys: Vec<Key> = (0..BUCKETS)
            .flat_map(|number| keys_that_fill(&mut random, &base, number))
            .collect();
        assert_eq!(keys.len(), 2_031);
        keys.sort();
        keys.dedup();
        assert_eq!(keys.len(), 2_031);
        assert!(!keys.contains(&base));
    }

    #[test]
    fn new_keys_reach_every_bucket_of_a_spread() {
        for spread in SPREADS {
            let mut offers = BucketOffers::new(5, spread);
            let base = *offers.base();
            let mut met = [false; BUCKETS + 1];
            for _ in 0..5_000 {
                met[shared_bits(&base, &offers.offer().key)] = true;
            }
            let numbers: Vec<usize> = (0..BUCKETS).filter(|number| met[*number]).collect();
            match spread {
                Spread::All => assert_eq!(numbers.len(), BUCKETS),
                Spread::Few => assert!(!numbers.is_empty() && numbers.len() <= 4),
                Spread::First => assert!(numbers.into_iter().eq(0..14)),
                Spread::Last => assert!(numbers.into_iter().eq(248..256)),
            }
            assert!(met[BUCKETS], "the base key");
        }
    }
}
