//! Buckets that hold all they can: 8 nodes each, but 4, 2 and 1 in the last three,
//! since only so many keys share 253, 254 and 255 bits with a base key.

use super::both::Both;
use super::layout::{bucket, BUCKETS};
use crate::generator::Generator;
use crate::tally::say;
use reference::bucket_offers::{key_of_bucket, keys_that_fill, most_held, node, FAMILIES};
use reference::buckets::Effect;
use reference::key::{flipped, Key};
use reference::met_buckets::MetBuckets;
use reference::node::LONGEST_LIST;
use reference::random::Random;

/// A key of a bucket that is not among these; in the last four buckets there is none.
fn another_key(random: &mut Random, base: &Key, number: usize, keys: &[Key]) -> Option<Key> {
    let mut keys_of_bucket = (0..1_000).map(|_| key_of_bucket(random, base, number));
    keys_of_bucket.find(|key| !keys.contains(key))
}

/// Fills buckets to the last, offer by offer, and then offers a new key and a held one
/// to each bucket.
fn fill(seed: u64, base: &Key, met: &mut MetBuckets) {
    let random = &mut Random::new(seed);
    let mut choices = Generator::new(seed);
    let mut both = Both::begun(base, 3, seed as u8);
    let mut keys: Vec<Key> = (0..BUCKETS)
        .flat_map(|number| keys_that_fill(random, base, number))
        .collect();
    assert_eq!(keys.len(), 2_031);
    choices.shuffle(&mut keys);
    for key in &keys {
        let node = node(random, choices.pick(&FAMILIES), key);
        assert_eq!(both.offer(&node, met), Ok(Effect::Added));
    }
    for number in 0..BUCKETS {
        assert_eq!(bucket(number).count(both.bytes()), most_held(number));
    }

    for number in 0..BUCKETS {
        let family = choices.pick(&FAMILIES);
        if let Some(key) = another_key(random, base, number, &keys) {
            let new = node(random, family, &key);
            assert_eq!(both.offer(&new, met), Ok(Effect::Full), "bucket {number}");
        }
        let held = node(random, family, &choices.pick(&keys));
        assert_eq!(both.offer(&held, met), Ok(Effect::Replaced));
    }
    let base_key = node(random, 2, base);
    assert_eq!(both.offer(&base_key, met), Ok(Effect::BaseKey));

    for number in 0..BUCKETS {
        for target in [flipped(base, number), choices.pick(&keys), random.key()] {
            let asked = both.nearest(&target, LONGEST_LIST + 9, met);
            assert!(asked.is_ok_and(|list| list.len() >= 4 * 39));
        }
    }
    assert!(both.nearest(base, LONGEST_LIST, met).is_ok());
}

#[test]
fn buckets_that_hold_all_they_can_agree_with_the_reference() {
    let mut met = MetBuckets::default();
    for (seed, base) in [[0; 32], [0xff; 32], Random::new(90).key()]
        .into_iter()
        .enumerate()
    {
        fill(90 + seed as u64, &base, &mut met);
    }
    let counts = met.counts();
    say(&format!(
        "buckets filled to the last: {} offers, {} questions, added: {}, full: {}, replaced: {}\n",
        met.offers(),
        met.questions(),
        counts["added"],
        counts["full"],
        counts["replaced"]
    ));
    assert_eq!(counts["added"], 3 * 2_031);
    // In bucket 252 all eight keys that exist are held.
    assert_eq!(counts["full"], 3 * 252);
    assert_eq!(counts["replaced"], 3 * 256);
}
