//! Damaged buckets are refused with 20 by every call, before all else, and are left
//! alone.

use super::both::Both;
use super::damage::{damage, DAMAGES};
use super::layout::base_key;
use super::made::memory_of;
use crate::generator::Generator;
use crate::tally::say;
use reference::bucket_offers::{node, FAMILIES, UNKNOWN_FAMILIES};
use reference::buckets;
use reference::key::{flipped, Key};
use reference::met_buckets::MetBuckets;
use reference::node::{Node, LONGEST_LIST};
use reference::random::Random;

/// How many buckets are damaged, each in every way.
const MEMORIES: u64 = 400;

/// Nodes to offer, of known and of unknown family: of the base key, of keys beside it,
/// of a held key and of any.
fn nodes(sound: &[u8], random: &mut Random) -> Vec<Node> {
    let base = base_key(sound);
    let held = buckets::nodes(sound);
    let held = held.get(random.below(held.len().max(1)));
    let near = flipped(&base, random.below(256));
    let any = random.key();
    let keys = [base, near, held.map_or(any, |held| held.key), any];
    let families = [FAMILIES[1], UNKNOWN_FAMILIES[0]];
    let pairs = keys
        .iter()
        .flat_map(|key| families.map(|family| (key, family)));
    pairs
        .map(|(key, family)| node(random, family, key))
        .collect()
}

/// Every call on this memory is refused with 20 by both, and changes nothing.
fn refused(memory: &[u8], nodes: &[Node], targets: &[Key], met: &mut MetBuckets, told: &str) {
    let mut both = Both::holding(memory, 0x3c);
    for node in nodes {
        assert_eq!(both.offer(node, met), Err(20), "{told}");
    }
    for target in targets {
        for length in [0, 38, LONGEST_LIST, LONGEST_LIST + 40] {
            assert_eq!(both.nearest(target, length, met), Err(20), "{told}");
        }
    }
    assert!(both.bytes() == memory, "{told}: the memory was changed");
}

#[test]
fn damaged_buckets_are_refused_with_20_and_left_alone() {
    let mut random = Generator::new(31);
    let mut keys = Random::new(32);
    let mut met = MetBuckets::default();
    let mut done = [0; DAMAGES.len()];
    for made in 0..MEMORIES {
        let offers = random.pick(&[1, 3, 10, 40, 150, 500]);
        let sound = memory_of(5_000 + made, offers, &mut random);
        let nodes = nodes(&sound, &mut keys);
        let targets = [base_key(&sound), keys.key()];
        for (kind, done) in DAMAGES.iter().zip(&mut done) {
            let mut memory = sound.clone();
            if damage(*kind, &mut memory, &mut random).is_none() {
                continue;
            }
            let told = format!("{kind:?} of buckets {made}");
            refused(&memory, &nodes, &targets, &mut met, &told);
            *done += 1;
        }
    }

    let mut text = format!(
        "damaged buckets: {} offers and {} questions refused with 20\n",
        met.counts()["offer refused with 20"],
        met.counts()["question refused with 20"]
    );
    for (kind, done) in DAMAGES.iter().zip(done) {
        text += &format!("  {kind:?}: {done}\n");
        assert!(done >= 100, "{kind:?}: only {done}");
    }
    say(&text);
    assert_eq!(met.counts()["offer refused with 20"], met.offers());
    assert_eq!(met.counts()["question refused with 20"], met.questions());
}
