//! What is no part of the buckets changes no answer: free records, the order behind
//! the count, and the bytes behind the buckets.

use super::both::Both;
use super::layout::{base_key, bucket, free_places, BUCKETS, BYTES, PLACES};
use super::made::memory_of;
use crate::generator::Generator;
use crate::tally::say;
use reference::bucket_offers::{key_of_bucket, node, FAMILIES};
use reference::buckets;
use reference::key::{shared_bits, Key};
use reference::met_buckets::MetBuckets;
use reference::node::{Node, LONGEST_LIST};
use reference::random::Random;

const MEMORIES: u64 = 300;
const CALLS: usize = 20;

/// Random bytes in all that is no part of the buckets. Where a bucket has a free
/// place, its record may have the base key or a key that the bucket holds, and the
/// order names the place behind the count: the count alone keeps it out.
fn fill_unlisted(memory: &mut [u8], random: &mut Generator) {
    random.fill(&mut memory[BYTES..]);
    let base = base_key(memory);
    for number in 0..BUCKETS {
        let table = bucket(number);
        table.fill_unlisted(memory, random);
        let free = free_places(memory, number);
        if free.is_empty() {
            continue;
        }
        let listed = table.listed(memory);
        let key = match listed.first() {
            Some(place) if random.below(2) == 0 => table.key(memory, *place),
            _ => base,
        };
        if random.below(3) > 0 {
            table.hide(memory, random.pick(&free), &key);
        }
    }
}

/// Nodes to offer: of a held key, of a new key of a bucket in use, and of any bucket.
fn nodes(memory: &[u8], random: &mut Random) -> Vec<Node> {
    let base = base_key(memory);
    let held: Vec<Key> = buckets::nodes(memory).iter().map(|node| node.key).collect();
    let mut nodes = Vec::new();
    for _ in 0..CALLS {
        let key = random.one_of(&held).unwrap_or(base);
        let used = shared_bits(&base, &key).min(BUCKETS - 1);
        let in_used = key_of_bucket(random, &base, used);
        let any = random.below(BUCKETS);
        let in_any = key_of_bucket(random, &base, any);
        for key in [key, in_used, in_any] {
            let family = random.one_of(&FAMILIES).expect("a family");
            nodes.push(node(random, family, &key));
        }
    }
    nodes
}

#[test]
fn what_is_not_listed_changes_no_answer() {
    let mut random = Generator::new(41);
    let mut keys = Random::new(42);
    let mut met = MetBuckets::default();
    let mut free = 0;
    for made in 0..MEMORIES {
        let offers = random.pick(&[0, 1, 5, 40, 150]);
        let plain = memory_of(6_000 + made, offers, &mut random);
        let mut filled = plain.clone();
        fill_unlisted(&mut filled, &mut random);
        free += (0..BUCKETS)
            .map(|number| PLACES - bucket(number).count(&plain))
            .sum::<usize>();

        let mut with_plain = Both::holding(&plain, 1);
        let mut with_filled = Both::holding(&filled, 2);
        for node in nodes(&plain, &mut keys) {
            let target = keys.key();
            for target in [target, node.key, base_key(&plain)] {
                let expected = with_plain.nearest(&target, LONGEST_LIST, &mut met);
                let found = with_filled.nearest(&target, LONGEST_LIST, &mut met);
                assert_eq!(found, expected, "question in memory {made}");
            }
            let expected = with_plain.offer(&node, &mut met);
            let found = with_filled.offer(&node, &mut met);
            assert_eq!(found, expected, "offer in memory {made}");
        }
        let held = buckets::nodes(with_plain.bytes());
        assert_eq!(buckets::nodes(with_filled.bytes()), held);
    }
    say(&format!(
        "buckets with {free} free places filled: {} offers, {} questions, added: {}, \
         replaced: {}\n",
        met.offers(),
        met.questions(),
        met.counts()["added"],
        met.counts()["replaced"]
    ));
    assert!(met.counts()["added"] >= 1_000 && met.counts()["replaced"] >= 1_000);
}
