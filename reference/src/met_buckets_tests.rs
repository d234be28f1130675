//! The cases of calls on buckets: told apart as they are meant to be, and all met by
//! generated runs.

use super::*;
use crate::bucket_offers::{BucketOffers, SPREADS};
use crate::key::flipped;

const BASE: Key = [0x40; 32];

fn node(family: u8, key: Key) -> Node {
    Node {
        family,
        address: [7; 16],
        port: 1,
        key,
    }
}

/// Empty buckets for the base key.
fn begun() -> Vec<u8> {
    let mut memory = vec![0; BYTES];
    assert_eq!(buckets::begin(&mut memory, &BASE), Ok(()));
    memory
}

/// The key of bucket 0 that ends so. They rise with their last byte.
fn ending(last: u8) -> Key {
    let mut key = flipped(&BASE, 0);
    key[31] = last;
    key
}

/// The cases that a call meets: their names, in the order of the alphabet.
fn met(call: impl FnOnce(&mut MetBuckets)) -> Vec<&'static str> {
    let mut met = MetBuckets::default();
    call(&mut met);
    let counts = met.counts().iter();
    counts
        .filter(|(_, count)| **count > 0)
        .map(|(case, _)| *case)
        .collect()
}

/// The cases of an offer.
fn offered(memory: &mut [u8], node: &Node) -> Vec<&'static str> {
    met(|met| {
        let _ = met.offer(memory, node);
    })
}

/// The cases of a question.
fn asked(memory: &[u8], target: &Key, length: usize) -> Vec<&'static str> {
    met(|met| {
        let _ = met.nearest(memory, target, &mut vec![0; length]);
    })
}

#[test]
fn cases_are_listed_once() {
    let mut cases = BUCKET_CASES.to_vec();
    cases.sort();
    cases.dedup();
    assert_eq!(cases.len(), BUCKET_CASES.len());
}

#[test]
fn offers_are_told_apart() {
    let memory = &mut begun();
    let added = ["added", "added to an empty bucket"];
    assert_eq!(offered(memory, &node(2, ending(5))), added);
    let added = ["added", "added behind all held keys"];
    assert_eq!(offered(memory, &node(2, ending(9))), added);
    let added = ["added", "added before a held key"];
    for last in [7, 6, 8, 4, 3] {
        assert_eq!(offered(memory, &node(2, ending(last))), added);
    }
    assert_eq!(offered(memory, &node(130, ending(5))), ["replaced"]);
    let other = ["replaced", "replaced over the other version of IP"];
    assert_eq!(offered(memory, &node(10, ending(5))), other);

    let unknown = offered(memory, &node(3, ending(20)));
    assert_eq!(unknown, ["offer refused with 15"]);
    let last = [
        "added",
        "added behind all held keys",
        "added in the last place",
    ];
    assert_eq!(offered(memory, &node(2, ending(20))), last);
    let full = ["replaced", "replaced in a full bucket"];
    assert_eq!(offered(memory, &node(2, ending(9))), full);

    // From the base key's last byte 0x40, 0xbf is the furthest of all, and 0x40 the nearest.
    assert_eq!(offered(memory, &node(2, ending(0xbf))), ["full"]);
    let near = [
        "full",
        "full, though nearer to the base key than a held one",
    ];
    assert_eq!(offered(memory, &node(2, ending(0x40))), near);

    assert_eq!(offered(memory, &node(2, BASE)), ["base key"]);
    let of_15 = |more| vec!["offer refused with 15", more];
    let base = of_15("offer refused with 15, of the base key");
    assert_eq!(offered(memory, &node(3, BASE)), base);
    let held = of_15("offer refused with 15, of a held key");
    assert_eq!(offered(memory, &node(3, ending(5))), held);
    let new = of_15("offer refused with 15, of a new key for a full bucket");
    assert_eq!(offered(memory, &node(3, ending(0x40))), new);

    let last = [
        "added",
        "added to an empty bucket",
        "added to one of the last three buckets",
    ];
    for number in 253..256 {
        let key = flipped(&BASE, number);
        assert_eq!(offered(memory, &node(2, key)), last);
    }
    memory[32] = 9;
    let broken = ["offer refused with 20"];
    assert_eq!(offered(memory, &node(2, ending(5))), broken);
    assert_eq!(offered(&mut [], &node(2, ending(5))), broken);
}

#[test]
fn questions_are_told_apart() {
    let memory = &mut begun();
    let none = [
        "answer into an empty output",
        "answer into an output of its length",
        "answer of 0 nodes",
        "target is neither",
    ];
    assert_eq!(asked(memory, &[9; 32], 0), none);
    let none = ["answer of 0 nodes", "target is the base key"];
    assert_eq!(asked(memory, &BASE, 5), none);

    buckets::offer(memory, &node(2, ending(5))).unwrap();
    let held = ["answer of 1 node", "target is held"];
    assert_eq!(asked(memory, &ending(5), 40), held);
    let short = [
        "question refused with 10",
        "question refused with 10, by one byte",
    ];
    assert_eq!(asked(memory, &ending(5), 38), short);
    assert_eq!(asked(memory, &ending(5), 37), short[..1]);

    buckets::offer(memory, &node(138, flipped(&BASE, 30))).unwrap();
    let two = [
        "answer from two buckets or more",
        "answer into an output of its length",
        "answer of 2 nodes",
        "answer over both versions of IP",
        "target is the base key",
    ];
    assert_eq!(asked(memory, &BASE, 90), two);
    let two = [
        "answer from two buckets or more",
        "answer in another order than to the base key",
        "answer of 2 nodes",
        "answer over both versions of IP",
        "target is neither",
    ];
    assert_eq!(asked(memory, &ending(6), 91), two);

    buckets::offer(memory, &node(2, ending(6))).unwrap();
    buckets::offer(memory, &node(2, ending(7))).unwrap();
    let four = asked(memory, &BASE, 204);
    assert!(four.contains(&"answer of 4 nodes, and no more are held"));
    buckets::offer(memory, &node(2, ending(8))).unwrap();
    let four = asked(memory, &BASE, 204);
    assert!(four.contains(&"answer of 4 nodes"));
    assert!(!four.contains(&"answer of 4 nodes, and no more are held"));

    memory[32] = 9;
    let broken = [
        "question refused with 20",
        "question refused with 20, for an empty output",
    ];
    assert_eq!(asked(memory, &BASE, 204), broken[..1]);
    assert_eq!(asked(memory, &BASE, 0), broken);
}

/// Runs alone bring every case but 20, for which memory has to be damaged.
#[test]
fn generated_runs_meet_every_case() {
    let mut met = MetBuckets::default();
    for seed in 0..60 {
        let mut made = BucketOffers::new(seed, SPREADS[seed as usize % SPREADS.len()]);
        let mut memory = vec![0; BYTES];
        buckets::begin(&mut memory, made.base()).unwrap();
        for turn in 0..150 {
            let target = made.target();
            let exact = exact_length(&memory, &target);
            let length = [0, exact, exact.saturating_sub(1), 204][turn % 4];
            let _ = met.nearest(&memory, &target, &mut vec![0; length]);
            let _ = met.offer(&mut memory, &made.offer());
        }
    }
    assert_eq!((met.offers(), met.questions()), (9_000, 9_000));
    for (case, count) in met.counts() {
        let floor = if case.contains("20") { 0 } else { 20 };
        assert!(*count >= floor, "{case}: {count}");
    }
}
