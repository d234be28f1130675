//! Buckets over generated runs of offers and questions, held against a plain model
//! and against the nearest list.

use std::collections::BTreeMap;

use super::tests::{asked, begun, packed_all};
use super::*;
use crate::bucket_offers::{BucketOffers, Spread, SPREADS};
use crate::nearest as list;

/// What buckets hold, by the rules alone: a list of nodes for each number of shared
/// bits, in the order in which they came.
type Model = BTreeMap<usize, Vec<Node>>;

/// What the rules say that an offer does, and the model after it.
fn modelled(model: &mut Model, base: &Key, node: &Node) -> Result<bool, Refusal> {
    if !known_family(node.family) {
        return Err(15);
    }
    if node.key == *base {
        return Ok(false);
    }
    let bucket = model.entry(shared_bits(base, &node.key)).or_default();
    if let Some(held) = bucket.iter_mut().find(|held| held.key == node.key) {
        *held = node.clone();
        return Ok(true);
    }
    if bucket.len() == 8 {
        return Ok(false);
    }
    bucket.push(node.clone());
    Ok(true)
}

/// "Prove that this equals offering every held node to a nearest list of size 4."
fn by_the_nearest_list(memory: &[u8], target: &Key) -> Vec<u8> {
    let (mut four, _) = list::begin(target, 4);
    for node in nodes(memory) {
        (four, _) = list::offer(&four, &node);
    }
    packed_all(&four.nodes)
}

fn run(seed: u64, spread: Spread, offers: usize) {
    let mut made = BucketOffers::new(seed, spread);
    let base = *made.base();
    let mut memory = begun(&base);
    let mut model = Model::new();
    for _ in 0..offers {
        let node = made.offer();
        let before = memory.clone();
        let answer = offer(&mut memory, &node).map(Effect::kept);
        assert_eq!(answer, modelled(&mut model, &base, &node));
        assert!(answer == Ok(true) || memory == before);
        assert!(whole(&memory));

        let mut held: Vec<Node> = model.values().flatten().cloned().collect();
        let target = made.target();
        held.sort_by_key(|node| distance(&target, &node.key));
        let mut found = nodes(&memory);
        found.sort_by_key(|node| distance(&target, &node.key));
        assert_eq!(found, held);
        held.truncate(4);
        assert_eq!(asked(&memory, &target), packed_all(&held));
        assert_eq!(
            asked(&memory, &target),
            by_the_nearest_list(&memory, &target)
        );
    }
}

#[test]
fn runs_follow_the_rules_and_answer_as_the_nearest_list() {
    for seed in 0..5 {
        for spread in SPREADS {
            run(seed, spread, 200);
        }
    }
}
