//! Buckets: what they begin with, what offers leave, and what questions are answered.

use super::*;
use crate::bucket_offers::{key_of_bucket, keys_that_fill};
use crate::key::flipped;
use crate::node::LONGEST_LIST;
use crate::random::Random;

/// A base key with different bytes.
pub(super) fn some_base() -> Key {
    Random::new(70).key()
}

/// Empty buckets for a base key.
pub(super) fn begun(base: &Key) -> Vec<u8> {
    let mut memory = vec![0xee; BYTES];
    assert_eq!(begin(&mut memory, base), Ok(()));
    memory
}

/// A node with this key, with a different byte at each place of its address.
pub(super) fn node(family: u8, key: Key) -> Node {
    let address = [1, 2, 3, 4, 5, 6, 7, 8, 9, 10, 11, 12, 13, 14, 15, 16];
    Node {
        family,
        address,
        port: 0x82a5,
        key,
    }
}

/// So many different keys that share `number` bits with the base key, rising.
pub(super) fn rising(base: &Key, number: usize, count: usize) -> Vec<Key> {
    let mut keys = keys_that_fill(&mut Random::new(71), base, number);
    keys.truncate(count);
    keys.sort();
    keys
}

/// Buckets that hold nodes with these keys, offered in turn.
pub(super) fn holding(base: &Key, keys: &[Key]) -> Vec<u8> {
    let mut memory = begun(base);
    for key in keys {
        assert_eq!(offer(&mut memory, &node(2, *key)), Ok(Effect::Added));
    }
    memory
}

/// What a question is answered, with bytes behind that must stay.
pub(super) fn asked(memory: &[u8], target: &Key) -> Vec<u8> {
    let mut out = [0xee; LONGEST_LIST + 6];
    let count = nearest(memory, target, &mut out).expect("whole buckets");
    assert!(out[count..].iter().all(|byte| *byte == 0xee));
    out[..count].to_vec()
}

/// The packed nodes, one behind the other.
pub(super) fn packed_all(nodes: &[Node]) -> Vec<u8> {
    let nodes = nodes.iter();
    nodes.flat_map(|node| packed(node).unwrap()).collect()
}

#[test]
fn buckets_take_106784_bytes() {
    assert_eq!((BUCKET_BYTES, BYTES), (417, 106_784));
    assert_eq!(bucket_start(255) + BUCKET_BYTES, BYTES);
}

#[test]
fn begun_buckets_are_the_base_key_and_zeros() {
    let mut memory = vec![0xee; BYTES + 5];
    assert_eq!(begin(&mut memory, &[0x11; 32]), Ok(()));
    assert_eq!(memory[..32], [0x11; 32]);
    assert!(memory[32..BYTES].iter().all(|byte| *byte == 0));
    assert_eq!(memory[BYTES..], [0xee; 5]);
    assert!(whole(&memory));
    assert_eq!(nodes(&memory), []);
}

#[test]
fn memory_too_short_is_refused_with_10_where_buckets_begin() {
    for length in [0, 1, 31, 32, 449, BYTES - 1] {
        let mut memory = vec![0xee; length];
        assert_eq!(begin(&mut memory, &[0x11; 32]), Err(10));
        assert_eq!(memory, vec![0xee; length]);
    }
}

#[test]
fn an_added_node_stands_in_the_bucket_of_its_shared_bits() {
    let base = some_base();
    for number in 0..BUCKETS {
        let key = flipped(&base, number);
        let mut expected = begun(&base);
        let start = 32 + 417 * number;
        expected[start] = 1;
        expected[start + 9..start + 41].copy_from_slice(&key);
        expected[start + 41] = 138;
        expected[start + 42..start + 58].copy_from_slice(&node(138, key).address);
        expected[start + 58..start + 60].copy_from_slice(&[0x82, 0xa5]);

        let mut memory = begun(&base);
        assert_eq!(offer(&mut memory, &node(138, key)), Ok(Effect::Added));
        assert!(memory == expected, "bucket {number}");
        assert_eq!(nodes(&memory), [node(138, key)]);
        assert_eq!(nodes_in(&memory, number), [node(138, key)]);
    }
}

/// The first free place is taken, and the order is that of the keys.
#[test]
fn places_are_taken_in_turn_and_listed_by_their_keys() {
    let base = some_base();
    let keys = rising(&base, 40, 8);
    let turns = [5, 2, 7, 0, 1, 6, 3, 4];
    let mut memory = begun(&base);
    for (place, key) in turns.map(|turn| keys[turn]).into_iter().enumerate() {
        assert_eq!(offer(&mut memory, &node(2, key)), Ok(Effect::Added));
        assert_eq!(key_of(bucket(&memory, 40).record(place)), key);
    }
    let start = bucket_start(40);
    assert_eq!(memory[start..start + 9], [8, 3, 4, 1, 6, 7, 0, 5, 2]);
    assert!(nodes(&memory).iter().map(|node| node.key).eq(keys));
}

/// No call frees a place, but lent memory may have a free one before a used one.
#[test]
fn the_lowest_free_place_is_taken() {
    let base = some_base();
    let keys = rising(&base, 9, 3);
    let mut memory = begun(&base);
    let start = bucket_start(9);
    for (place, key) in [(3, keys[1]), (0, keys[2])] {
        table::put(
            &mut memory[start..],
            PLACES,
            place,
            &record_of(&node(10, key)),
        );
    }
    // What stands behind the count of the order is not read, and stays.
    memory[start + 3..start + 9].fill(0xee);
    assert_eq!(offer(&mut memory, &node(2, keys[0])), Ok(Effect::Added));
    assert_eq!(
        memory[start..start + 9],
        [3, 1, 3, 0, 0xee, 0xee, 0xee, 0xee, 0xee]
    );
    assert!(nodes(&memory).iter().map(|node| node.key).eq(keys));
}

#[test]
fn a_held_key_has_its_node_replaced_and_nothing_moves() {
    let base = some_base();
    for count in [1, 5, 8] {
        let keys = rising(&base, 3, count);
        let mut memory = holding(&base, &keys);
        for (place, key) in keys.iter().enumerate() {
            let mut expected = memory.clone();
            let other = Node {
                family: 138,
                address: [0x77; 16],
                port: 0,
                key: *key,
            };
            let start = bucket_start(3) + 9 + 51 * place + 32;
            expected[start] = 138;
            expected[start + 1..start + 17].fill(0x77);
            expected[start + 17..start + 19].fill(0);
            assert_eq!(offer(&mut memory, &other), Ok(Effect::Replaced));
            assert!(memory == expected);
        }
    }
}

/// "Unlike the nearest list, a full bucket takes no new key".
#[test]
fn a_full_bucket_takes_no_new_key_however_near() {
    let base = some_base();
    let mut memory = holding(&base, &rising(&base, 20, 8));
    let before = memory.clone();
    let nearest_of_all = flipped(&base, 20);
    let mut random = Random::new(72);
    let mut offered = vec![nearest_of_all];
    offered.extend((0..20).map(|_| key_of_bucket(&mut random, &base, 20)));
    for key in offered {
        assert!(nodes(&before).iter().all(|held| held.key != key));
        assert_eq!(offer(&mut memory, &node(2, key)), Ok(Effect::Full));
        assert!(memory == before);
    }
    // The neighbours have room.
    for number in [19, 21] {
        let key = flipped(&base, number);
        assert_eq!(offer(&mut memory, &node(2, key)), Ok(Effect::Added));
    }
}

#[test]
fn the_base_key_is_never_held() {
    for base in [[0; 32], [0xff; 32], some_base()] {
        let keys: Vec<Key> = (0..BUCKETS).map(|number| flipped(&base, number)).collect();
        for mut memory in [begun(&base), holding(&base, &keys)] {
            let before = memory.clone();
            assert_eq!(offer(&mut memory, &node(2, base)), Ok(Effect::BaseKey));
            assert!(memory == before);
        }
    }
}

#[test]
fn yes_is_answered_to_what_is_held_afterwards() {
    assert!(Effect::Added.kept() && Effect::Replaced.kept());
    assert!(!Effect::Full.kept() && !Effect::BaseKey.kept());
}

/// Of a new key, a held one, one for a full bucket and the base key.
#[test]
fn an_unknown_family_is_refused_with_15_and_leaves_the_memory() {
    let base = some_base();
    let keys = rising(&base, 8, 8);
    let mut memory = holding(&base, &keys);
    let before = memory.clone();
    for key in [flipped(&base, 4), keys[3], flipped(&base, 8), base] {
        for family in 0..=255 {
            if !known_family(family) {
                assert_eq!(offer(&mut memory, &node(family, key)), Err(15));
            }
        }
    }
    assert!(memory == before);
}

/// The last buckets have fewer keys than places; all the others can be full.
#[test]
fn buckets_hold_2031_nodes_at_most() {
    let base = some_base();
    let mut random = Random::new(73);
    let mut memory = begun(&base);
    for number in 0..BUCKETS {
        for key in keys_that_fill(&mut random, &base, number) {
            assert_eq!(offer(&mut memory, &node(10, key)), Ok(Effect::Added));
        }
    }
    assert_eq!(nodes(&memory).len(), 2_031);
    let counts: Vec<usize> = (250..256)
        .map(|number| nodes_in(&memory, number).len())
        .collect();
    assert_eq!(counts, [8, 8, 8, 4, 2, 1]);
    for number in 0..BUCKETS {
        // In the last buckets there are few keys, and all of those in the last three
        // are held.
        let key = key_of_bucket(&mut random, &base, number);
        let held = bucket(&memory, number).lists(&key);
        assert!(held || number < 253);
        let effect = match held {
            true => Effect::Replaced,
            false => Effect::Full,
        };
        assert_eq!(offer(&mut memory, &node(10, key)), Ok(effect));
    }
    assert_eq!(nodes(&memory).len(), 2_031);
}

#[test]
fn empty_buckets_answer_no_node_into_any_output() {
    let memory = begun(&some_base());
    assert_eq!(nearest(&memory, &[0; 32], &mut []), Ok(0));
    assert_eq!(asked(&memory, &some_base()), []);
}

#[test]
fn the_four_nearest_of_all_buckets_are_written_nearest_first() {
    // Keys of buckets 0, 248, 252, 253 and 255.
    let base = [0; 32];
    let ending = |last| {
        let mut key = base;
        key[31] = last;
        key
    };
    let mut far = base;
    far[0] = 0x80;
    let keys = [ending(0x01), ending(0x05), ending(0x0c), ending(0x80), far];
    let memory = holding(&base, &keys);
    let list = |keys: &[Key]| packed_all(&keys.iter().map(|key| node(2, *key)).collect::<Vec<_>>());
    let [one, five, twelve, high, far] = keys;
    assert_eq!(asked(&memory, &base), list(&[one, five, twelve, high]));
    assert_eq!(asked(&memory, &five), list(&[five, one, twelve, high]));
    // By XOR, not by subtraction: for 08 the distances are 9, 13, 4, 0x88.
    let target = ending(0x08);
    assert_eq!(asked(&memory, &target), list(&[twelve, one, five, high]));
    assert_eq!(asked(&memory, &high), list(&[high, one, five, twelve]));
    assert_eq!(asked(&memory, &far), list(&[far, one, five, twelve]));
    assert_eq!(
        asked(&memory, &[0xff; 32]),
        list(&[far, high, twelve, five])
    );
}

#[test]
fn fewer_than_four_are_all_written_in_39_or_51_bytes_each() {
    let base = some_base();
    let families = [2, 10, 130, 138, 2];
    let mut memory = begun(&base);
    let mut held = Vec::new();
    for (number, family) in families.into_iter().enumerate() {
        let node = node(family, flipped(&base, 255 - number));
        assert_eq!(offer(&mut memory, &node), Ok(Effect::Added));
        held.push(node);
        let shown = &held[..held.len().min(4)];
        assert_eq!(asked(&memory, &base), packed_all(shown));
        let length = [39, 90, 129, 180, 180][number];
        assert_eq!(asked(&memory, &base).len(), length);
    }
}

#[test]
fn short_output_is_refused_by_the_exact_length_and_left_as_it_was() {
    let base = some_base();
    let mut memory = begun(&base);
    for number in 0..6 {
        let family = [2, 138][number % 2];
        let node = node(family, flipped(&base, number));
        assert_eq!(offer(&mut memory, &node), Ok(Effect::Added));
        let exact = asked(&memory, &base).len();
        for length in 0..exact {
            let mut out = vec![0xee; length];
            assert_eq!(nearest(&memory, &base, &mut out), Err(10));
            assert_eq!(out, vec![0xee; length]);
        }
        assert_eq!(nearest(&memory, &base, &mut vec![0; exact]), Ok(exact));
    }
}
