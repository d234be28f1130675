//! Buckets that are not whole are refused with 20, before all else, and what is no
//! part of the buckets is not read.

use super::tests::{asked, begun, holding, node, rising, some_base};
use super::*;
use crate::bucket_offers::UNKNOWN_FAMILIES;
use crate::key::flipped;
use crate::node::LONGEST_LIST;

/// An offer, with a good node or not, and a question, with any output, must be
/// refused with 20 and change nothing.
fn refused(memory: &[u8]) {
    assert!(!whole(memory));
    let mut after = memory.to_vec();
    for family in [2, 3] {
        for key in [[0; 32], some_base(), flipped(&some_base(), 7)] {
            assert_eq!(offer(&mut after, &node(family, key)), Err(20));
            for length in [0, LONGEST_LIST] {
                let mut out = vec![0xee; length];
                assert_eq!(nearest(memory, &key, &mut out), Err(20));
                assert_eq!(out, vec![0xee; length]);
            }
        }
    }
    assert!(after == memory);
}

/// A bucket with three nodes in the middle, and others around it.
fn good() -> Vec<u8> {
    let base = some_base();
    let around = [flipped(&base, 6), flipped(&base, 8), flipped(&base, 255)];
    holding(&base, &[&rising(&base, 7, 3)[..], &around].concat())
}

#[test]
fn memory_too_short_is_refused_with_20() {
    let memory = good();
    for length in [0, 1, 32, 33, BYTES - 417, BYTES - 1] {
        refused(&memory[..length]);
    }
    assert!(whole(&memory));
    assert!(whole(&[&memory[..], &[0xee]].concat()));
}

#[test]
fn a_broken_table_is_refused_with_20() {
    let start = bucket_start(7);
    assert_eq!(good()[start..start + 4], [3, 0, 1, 2]);
    for table in [
        // A count above 8.
        [9, 0, 1, 2],
        [255, 0, 1, 2],
        // A place above 7.
        [3, 8, 1, 2],
        [3, 0, 1, 255],
        // A place twice.
        [3, 1, 1, 2],
        [3, 0, 0, 2],
        [3, 0, 1, 1],
        [3, 0, 1, 0],
        [4, 0, 1, 2],
        // Keys that fall.
        [3, 1, 0, 2],
        [3, 0, 2, 1],
        [3, 2, 0, 1],
        // A free place, whose record has the key of zeros.
        [3, 0, 1, 3],
    ] {
        let mut memory = good();
        memory[start..start + 4].copy_from_slice(&table);
        refused(&memory);
    }
}

#[test]
fn a_doubled_key_is_refused_with_20() {
    let mut memory = good();
    let held = bucket(&memory, 7).record(1).to_vec();
    table::put(&mut memory[bucket_start(7)..], PLACES, 5, &held);
    refused(&memory);
}

#[test]
fn the_base_key_in_any_bucket_is_refused_with_20() {
    for number in 0..BUCKETS {
        let mut memory = good();
        let record = record_of(&node(2, some_base()));
        table::put(&mut memory[bucket_start(number)..], PLACES, 7, &record);
        assert!(bucket(&memory, number).whole());
        refused(&memory);
    }
}

#[test]
fn a_key_in_a_wrong_bucket_is_refused_with_20() {
    let base = some_base();
    for number in 0..BUCKETS {
        for other in [number.wrapping_sub(1), number + 1] {
            if other < BUCKETS {
                let mut memory = begun(&base);
                let record = record_of(&node(2, flipped(&base, number)));
                table::put(&mut memory[bucket_start(other)..], PLACES, 0, &record);
                refused(&memory);
            }
        }
    }
}

/// With another base key the same keys are wrong, from the bit that differs on.
#[test]
fn keys_of_another_base_key_are_refused_with_20() {
    let base = some_base();
    for number in [0, 1, 100, 254, 255] {
        for changed in [0, 1, 99, 100, 101, 254, 255] {
            let mut memory = holding(&base, &[flipped(&base, number)]);
            memory[..32].copy_from_slice(&flipped(&base, changed));
            assert_eq!(whole(&memory), changed > number);
        }
    }
}

#[test]
fn a_held_node_of_unknown_family_is_refused_with_20() {
    for place in 0..3 {
        for family in UNKNOWN_FAMILIES {
            let mut memory = good();
            memory[bucket_start(7) + 9 + 51 * place + 32] = family;
            refused(&memory);
        }
    }
}

#[test]
fn what_is_not_listed_is_not_read() {
    let base = some_base();
    let mut memory = good();
    let before = [some_base(), [0; 32]].map(|target| asked(&memory, &target));
    let held = nodes(&memory);
    for number in 0..BUCKETS {
        let used = bucket(&memory, number).listed().len();
        let start = bucket_start(number);
        memory[start + 1 + used..start + 9].fill(0xff);
        // The used places are the first ones.
        let record = record_of(&node(3, base));
        for place in used..PLACES {
            table::write(&mut memory[start..], PLACES, place, &record);
        }
    }
    memory.extend([0xee; 3]);
    assert_eq!(nodes(&memory), held);
    let after = [some_base(), [0; 32]].map(|target| asked(&memory, &target));
    assert_eq!(before, after);
    assert_eq!(offer(&mut memory, &held[0]), Ok(Effect::Replaced));
    let key = flipped(&base, 7);
    assert_eq!(offer(&mut memory, &node(2, key)), Ok(Effect::Added));
    assert_eq!(nodes(&memory).len(), held.len() + 1);
    assert_eq!(memory[BYTES..], [0xee; 3]);
}

/// The bytes of an address that IPv4 does not use stand in the record as they were
/// offered, and are in no answer.
#[test]
fn unused_address_bytes_are_kept_and_not_written() {
    let base = some_base();
    let key = flipped(&base, 3);
    let mut memory = holding(&base, &[key]);
    let list = asked(&memory, &base);
    let mut other = node(2, key);
    other.address[4..].fill(0xff);
    assert_eq!(offer(&mut memory, &other), Ok(Effect::Replaced));
    assert_eq!(nodes(&memory), [other]);
    assert_eq!(asked(&memory, &base), list);
    assert_eq!(list.len(), 39);
}
