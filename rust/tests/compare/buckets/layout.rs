//! Where things stand in the memory of buckets, as docs/ARCHITECTURE.md has it.

use crate::table::{Table, KEY};
use reference::key::Key;

/// base key (32), 256 buckets
pub const BYTES: usize = 106_784;
pub const BUCKETS: usize = 256;

/// A bucket is a table: count (1), order (8), 8 records
pub const BUCKET_BYTES: usize = 417;
pub const PLACES: usize = 8;

/// key (32), family (1), address (16), port (2, the highest byte first)
pub const RECORD: usize = 51;
pub const FAMILY_IN_RECORD: usize = 32;

pub const fn bucket(number: usize) -> Table {
    Table {
        start: KEY + number * BUCKET_BYTES,
        places: PLACES,
        width: RECORD,
    }
}

pub fn base_key(memory: &[u8]) -> Key {
    memory[..KEY].try_into().expect("32 bytes")
}

/// The buckets that hold at least and at most so many nodes.
pub fn buckets_of(memory: &[u8], least: usize, most: usize) -> Vec<usize> {
    (0..BUCKETS)
        .filter(|number| (least..=most).contains(&bucket(*number).count(memory)))
        .collect()
}

/// The places of a bucket that it does not list.
pub fn free_places(memory: &[u8], number: usize) -> Vec<usize> {
    let listed = bucket(number).listed(memory);
    (0..PLACES)
        .filter(|place| !listed.contains(place))
        .collect()
}
