//! Buckets: nodes kept over the whole key space, in lent memory. The rules are
//! those of request 05 of document 02, "Keep nodes over the whole key space".
//!
//! ```text
//! buckets: | base key (32) | bucket 0 | bucket 1 | ... | bucket 255 |
//! bucket:  a table of 8 places
//! record:  | key (32) | family (1) | address (16) | port (2) |
//! ```
//!
//! Bucket n is for the keys that share n leading bits with the base key, and no
//! more. A port stands with its highest byte first. Nothing is read but the base
//! key and what the tables list: the free records and the bytes behind the buckets
//! are no part of the buckets.
//!
//! Lent memory is tested in full before use, with refusal 20. Behind it comes 15
//! for an offer, and 10 for a question.

use crate::key::{distance, shared_bits, Key};
use crate::node::{known_family, packed, Node, MOST_NODES};
use crate::refusal::{self, Refusal};
use crate::table::{self, key_of, Table, KEY};

/// How many buckets there are.
pub const BUCKETS: usize = 256;
/// How many nodes a bucket holds at most.
pub const PLACES: usize = 8;
/// How many bytes of memory buckets take.
pub const BYTES: usize = FIRST_BUCKET + BUCKETS * BUCKET_BYTES;

/// Where the first bucket starts: behind the base key.
const FIRST_BUCKET: usize = KEY;
/// The bytes of a bucket.
const BUCKET_BYTES: usize = table::length(PLACES, RECORD);

/// Where the family stands in a record: behind the key.
const FAMILY: usize = KEY;
/// Where the address stands in a record.
const ADDRESS: usize = FAMILY + 1;
/// Where the port stands in a record.
const PORT: usize = ADDRESS + 16;
/// The bytes of a record.
const RECORD: usize = PORT + 2;

/// What an offer did, if it was not refused.
#[derive(Debug, Clone, Copy, PartialEq, Eq)]
pub enum Effect {
    /// The key was not held, and is now.
    Added,
    /// The key was held, and its node is the one offered.
    Replaced,
    /// The key is not held, and its bucket has no room.
    Full,
    /// The key is the base key, which is never held.
    BaseKey,
}

impl Effect {
    /// The answer of the offer: whether the node offered is held.
    pub fn kept(self) -> bool {
        matches!(self, Effect::Added | Effect::Replaced)
    }
}

/// Begins empty buckets for a base key, whatever the memory held. Memory too short
/// is refused with 10.
pub fn begin(memory: &mut [u8], base: &Key) -> Result<(), Refusal> {
    if memory.len() < BYTES {
        return Err(refusal::OUTPUT);
    }
    memory[..BYTES].fill(0);
    memory[..KEY].copy_from_slice(base);
    Ok(())
}

/// Offers a node, with refusals 20, 15. Answers what the offer did; only a node that
/// is kept changes the memory.
pub fn offer(memory: &mut [u8], node: &Node) -> Result<Effect, Refusal> {
    check(memory)?;
    if !known_family(node.family) {
        return Err(refusal::FAMILY);
    }

    let number = shared_bits(&base(memory), &node.key);
    // "The base key is never held; offering it answers no."
    if number == BUCKETS {
        return Ok(Effect::BaseKey);
    }
    let bucket = bucket(memory, number);
    let held = bucket.place_of(&node.key);
    let free = bucket.lowest_free();
    let bytes = &mut memory[bucket_start(number)..];
    // "a held key has its node replaced"
    if let Some(place) = held {
        table::write(bytes, PLACES, place, &record_of(node));
        return Ok(Effect::Replaced);
    }
    // "a full bucket takes no new key"
    let Some(place) = free else {
        return Ok(Effect::Full);
    };
    table::put(bytes, PLACES, place, &record_of(node));
    Ok(Effect::Added)
}

/// "A question with a target gets the 4 nearest of all held nodes, or all when
/// fewer, written nearest first as a node list." The list is written to the front of
/// `out`, and the answer is how many bytes it has. With refusals 20, 10; 10 goes by
/// the exact length of the list.
pub fn nearest(memory: &[u8], target: &Key, out: &mut [u8]) -> Result<usize, Refusal> {
    check(memory)?;
    let mut records = held(memory);
    records.sort_by_cached_key(|record| distance(target, &key_of(record)));
    records.truncate(MOST_NODES);

    let mut list = Vec::new();
    for record in records {
        list.extend(packed(&node_of(record)).expect("a held node of known family"));
    }
    if out.len() < list.len() {
        return Err(refusal::OUTPUT);
    }
    out[..list.len()].copy_from_slice(&list);
    Ok(list.len())
}

/// Whether the memory holds whole buckets: it is long enough, and each bucket is
/// whole.
pub fn whole(memory: &[u8]) -> bool {
    memory.len() >= BYTES && (0..BUCKETS).all(|number| bucket_whole(memory, number))
}

/// All nodes that whole buckets hold, bucket by bucket.
pub fn nodes(memory: &[u8]) -> Vec<Node> {
    held(memory).into_iter().map(node_of).collect()
}

/// The nodes of one bucket whose table is whole, by rising key.
pub fn nodes_in(memory: &[u8], number: usize) -> Vec<Node> {
    let records = bucket(memory, number).records().into_iter();
    records.map(node_of).collect()
}

/// The base key of memory that is long enough.
pub fn base(memory: &[u8]) -> Key {
    key_of(memory)
}

/// A bucket of memory that is long enough.
pub fn bucket(memory: &[u8], number: usize) -> Table<'_> {
    Table {
        bytes: &memory[bucket_start(number)..],
        places: PLACES,
        width: RECORD,
    }
}

/// Refusal 20.
fn check(memory: &[u8]) -> Result<(), Refusal> {
    if !whole(memory) {
        return Err(refusal::BUCKETS);
    }
    Ok(())
}

/// Whether the table of a bucket is whole, each key that it lists belongs to this
/// bucket, and each node is of a known family. The base key belongs to no bucket,
/// for it shares 256 bits with itself.
fn bucket_whole(memory: &[u8], number: usize) -> bool {
    let base = base(memory);
    let bucket = bucket(memory, number);
    bucket.whole()
        && bucket.records().iter().all(|record| {
            shared_bits(&base, &key_of(record)) == number && known_family(record[FAMILY])
        })
}

/// The records of all held nodes, where the buckets are whole.
fn held(memory: &[u8]) -> Vec<&[u8]> {
    (0..BUCKETS)
        .flat_map(|number| bucket(memory, number).records())
        .collect()
}

/// Where a bucket starts.
fn bucket_start(number: usize) -> usize {
    FIRST_BUCKET + number * BUCKET_BYTES
}

/// The record of a node. All 16 address bytes stand in it, whatever the family.
fn record_of(node: &Node) -> Vec<u8> {
    [
        &node.key[..],
        &[node.family],
        &node.address,
        &node.port.to_be_bytes(),
    ]
    .concat()
}

/// The node of a record.
fn node_of(record: &[u8]) -> Node {
    let mut address = [0; 16];
    address.copy_from_slice(&record[ADDRESS..PORT]);
    Node {
        family: record[FAMILY],
        address,
        port: u16::from(record[PORT]) * 256 + u16::from(record[PORT + 1]),
        key: key_of(record),
    }
}

#[cfg(test)]
#[path = "buckets_tests.rs"]
mod tests;

#[cfg(test)]
#[path = "buckets_whole_tests.rs"]
mod whole_tests;

#[cfg(test)]
#[path = "bucket_runs_tests.rs"]
mod runs_tests;
