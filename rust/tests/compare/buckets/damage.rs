//! Ways to damage buckets. Where a rule can be broken alone, no other is.

use super::layout::{base_key, bucket, buckets_of, free_places};
use super::layout::{BUCKETS, BYTES, FAMILY_IN_RECORD, PLACES, RECORD};
use crate::generator::{Generator, FAMILIES};
use crate::table::{Table, KEY};
use reference::key::{flipped, Key};

#[derive(Debug, Clone, Copy)]
pub enum Damage {
    /// A held node stands in the bucket behind its own, or in the one before it.
    MovedBehind,
    MovedBefore,
    /// It stands in both.
    AlsoBehind,
    AlsoBefore,
    /// A bucket holds the base key.
    BaseKey,
    BaseKeyInLast,
    /// A bit that a held key shares with the base key is changed, or the one in which
    /// they differ.
    SharedBit,
    DifferingBit,
    /// The base key is another.
    OtherBase,
    /// A key stands in two places, in place of another or beside it.
    DoubledKey,
    DoubledKeyInFreePlace,
    /// A place is listed twice, in place of another or beside it.
    DoubledPlace,
    DoubledPlaceBehind,
    FallingOrder,
    Family(u8),
    Count(u8),
    Place(u8),
    /// A place above the last is listed, and a good record stands where that of such a
    /// place would: behind the last bucket, in longer memory.
    PlaceBehindLast,
    OneByteShort,
    NoByte,
}

use Damage::*;

pub const DAMAGES: [Damage; 26] = [
    MovedBehind,
    MovedBefore,
    AlsoBehind,
    AlsoBefore,
    BaseKey,
    BaseKeyInLast,
    SharedBit,
    DifferingBit,
    OtherBase,
    DoubledKey,
    DoubledKeyInFreePlace,
    DoubledPlace,
    DoubledPlaceBehind,
    FallingOrder,
    Family(0),
    Family(3),
    Family(131),
    Family(255),
    Count(9),
    Count(255),
    Place(8),
    Place(16),
    Place(255),
    PlaceBehindLast,
    OneByteShort,
    NoByte,
];

/// A held node: its bucket and its place.
fn held(memory: &[u8], random: &mut Generator) -> Option<(usize, usize)> {
    let number = one_of(&buckets_of(memory, 1, PLACES), random)?;
    Some((number, random.pick(&bucket(number).listed(memory))))
}

fn one_of(choices: &[usize], random: &mut Generator) -> Option<usize> {
    (!choices.is_empty()).then(|| random.pick(choices))
}

/// Does the damage; none where these buckets do not have what it takes.
pub fn damage(kind: Damage, memory: &mut Vec<u8>, random: &mut Generator) -> Option<()> {
    match kind {
        MovedBehind | MovedBefore | AlsoBehind | AlsoBefore | BaseKey | BaseKeyInLast
        | SharedBit | DifferingBit | OtherBase => wrong_key(kind, memory, random),
        DoubledKey | DoubledKeyInFreePlace | DoubledPlace | DoubledPlaceBehind | FallingOrder => {
            wrong_order(kind, memory, random)
        }
        Family(family) => {
            let (number, place) = held(memory, random)?;
            memory[bucket(number).record(place) + FAMILY_IN_RECORD] = family;
            Some(())
        }
        Count(count) => {
            // In a full bucket all that stands in the order is in order.
            let number = one_of(&buckets_of(memory, PLACES, PLACES), random)?;
            memory[bucket(number).start] = count;
            Some(())
        }
        Place(place) => {
            let table = bucket(held(memory, random)?.0);
            let at = random.below(table.count(memory));
            memory[table.order() + at] = place;
            Some(())
        }
        PlaceBehindLast => {
            let table = bucket(BUCKETS - 1);
            let key = flipped(&base_key(memory), BUCKETS - 1);
            memory.resize(BYTES + RECORD, 0);
            memory[table.record(PLACES)..][..KEY].copy_from_slice(&key);
            memory[table.record(PLACES) + FAMILY_IN_RECORD] = random.pick(&FAMILIES);
            memory[table.start] = 1;
            memory[table.order()] = PLACES as u8;
            Some(())
        }
        OneByteShort => {
            memory.truncate(BYTES - 1);
            Some(())
        }
        NoByte => {
            memory.clear();
            Some(())
        }
    }
}

/// A key stands where it does not belong. Each table keeps its own rules.
fn wrong_key(kind: Damage, memory: &mut [u8], random: &mut Generator) -> Option<()> {
    match kind {
        BaseKey | BaseKeyInLast => {
            let number = match kind {
                BaseKey => random.below(BUCKETS),
                _ => BUCKETS - 1,
            };
            let base = base_key(memory);
            let place = free_or_any(memory, number, random);
            list_node(memory, number, place, &base, random);
        }
        OtherBase => {
            // Keys are wrong from the bit on that is changed.
            let (number, _) = held(memory, random)?;
            let base = flipped(&base_key(memory), random.below(number + 1));
            memory[..KEY].copy_from_slice(&base);
        }
        SharedBit | DifferingBit => {
            // A key alone in its bucket is in order whatever it is.
            let number = one_of(&buckets_of(memory, 1, 1), random)?;
            let place = bucket(number).listed(memory)[0];
            let bit = match kind {
                SharedBit if number == 0 => return None,
                SharedBit => random.below(number),
                _ => number,
            };
            let key = flipped(&bucket(number).key(memory, place), bit);
            memory[bucket(number).record(place)..][..KEY].copy_from_slice(&key);
        }
        _ => {
            let (number, place) = held(memory, random)?;
            let neighbour = match kind {
                MovedBehind | AlsoBehind => number + 1,
                _ => number.checked_sub(1)?,
            };
            if neighbour == BUCKETS {
                return None;
            }
            let key = bucket(number).key(memory, place);
            if matches!(kind, MovedBehind | MovedBefore) {
                unlist(memory, bucket(number), place);
            }
            let to = free_or_any(memory, neighbour, random);
            list_node(memory, neighbour, to, &key, random);
        }
    }
    Some(())
}

/// The order of a bucket is broken. Each key belongs to it.
fn wrong_order(kind: Damage, memory: &mut [u8], random: &mut Generator) -> Option<()> {
    let (least, most) = match kind {
        DoubledKeyInFreePlace | DoubledPlaceBehind => (1, PLACES - 1),
        _ => (2, PLACES),
    };
    let number = one_of(&buckets_of(memory, least, most), random)?;
    let table = bucket(number);
    let listed = table.listed(memory);
    let at = random.below(listed.len());
    // Another that is listed, where there are two.
    let further = 1 + random.below((listed.len() - 1).max(1));
    let other = (at + further) % listed.len();
    match kind {
        DoubledKey => {
            let from = table.record(listed[at]);
            memory.copy_within(from..from + KEY, table.record(listed[other]));
        }
        DoubledKeyInFreePlace => {
            let free = random.pick(&free_places(memory, number));
            let from = table.record(listed[at]);
            memory.copy_within(from..from + RECORD, table.record(free));
            insert(memory, table, at + random.below(2), free);
        }
        DoubledPlace => memory[table.order() + other] = listed[at] as u8,
        DoubledPlaceBehind => insert(memory, table, at + random.below(2), listed[at]),
        _ => memory.swap(table.order() + at, table.order() + other),
    }
    Some(())
}

/// A place of a bucket that is free; any where it is full.
fn free_or_any(memory: &[u8], number: usize, random: &mut Generator) -> usize {
    let free = free_places(memory, number);
    one_of(&free, random).unwrap_or(random.below(PLACES))
}

/// Lists a node with this key at a place of a bucket, in the order of the keys.
fn list_node(memory: &mut [u8], number: usize, place: usize, key: &Key, random: &mut Generator) {
    let table = bucket(number);
    table.list(memory, place, key);
    memory[table.record(place) + FAMILY_IN_RECORD] = random.pick(&FAMILIES);
}

/// Lists a place at a place of the order; there is room for it.
fn insert(memory: &mut [u8], table: Table, at: usize, place: usize) {
    let (count, order) = (table.count(memory), table.order());
    memory.copy_within(order + at..order + count, order + at + 1);
    memory[order + at] = place as u8;
    memory[table.start] += 1;
}

/// Takes a place out of the order. Its record stays, and is free.
fn unlist(memory: &mut [u8], table: Table, place: usize) {
    let listed = table.listed(memory);
    let kept = listed.iter().filter(|other| **other != place);
    for (at, place) in kept.enumerate() {
        memory[table.order() + at] = *place as u8;
    }
    memory[table.start] -= 1;
}
