//! A table in lent memory: records in places, and the order of the used ones. The
//! room is made of such tables, and so are buckets.
//!
//! The layout is known here from docs/ARCHITECTURE.md alone.

use crate::generator::Generator;
use reference::key::Key;

/// The bytes of a key, with which every record begins.
pub const KEY: usize = 32;

/// A table in memory: where it stands, its places and the width of a record.
#[derive(Clone, Copy)]
pub struct Table {
    pub start: usize,
    pub places: usize,
    pub width: usize,
}

impl Table {
    pub const fn order(self) -> usize {
        self.start + 1
    }

    pub const fn record(self, place: usize) -> usize {
        self.start + 1 + self.places + place * self.width
    }

    pub fn count(self, memory: &[u8]) -> usize {
        usize::from(memory[self.start])
    }

    /// The key with which the record of a place begins.
    pub fn key(self, memory: &[u8], place: usize) -> Key {
        let key = &memory[self.record(place)..][..KEY];
        key.try_into().expect("32 bytes")
    }

    /// The places that the table lists, in its order.
    pub fn listed(self, memory: &[u8]) -> Vec<usize> {
        let order = &memory[self.order()..][..self.count(memory)];
        order.iter().map(|place| usize::from(*place)).collect()
    }

    /// Lists a key at a place, where the order has it and nowhere else: what the
    /// place had before is gone.
    pub fn list(self, memory: &mut [u8], place: usize, key: &Key) {
        let mut listed = self.listed(memory);
        listed.retain(|other| *other != place && self.key(memory, *other) != *key);
        let lower = listed.partition_point(|other| self.key(memory, *other) < *key);
        listed.insert(lower, place);
        memory[self.record(place)..][..KEY].copy_from_slice(key);
        memory[self.start] = listed.len() as u8;
        for (at, place) in listed.into_iter().enumerate() {
            memory[self.order() + at] = place as u8;
        }
    }

    /// Puts a key in the record of a place that is not listed, and that place
    /// behind the count of the order: the count alone keeps it out.
    pub fn hide(self, memory: &mut [u8], place: usize, key: &Key) {
        let count = self.count(memory);
        memory[self.record(place)..][..KEY].copy_from_slice(key);
        memory[self.order() + count] = place as u8;
    }

    /// Fills the order behind the count and the records that are not listed.
    pub fn fill_unlisted(self, memory: &mut [u8], random: &mut Generator) {
        let listed = self.listed(memory);
        random.fill(&mut memory[self.order()..][listed.len()..self.places]);
        for place in (0..self.places).filter(|place| !listed.contains(place)) {
            random.fill(&mut memory[self.record(place)..][..self.width]);
        }
    }
}
