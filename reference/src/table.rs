//! A table in lent memory: records in places, and the order of the used ones.
//!
//! ```text
//! | count (1) | order (p bytes) | record 0 (w) | ... | record p-1 (w) |
//! ```
//!
//! A place is used exactly when it is among the first `count` bytes of the
//! order, which list the used places in strictly rising order of their keys. A
//! record begins with its key. Nothing that is not listed is read.

use crate::key::Key;

/// The bytes of a key, at the front of each record.
pub const KEY: usize = 32;

/// A table of so many places, with records of so many bytes, as it stands at
/// the front of `bytes`, which has all the bytes of the table at least.
pub struct Table<'a> {
    pub bytes: &'a [u8],
    pub places: usize,
    pub width: usize,
}

/// How many bytes a table takes.
pub const fn length(places: usize, width: usize) -> usize {
    1 + places + places * width
}

impl<'a> Table<'a> {
    /// Whether the count is in range, the listed places are, and the listed
    /// keys strictly rise.
    pub fn whole(&self) -> bool {
        self.count_in_range() && self.listed_in_range() && self.keys_rise()
    }

    /// The listed places, where the count is in range.
    pub fn listed(&self) -> Vec<usize> {
        let order = &self.bytes[1..1 + self.count()];
        order.iter().map(|place| usize::from(*place)).collect()
    }

    /// Whether this key is a listed one, where the table is whole.
    pub fn lists(&self, key: &[u8]) -> bool {
        self.place_of(key).is_some()
    }

    /// The place of this key, if it is a listed one, where the table is whole.
    pub fn place_of(&self, key: &[u8]) -> Option<usize> {
        let mut listed = self.listed().into_iter();
        listed.find(|place| self.key(*place) == key)
    }

    /// The lowest place that is not listed, if there is one.
    pub fn lowest_free(&self) -> Option<usize> {
        let listed = self.listed();
        (0..self.places).find(|place| !listed.contains(place))
    }

    /// The record at a place in range.
    pub fn record(&self, place: usize) -> &'a [u8] {
        let start = record_start(self.places, self.width, place);
        &self.bytes[start..start + self.width]
    }

    /// The records of the listed places, in their order, where the table is whole.
    pub fn records(&self) -> Vec<&'a [u8]> {
        let listed = self.listed().into_iter();
        listed.map(|place| self.record(place)).collect()
    }

    fn count(&self) -> usize {
        usize::from(self.bytes[0])
    }

    fn count_in_range(&self) -> bool {
        self.count() <= self.places
    }

    fn listed_in_range(&self) -> bool {
        self.listed().iter().all(|place| *place < self.places)
    }

    /// Each listed key against every listed one behind it. A place listed twice
    /// fails here, for a key does not come before itself.
    fn keys_rise(&self) -> bool {
        let listed = self.listed();
        (0..listed.len()).all(|later| {
            (0..later).all(|earlier| before(self.key(listed[earlier]), self.key(listed[later])))
        })
    }

    fn key(&self, place: usize) -> &'a [u8] {
        &self.record(place)[..KEY]
    }
}

/// Whether the first byte in which two keys differ is the lower one in `a`.
fn before(a: &[u8], b: &[u8]) -> bool {
    for place in 0..KEY {
        if a[place] != b[place] {
            return a[place] < b[place];
        }
    }
    false
}

/// Where the record of a place starts.
fn record_start(places: usize, width: usize, place: usize) -> usize {
    1 + places + place * width
}

/// The key at the front of a record.
pub fn key_of(record: &[u8]) -> Key {
    let mut key = [0; KEY];
    key.copy_from_slice(&record[..KEY]);
    key
}

/// Writes a record at a place in range. The order stays as it is, and so it stays
/// right where the record has the key that stood there.
pub fn write(bytes: &mut [u8], places: usize, place: usize, record: &[u8]) {
    let start = record_start(places, record.len(), place);
    bytes[start..start + record.len()].copy_from_slice(record);
}

/// Writes a record at a place that is not listed, with a key that is not listed
/// either, and lists the place. The bytes of the order behind it stay.
pub fn put(bytes: &mut [u8], places: usize, place: usize, record: &[u8]) {
    write(bytes, places, place, record);
    let width = record.len();
    let table = Table {
        bytes,
        places,
        width,
    };
    let mut listed = table.listed();
    listed.push(place);
    listed.sort_by_key(|place| table.key(*place));
    bytes[0] = listed.len() as u8;
    for (at, place) in listed.into_iter().enumerate() {
        bytes[1 + at] = place as u8;
    }
}

/// The table with these records at their places; the places without one, and
/// the rest of the order, are zero bytes.
pub fn encode(records: &[Option<Vec<u8>>], width: usize) -> Vec<u8> {
    let mut listed: Vec<usize> = (0..records.len())
        .filter(|place| records[*place].is_some())
        .collect();
    // A record begins with its key, and no two keys are equal.
    listed.sort_by_key(|place| records[*place].clone());

    let mut bytes = vec![listed.len() as u8];
    bytes.extend(listed.iter().map(|place| *place as u8));
    bytes.resize(1 + records.len(), 0);
    for record in records {
        let unused = vec![0; width];
        bytes.extend(record.as_ref().unwrap_or(&unused));
    }
    bytes
}

#[cfg(test)]
mod tests {
    use super::*;

    /// Three places with records that are a bare key, of which these are used.
    fn table(firsts: [Option<u8>; 3]) -> Vec<u8> {
        let records = firsts.map(|first| first.map(|first| vec![first; KEY]));
        encode(&records, KEY)
    }

    fn of(bytes: &[u8]) -> Table<'_> {
        Table {
            bytes,
            places: 3,
            width: KEY,
        }
    }

    fn whole(bytes: &[u8]) -> bool {
        of(bytes).whole()
    }

    #[test]
    fn the_order_lists_used_places_by_their_keys() {
        let bytes = table([Some(9), None, Some(4)]);
        assert_eq!(bytes.len(), length(3, KEY));
        assert_eq!(bytes[..4], [2, 2, 0, 0]);
        assert_eq!(bytes[4..36], [9; KEY]);
        assert_eq!(bytes[36..68], [0; KEY]);
        assert_eq!(bytes[68..], [4; KEY]);
        assert!(whole(&bytes));
    }

    #[test]
    fn empty_and_full_tables_are_whole() {
        assert!(whole(&table([None, None, None])));
        assert!(whole(&table([Some(3), Some(2), Some(1)])));
    }

    #[test]
    fn keys_are_compared_from_the_first_byte() {
        let mut low = [0; KEY];
        let mut high = [0; KEY];
        low[31] = 255;
        high[0] = 1;
        assert!(before(&low, &high) && !before(&high, &low));
        low[31] = 1;
        high[0] = 0;
        assert!(before(&high, &low) && !before(&low, &high));
        assert!(!before(&low, &low));
    }

    #[test]
    fn each_damage_is_found() {
        let good = table([Some(9), Some(1), Some(4)]);
        assert_eq!(good[..4], [3, 1, 2, 0]);
        for (place, value) in [(0, 4), (0, 255), (1, 3), (3, 255), (1, 2), (2, 1)] {
            let mut damaged = good.clone();
            damaged[place] = value;
            assert!(!whole(&damaged), "{value} at {place}");
        }
        // Not the neighbours alone: each pair must rise.
        let mut damaged = good.clone();
        damaged[1..4].copy_from_slice(&[2, 0, 1]);
        assert!(!whole(&damaged));
        // A key above the one behind it, by its last byte alone.
        let mut damaged = good.clone();
        damaged[36..68].fill(4);
        assert!(!whole(&damaged));
        damaged[67] = 3;
        assert!(whole(&damaged));
        damaged[67] = 5;
        assert!(!whole(&damaged));
    }

    #[test]
    fn what_is_not_listed_is_not_read() {
        let mut bytes = table([None, Some(7), None]);
        bytes[2..4].fill(255);
        bytes[4..36].fill(7);
        bytes[68..].fill(7);
        assert!(whole(&bytes));
    }

    #[test]
    fn the_keys_of_used_places_are_listed_and_no_others() {
        let lists = |bytes: &[u8], key: &[u8]| of(bytes).lists(key);
        let mut bytes = table([Some(9), None, Some(4)]);
        bytes[36..68].fill(5);
        for first in 0..=255 {
            let used = first == 9 || first == 4;
            assert_eq!(lists(&bytes, &[first; KEY]), used);
        }
        let mut near = [9; KEY];
        near[31] = 8;
        assert!(!lists(&bytes, &near));
        assert!(!lists(&table([None; 3]), &[0; KEY]));
        assert!((1..=3).all(|first| lists(&table([Some(3), Some(2), Some(1)]), &[first; KEY])));
    }

    #[test]
    fn a_key_has_its_place_and_records_come_in_the_order_of_their_keys() {
        let mut bytes = table([Some(9), None, Some(4)]);
        bytes[36..68].fill(5);
        let table = of(&bytes);
        let places = [4, 5, 9].map(|first| table.place_of(&[first; KEY]));
        assert_eq!(places, [Some(2), None, Some(0)]);
        assert_eq!(table.records(), [[4; KEY], [9; KEY]]);
        assert_eq!(key_of(table.records()[0]), [4; KEY]);
    }

    #[test]
    fn the_lowest_place_that_is_not_listed_is_free() {
        let lowest = |firsts| of(&table(firsts)).lowest_free();
        assert_eq!(lowest([None, None, None]), Some(0));
        assert_eq!(lowest([Some(9), None, None]), Some(1));
        assert_eq!(lowest([None, Some(9), Some(4)]), Some(0));
        assert_eq!(lowest([Some(9), Some(4), None]), Some(2));
        assert_eq!(lowest([Some(9), Some(4), Some(6)]), None);
    }

    #[test]
    fn a_record_is_put_in_the_order_of_its_key_and_all_else_stays() {
        let mut bytes = table([None, Some(5), None]);
        // The order behind the count, and a byte behind the table.
        bytes[2..4].fill(0xee);
        bytes.push(0xee);
        for (place, first, order) in [(2, 7, [2, 1, 2, 0xee]), (0, 6, [3, 1, 0, 2])] {
            let mut expected = bytes.clone();
            expected[..4].copy_from_slice(&order);
            expected[4 + place * KEY..4 + (place + 1) * KEY].fill(first);
            put(&mut bytes, 3, place, &[first; KEY]);
            assert_eq!(bytes, expected);
            assert!(whole(&bytes));
        }
    }

    #[test]
    fn a_record_is_overwritten_where_it_stands() {
        let mut bytes = table([Some(9), Some(4), None]);
        write(&mut bytes, 3, 1, &[5; KEY]);
        assert_eq!(bytes, table([Some(9), Some(5), None]));
    }
}
