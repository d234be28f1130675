//! One pass over the listed keys in which each is compared with the next: less
//! than a test of a room has to do, which also looks for a seat's own key and at
//! the ping times.
//!
//! It compares byte by byte, as the second program does, and tests nothing
//! else: neither sizes nor counts nor places.

use reference::room::BASE;

/// The offsets of the layout that docs/ARCHITECTURE.md draws.
const SEATS_TABLE: usize = 10;
const SEAT_BYTES: usize = 1_105;
const ROUTES_IN_SEAT: usize = 48;
const KEY: usize = 32;

/// Whether the keys of the seats, and those of the routes of each seat, rise.
pub fn pass(memory: &[u8]) -> bool {
    let seats = &memory[SEATS_TABLE + 1..][..usize::from(memory[SEATS_TABLE])];
    rises(memory, SEATS_TABLE, BASE.seats, SEAT_BYTES)
        && seats.iter().all(|seat| {
            let record = SEATS_TABLE + 1 + BASE.seats + usize::from(*seat) * SEAT_BYTES;
            rises(memory, record + ROUTES_IN_SEAT, BASE.numbers, KEY)
        })
}

/// Whether each listed key of a table is below the next. A key is looked up
/// once and kept for the next comparison, which is faster than to look up two
/// for each.
fn rises(memory: &[u8], start: usize, places: usize, width: usize) -> bool {
    let order = &memory[start + 1..][..usize::from(memory[start])];
    let key = |place: &u8| &memory[start + 1 + places + usize::from(*place) * width..][..KEY];
    let mut keys = order.iter().map(key);
    let Some(mut last) = keys.next() else {
        return true;
    };
    for key in keys {
        if !before(last, key) {
            return false;
        }
        last = key;
    }
    true
}

/// Whether the first byte in which two keys differ is lower in `a`: the second
/// program's own comparison, and faster here than `<` on slices.
fn before(a: &[u8], b: &[u8]) -> bool {
    for place in 0..KEY {
        if a[place] != b[place] {
            return a[place] < b[place];
        }
    }
    false
}
