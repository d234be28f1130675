//! Whole buckets to begin with, made by the second program.

use super::layout::{bucket, BUCKETS, BYTES, PLACES, RECORD};
use crate::generator::Generator;
use reference::bucket_offers::{BucketOffers, SPREADS};
use reference::buckets;

/// Buckets after a course of so many offers, with bytes behind them now and then. In
/// every other memory the nodes of a bucket stand in any of its places: no call frees
/// a place, so no course leaves a free one before a used one.
pub fn memory_of(seed: u64, offers: usize, random: &mut Generator) -> Vec<u8> {
    let mut made = BucketOffers::new(seed, SPREADS[seed as usize % SPREADS.len()]);
    let mut memory = vec![0; BYTES + random.pick(&[0, 0, 1, 7, 40])];
    random.fill(&mut memory[BYTES..]);
    buckets::begin(&mut memory, made.base()).expect("memory enough");
    for _ in 0..offers {
        // A refused offer leaves the memory as it was.
        let _ = buckets::offer(&mut memory, &made.offer());
    }
    if random.below(2) == 0 {
        (0..BUCKETS).for_each(|number| scatter(&mut memory, number, random));
    }
    assert!(buckets::whole(&memory));
    memory
}

/// Moves the nodes of a bucket to any places. The order of their keys stays.
fn scatter(memory: &mut [u8], number: usize, random: &mut Generator) {
    let table = bucket(number);
    let record = |place| table.record(place)..table.record(place) + RECORD;
    let listed = table.listed(memory);
    let held: Vec<Vec<u8>> = listed
        .into_iter()
        .map(|place| memory[record(place)].to_vec())
        .collect();
    let mut places: Vec<usize> = (0..PLACES).collect();
    random.shuffle(&mut places);
    for (at, (held, place)) in held.iter().zip(places).enumerate() {
        memory[table.order() + at] = place as u8;
        memory[record(place)].copy_from_slice(held);
    }
}
