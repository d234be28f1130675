//! Memories of lengths that are too short, and outputs of every length.

use super::both::Both;
use super::layout::{BUCKETS, BYTES, PLACES};
use super::made::memory_of;
use crate::generator::Generator;
use crate::output::Output;
use banavoge::{raw, Buckets, LONGEST_NODE_LIST};
use reference::bucket_offers::node;
use reference::buckets::{self, Effect};
use reference::key::flipped;
use reference::met_buckets::MetBuckets;
use reference::node::LONGEST_LIST;
use reference::random::Random;

/// Lengths of memory too short for buckets: at each field, and at the end.
const TOO_SHORT: [usize; 12] = [
    0,
    1,
    31,
    32,
    33,
    41,
    73,
    448,
    449,
    106_367,
    106_782,
    BYTES - 1,
];

#[test]
fn the_sizes_of_buckets_are_the_second_programs() {
    assert_eq!(raw::buckets::bytes(), BYTES);
    assert_eq!(buckets::BYTES, BYTES);
    assert_eq!(Buckets::BYTES, BYTES);
    assert_eq!(Buckets::COUNT, BUCKETS);
    assert_eq!(Buckets::BUCKET_SIZE, PLACES);
    assert_eq!((LONGEST_NODE_LIST, LONGEST_LIST), (204, 204));
}

/// Begun buckets are the base key and zeros; memory too short is left alone.
#[test]
fn buckets_are_begun_in_memory_of_every_length() {
    let mut random = Random::new(51);
    for length in TOO_SHORT.into_iter().chain([BYTES, BYTES + 1, 120_000]) {
        for salt in [0, 1, 0x5a, 0xff] {
            let mut expected = Output::new(length, salt);
            let mut both = Both::in_memory(expected.clone());
            let base = random.key();
            let begun = both.begin(&base);
            if length < BYTES {
                assert_eq!(begun, Err(10), "{length} bytes");
            } else {
                assert_eq!(begun, Ok(()), "{length} bytes");
                expected.lent()[..32].copy_from_slice(&base);
                expected.lent()[32..BYTES].fill(0);
            }
            assert!(both.bytes() == expected.lent(), "{length} bytes");
        }
    }
}

/// Lengths short of buckets, at each field and over all of them, are refused with 20, and
/// nothing behind them is read.
#[test]
fn memory_too_short_is_no_buckets() {
    let mut random = Generator::new(52);
    let mut met = MetBuckets::default();
    let memory = memory_of(3, 100, &mut random);
    let offered = node(&mut Random::new(53), 2, &[7; 32]);
    for length in TOO_SHORT.into_iter().chain((0..BYTES).step_by(997)) {
        let mut both = Both::holding(&memory[..length], 9);
        assert_eq!(both.offer(&offered, &mut met), Err(20), "{length} bytes");
        assert_eq!(both.nearest(&[7; 32], 204, &mut met), Err(20));
        assert!(both.bytes() == &memory[..length]);
    }
    let mut both = Both::holding(&memory[..BYTES], 9);
    assert!(both.nearest(&[7; 32], 204, &mut met).is_ok());
}

/// Outputs of every length, for lists of 0 to 4 nodes over both versions of IP.
#[test]
fn outputs_of_every_length_are_judged_by_the_exact_one() {
    let mut random = Random::new(54);
    let mut met = MetBuckets::default();
    let base = random.key();
    for families in [[2; 6], [138; 6], [130, 10, 2, 138, 2, 10]] {
        let mut both = Both::begun(&base, 0, 3);
        for (number, family) in families.into_iter().enumerate() {
            for target in [base, random.key()] {
                let list = both.nearest(&target, 210, &mut met).expect("whole buckets");
                for length in 0..=210 {
                    let asked = both.nearest(&target, length, &mut met);
                    let enough = length >= list.len();
                    assert_eq!(asked.as_ref(), if enough { Ok(&list) } else { Err(&10) });
                }
            }
            let key = flipped(&base, 40 * number + 3);
            let node = node(&mut random, family, &key);
            assert_eq!(both.offer(&node, &mut met), Ok(Effect::Added));
        }
    }
    for nodes in ["0 nodes", "1 node", "2 nodes", "3 nodes", "4 nodes"] {
        assert!(met.counts()[format!("answer of {nodes}").as_str()] >= 100);
    }
    assert!(met.counts()["question refused with 10, by one byte"] >= 20);
}
