//! Buckets that own their memory, call by call beside the second program's.

use crate::buckets::damage::{damage, DAMAGES};
use crate::buckets::made::memory_of;
use crate::generator::{Generator, FAMILIES};
use crate::nodes::to_library;
use crate::output::Output;
use crate::tally::{say, Tally};
use banavoge::{Buckets, Key, Refusal, LONGEST_NODE_LIST};
use reference::bucket_offers::{BucketOffers, SPREADS};
use reference::buckets::{self, Effect};
use reference::node::{self, Node};

const COURSES: u64 = 120;
const CALLS: usize = 150;

/// A node to offer, of known family. The address bytes that IPv4 does not use are 0:
/// the library's node has none.
fn known_node(made: &mut BucketOffers, random: &mut Generator) -> Node {
    let mut node = made.offer();
    if !FAMILIES.contains(&node.family) {
        node.family = random.pick(&FAMILIES);
    }
    if matches!(node.family, 2 | 130) {
        node.address[4..].fill(0);
    }
    node
}

/// The question is answered with the second program's nodes and with its bytes, into
/// an output of any length.
fn same_answer(found: &Buckets, memory: &[u8], target: &Key, length: usize) -> usize {
    let mut list = [0; LONGEST_NODE_LIST];
    let exact = buckets::nearest(memory, &target.0, &mut list).expect("whole buckets");
    let (nodes, end) = node::walk(&list[..exact]);
    assert_eq!(end, Ok(()));
    let nodes: Vec<_> = nodes.iter().map(to_library).collect();
    assert_eq!(found.nearest(target), nodes);

    let mut out = Output::new(length, target.0[0]);
    let mut expected_out = out.clone();
    let expected = buckets::nearest(memory, &target.0, expected_out.lent());
    let written = found.write_nearest(target, out.lent());
    assert_eq!(written.map_err(Refusal::number), expected);
    assert!(out == expected_out);
    nodes.len()
}

/// What is made from bytes are the buckets that stand there, where the second program
/// finds nothing wrong with them.
fn compare_from_bytes(bytes: &[u8], made: &mut Tally, told: &str) {
    let outcome = match buckets::whole(bytes) {
        true => Ok(()),
        false => Err(20),
    };
    made.add(&outcome);
    match Buckets::from_bytes(bytes) {
        Ok(found) => {
            assert_eq!(outcome, Ok(()), "{told}");
            assert!(found.as_bytes() == &bytes[..Buckets::BYTES], "{told}");
        }
        Err(refusal) => assert_eq!(outcome, Err(refusal.number()), "{told}"),
    }
}

#[test]
fn buckets_that_own_their_memory_agree_with_the_reference() {
    let (mut kept, mut not_kept, mut shown) = (0, 0, [0; 5]);
    for course in 0..COURSES {
        let spread = SPREADS[course as usize % SPREADS.len()];
        let mut made = BucketOffers::new(7_000 + course, spread);
        let mut random = Generator::new(course);
        let mut found = Buckets::begin(&Key(*made.base()));
        let mut memory = vec![0x77; Buckets::BYTES];
        assert_eq!(buckets::begin(&mut memory, made.base()), Ok(()));
        assert!(found.as_bytes() == memory);
        for _ in 0..CALLS {
            let target = Key(made.target());
            let length = random.below(LONGEST_NODE_LIST + 1);
            shown[same_answer(&found, &memory, &target, length)] += 1;
            let node = known_node(&mut made, &mut random);
            let expected = buckets::offer(&mut memory, &node).map(Effect::kept);
            assert_eq!(Ok(found.offer(&to_library(&node))), expected, "{node:02x?}");
            assert!(found.as_bytes() == memory, "{node:02x?}");
            match expected {
                Ok(true) => kept += 1,
                _ => not_kept += 1,
            }
        }
        let again = Buckets::from_bytes(found.as_bytes()).expect("whole buckets");
        assert!(again.as_bytes() == memory && found.clone().as_bytes() == memory);
    }
    say(&format!(
        "buckets that own their memory: kept: {kept}, not kept: {not_kept}, \
         answers of 0 to 4 nodes: {shown:?}\n"
    ));
    assert!(kept >= 1_000 && not_kept >= 1_000);
    assert!(shown.iter().all(|count| *count >= 50));
}

#[test]
fn buckets_are_made_from_whole_bytes_alone() {
    let mut random = Generator::new(61);
    let mut made = Tally::new();
    for seed in 0..200 {
        let offers = random.pick(&[0, 2, 10, 100]);
        let sound = memory_of(8_000 + seed, offers, &mut random);
        compare_from_bytes(&sound, &mut made, "sound");
        for kind in DAMAGES {
            let mut memory = sound.clone();
            if damage(kind, &mut memory, &mut random).is_some() {
                compare_from_bytes(&memory, &mut made, &format!("{kind:?}"));
            }
        }
        // Any byte, in use or not.
        let mut memory = sound;
        for _ in 0..5 {
            memory[random.below(Buckets::BYTES)] ^= 1 << random.below(8);
            compare_from_bytes(&memory, &mut made, "a bit anywhere");
        }
    }
    say(&made.line("buckets made from bytes"));
    made.demand("from_bytes", &[20]);
}
