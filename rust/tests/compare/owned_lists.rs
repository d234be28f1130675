//! Nearest lists that own their memory, call by call beside the second
//! program's list.

use crate::generator::{Generator, FAMILIES};
use crate::nearest::{damaged, keys_around, list_in, node_to_offer, too_short};
use crate::nodes::to_library;
use crate::output::Output;
use crate::tally::{say, Tally};
use banavoge::{Key, NearestList, Refusal};
use reference::nearest::{self, List};
use reference::node::Node;

const LISTS: usize = 16 * 20;
const CALLS: usize = 100;

/// The list holds the nodes of the second program's.
fn same_nodes(list: &NearestList, expected: &List, what: &str) {
    assert!(
        list.nodes().eq(expected.nodes.iter().map(to_library)),
        "{what}: {list:?}, {expected:?}"
    );
    assert_eq!(list.get(expected.nodes.len()), None, "{what}");
}

/// A node of known family. The address bytes that IPv4 does not use are 0: the
/// library's node has none.
fn known_node(generator: &mut Generator, keys: &[[u8; 32]]) -> Node {
    let mut node = node_to_offer(generator, keys);
    if !FAMILIES.contains(&node.family) {
        node.family = generator.pick(&FAMILIES);
    }
    if matches!(node.family, 2 | 130) {
        node.address[4..].fill(0);
    }
    node
}

/// What is made from bytes is the list that stands there, where the second
/// program finds nothing wrong with it.
fn compare_from_bytes(bytes: &[u8], made: &mut Tally) {
    let outcome = list_in(bytes).and_then(|list| nearest::check(&list).map(|()| list));
    made.add(&outcome);
    match (NearestList::from_bytes(bytes), outcome) {
        (Ok(list), Ok(expected)) => {
            same_nodes(&list, &expected, "made from bytes");
            assert_eq!(list.as_bytes(), &bytes[..NearestList::BYTES]);
        }
        (found, expected) => assert_eq!(
            found.err().map(Refusal::number),
            expected.err(),
            "made from bytes"
        ),
    }
}

/// Memory that holds the list, to be damaged.
fn memory_of(list: &NearestList) -> Output {
    let mut memory = Output::new(NearestList::BYTES, 0);
    memory.lent().copy_from_slice(list.as_bytes());
    memory
}

#[test]
fn lists_that_own_their_memory_agree_with_the_reference() {
    let mut generator = Generator::new(6);
    let mut removed = Tally::new();
    let mut made = Tally::new();
    let (mut kept, mut not_kept) = (0, 0);
    for turn in 0..LISTS {
        let size = 1 + turn % NearestList::LARGEST_SIZE;
        let target = generator.key();
        let keys = keys_around(&mut generator, &target);
        let mut list = NearestList::begin(&Key(target), size).expect("a good size");
        let mut expected = nearest::begin(&target, size).0;
        same_nodes(&list, &expected, "begun");
        for _ in 0..CALLS {
            if generator.below(4) > 0 {
                let node = known_node(&mut generator, &keys);
                let (after, outcome) = nearest::offer(&expected, &node);
                assert_eq!(Ok(list.offer(&to_library(&node))), outcome);
                expected = after;
                match outcome {
                    Ok(true) => kept += 1,
                    _ => not_kept += 1,
                }
            } else {
                let key = generator.pick(&keys);
                let (after, outcome) = nearest::remove(&expected, &key);
                let found = list.remove(&Key(key)).map_err(Refusal::number);
                assert_eq!(found, outcome);
                expected = after;
                removed.add(&outcome);
            }
            same_nodes(&list, &expected, "after a call");
            let memory = memory_of(&list);
            compare_from_bytes(memory.clone().lent(), &mut made);
            compare_from_bytes(damaged(&mut generator, &memory).lent(), &mut made);
            if generator.below(8) == 0 {
                compare_from_bytes(too_short(&mut generator, &memory).lent(), &mut made);
            }
        }
    }
    say(&format!(
        "nearest lists that own their memory\n  kept: {kept}, not kept: {not_kept}\n{}{}",
        removed.line("removals"),
        made.line("made from bytes")
    ));
    removed.demand("remove", &[13]);
    made.demand("from_bytes", &[12, 14]);
    assert!(kept >= 1_000 && not_kept >= 1_000);
}

/// A bad size is refused; the list that is given has size 8.
#[test]
fn sizes_of_lists_that_own_their_memory() {
    let target = [7; 32];
    for size in (0..=300).chain([usize::MAX]) {
        let begun = NearestList::begin(&Key(target), size);
        let expected = nearest::begin(&target, size).1;
        assert_eq!(begun.err().map(Refusal::number), expected.err(), "{size}");
    }
    let given = nearest::begin(&target, 0).0;
    let list = NearestList::empty(&Key(target));
    assert_eq!(list_in(list.as_bytes()), Ok(given));
}
