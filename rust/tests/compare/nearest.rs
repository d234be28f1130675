//! Nearest lists in lent memory: begun, offered to, removed from, read back.
//!
//! The memory's layout is known here from docs/ARCHITECTURE.md alone.

use crate::generator::{Generator, FAMILIES};
use crate::nodes::{to_parts, NODE_BEFORE};
use crate::output::Output;
use crate::tally::{say, Tally};
use banavoge::{raw, NearestList};
use reference::key::Key;
use reference::nearest::{self, List};
use reference::node::Node;

/// size (1), count (1), target key (32), 16 slots
const SIZE_PLACE: usize = 0;
const COUNT_PLACE: usize = 1;
const TARGET_PLACE: usize = 2;
const SLOTS_PLACE: usize = 34;
const SLOTS: usize = 16;
const LIST_BYTES: usize = 850;

/// family (1), address (16), port (2, the highest byte first), key (32)
const SLOT_BYTES: usize = 51;
const KEY_IN_SLOT: usize = 19;

/// Sizes that a list may not have. Some are good once they are cut to a byte
/// or to 32 bits.
const BAD_SIZES: [usize; 10] = [
    0,
    17,
    18,
    255,
    256,
    257,
    264,
    272,
    (u32::MAX as usize).wrapping_add(9),
    usize::MAX,
];

/// Indexes behind any list, some of them low once they are cut to fewer bits.
const FAR_INDEXES: [usize; 5] = [
    255,
    256,
    257,
    (u32::MAX as usize).wrapping_add(1),
    usize::MAX,
];

/// The bytes of a slot by its index.
fn slot(index: usize) -> std::ops::Range<usize> {
    let start = SLOTS_PLACE + index * SLOT_BYTES;
    start..start + SLOT_BYTES
}

/// A node as it stands in a slot.
fn slot_bytes(node: &Node) -> Vec<u8> {
    [
        &[node.family],
        &node.address[..],
        &node.port.to_be_bytes(),
        &node.key,
    ]
    .concat()
}

/// The node that stands in a slot.
fn node_in(slot: &[u8]) -> Node {
    Node {
        family: slot[0],
        address: slot[1..17].try_into().expect("16 address bytes"),
        port: u16::from(slot[17]) * 256 + u16::from(slot[18]),
        key: slot[19..].try_into().expect("32 key bytes"),
    }
}

/// The list that stands in memory. Memory too short for one is 14, or 12 where
/// its first byte is there and is no size: 12 is judged first. A count may tell
/// of more nodes than there are slots; those behind the slots are made up,
/// since such a list is longer than any size.
pub fn list_in(memory: &[u8]) -> Result<List, u8> {
    if memory.len() < LIST_BYTES {
        return match memory.get(SIZE_PLACE) {
            None | Some(1..=16) => Err(14),
            Some(_) => Err(12),
        };
    }
    let made_up = Node {
        family: 2,
        address: [0; 16],
        port: 0,
        key: [0; 32],
    };
    let count = usize::from(memory[COUNT_PLACE]);
    let nodes = (0..count).map(|index| match index {
        0..SLOTS => node_in(&memory[slot(index)]),
        _ => made_up.clone(),
    });
    Ok(List {
        target: memory[TARGET_PLACE..SLOTS_PLACE]
            .try_into()
            .expect("32 key bytes"),
        size: usize::from(memory[SIZE_PLACE]),
        nodes: nodes.collect(),
    })
}

/// Puts a list at the front of memory that is long enough. The slots behind
/// its nodes stay, but for those that held a node before, which become zeros.
fn put_list(memory: &mut [u8], list: &List, held_before: usize) {
    memory[SIZE_PLACE] = list.size as u8;
    memory[COUNT_PLACE] = list.nodes.len() as u8;
    memory[TARGET_PLACE..SLOTS_PLACE].copy_from_slice(&list.target);
    for (index, node) in list.nodes.iter().enumerate() {
        memory[slot(index)].copy_from_slice(&slot_bytes(node));
    }
    for index in list.nodes.len()..held_before {
        memory[slot(index)].fill(0);
    }
}

/// What was met.
struct Tallies {
    begun: Tally,
    offered: Tally,
    removed: Tally,
    read: Tally,
    kept: u64,
    not_kept: u64,
    shown: u64,
    none: u64,
    /// How many lists were damaged.
    damaged: u64,
}

/// Fails where two memories differ.
fn same_memory(found: &Output, expected: &Output, what: &dyn std::fmt::Debug) {
    assert!(
        found == expected,
        "{what:?}: the memory differs first at {}",
        found.first_difference(expected)
    );
}

impl Tallies {
    /// Begins a list with library and reference.
    fn begin(&mut self, memory: &mut Output, target: &Key, size: usize) {
        let mut expected = memory.clone();
        let long_enough = expected.lent().len() >= LIST_BYTES;
        let (list, outcome) = nearest::begin(target, size);
        // The size is judged before the memory.
        let outcome = match outcome {
            Ok(()) if !long_enough => Err(14),
            outcome => outcome,
        };
        if long_enough {
            put_list(expected.lent(), &list, SLOTS);
        }
        let answer = raw::nearest::begin(memory.lent(), target, size);
        assert_eq!(answer, code(&outcome.map(|()| 0)), "begin of size {size}");
        same_memory(memory, &expected, &("begin", size));
        self.begun.add(&outcome);
        self.read_all(memory);
    }

    /// Offers a node with library and reference.
    fn offer(&mut self, memory: &mut Output, node: &Node) {
        let mut expected = memory.clone();
        let outcome = match list_in(expected.lent()) {
            Err(number) => Err(number),
            Ok(list) => {
                let (after, outcome) = nearest::offer(&list, node);
                if outcome.is_ok() {
                    put_list(expected.lent(), &after, list.nodes.len());
                }
                outcome
            }
        };
        let answer = raw::nearest::offer(memory.lent(), &to_parts(node));
        assert_eq!(answer, code(&outcome.map(i32::from)), "offer of {node:?}");
        same_memory(memory, &expected, &("offer", node));
        self.offered.add(&outcome);
        match outcome {
            Ok(true) => self.kept += 1,
            Ok(false) => self.not_kept += 1,
            Err(_) => {}
        }
        self.read_all(memory);
    }

    /// Takes out the node of a key with library and reference.
    fn remove(&mut self, memory: &mut Output, key: &Key) {
        let mut expected = memory.clone();
        let outcome = match list_in(expected.lent()) {
            Err(number) => Err(number),
            Ok(list) => {
                let (after, outcome) = nearest::remove(&list, key);
                if outcome.is_ok() {
                    put_list(expected.lent(), &after, list.nodes.len());
                }
                outcome
            }
        };
        let answer = raw::nearest::remove(memory.lent(), key);
        assert_eq!(answer, code(&outcome.map(|()| 0)), "removal of {key:02x?}");
        same_memory(memory, &expected, &("remove", key));
        self.removed.add(&outcome);
        self.read_all(memory);
    }

    /// Reads every held node and some indexes behind with the library, and
    /// compares them with the list that stands in the memory.
    fn read_all(&mut self, memory: &mut Output) {
        let list = list_in(memory.lent());
        let count = list.as_ref().map_or(0, |list| list.nodes.len().min(SLOTS));
        let far = FAR_INDEXES[(self.read.total() % 5) as usize];
        for index in (0..=count + 1).chain([far]) {
            let expected = match &list {
                Err(number) => Err(*number),
                Ok(list) => nearest::check(list).map(|()| list.nodes.get(index)),
            };
            let mut shown = NODE_BEFORE;
            let answer = raw::nearest::node(memory.lent(), index, &mut shown);
            self.read.add(&expected);
            let node = match expected {
                Ok(Some(node)) => {
                    self.shown += 1;
                    assert_eq!(answer, 1, "node {index}");
                    to_parts(node)
                }
                Ok(None) => {
                    self.none += 1;
                    assert_eq!(answer, 0, "node {index}");
                    NODE_BEFORE
                }
                Err(number) => {
                    assert_eq!(answer, -i32::from(number), "node {index}");
                    NODE_BEFORE
                }
            };
            assert_eq!(shown, node, "node {index}");
        }
    }
}

/// The answer that the library gives for an outcome.
fn code(outcome: &Result<i32, u8>) -> i32 {
    match outcome {
        Ok(answer) => *answer,
        Err(number) => -i32::from(*number),
    }
}

/// Memory for a list, with up to 40 bytes behind it.
fn memory_for_a_list(generator: &mut Generator) -> Output {
    let behind = generator.pick(&[0, 0, 1, 7, 40]);
    Output::new(LIST_BYTES + behind, generator.byte())
}

/// Keys around a target: its own, some that differ in one bit or in the last
/// byte, and some far off. A list that is offered these meets each of them
/// more than once.
pub fn keys_around(generator: &mut Generator, target: &Key) -> Vec<Key> {
    let mut keys = vec![*target];
    for _ in 0..10 {
        let mut key = *target;
        key[generator.below(32)] ^= 1 << generator.below(8);
        keys.push(key);
    }
    for _ in 0..10 {
        let mut key = *target;
        key[31] = generator.byte();
        keys.push(key);
    }
    for _ in 0..10 {
        keys.push(generator.key());
    }
    keys
}

/// A node to offer, of unknown family now and then.
pub fn node_to_offer(generator: &mut Generator, keys: &[Key]) -> Node {
    let mut node = generator.node();
    if generator.below(10) > 0 {
        node.key = generator.pick(keys);
    }
    if generator.below(12) == 0 {
        node.family = generator.unknown_family();
    }
    node
}

/// One offer or removal.
fn one_call(generator: &mut Generator, tallies: &mut Tallies, memory: &mut Output, keys: &[Key]) {
    if generator.below(4) > 0 {
        tallies.offer(memory, &node_to_offer(generator, keys));
    } else {
        let key = key_to_remove(generator, memory, keys);
        tallies.remove(memory, &key);
    }
}

/// A key to take out: often one that is held.
fn key_to_remove(generator: &mut Generator, memory: &mut Output, keys: &[Key]) -> Key {
    let held = list_in(memory.lent()).map_or(vec![], |list| list.nodes);
    if held.is_empty() || generator.below(2) == 0 {
        return generator.pick(keys);
    }
    held[generator.below(held.len())].key
}

/// The memory with one thing wrong by the layout, or with nothing wrong after
/// all where the list holds too few nodes.
pub fn damaged(generator: &mut Generator, memory: &Output) -> Output {
    let mut memory = memory.clone();
    let bytes = memory.lent();
    let size = bytes[SIZE_PLACE];
    let count = usize::from(bytes[COUNT_PLACE]);
    let any_slot = generator.below(SLOTS);
    let held = generator.below(count.max(1));
    let other = generator.below(count.max(1));
    match generator.below(8) {
        // more nodes than the size, with and without a slot for each
        0 => {
            let most = generator.pick(&[16, 17, 255]);
            let over = generator.below(usize::from(most - size.min(most)) + 1) as u8;
            bytes[COUNT_PLACE] = size.saturating_add(over.max(1));
        }
        // two nodes exchanged
        1 => {
            let first = bytes[slot(held)].to_vec();
            bytes.copy_within(slot(other), slot(held).start);
            bytes[slot(other)].copy_from_slice(&first);
        }
        // a key held twice
        2 => {
            let from = slot(other).start + KEY_IN_SLOT;
            let to = slot(held).start + KEY_IN_SLOT;
            bytes.copy_within(from..from + 32, to);
        }
        // an unknown family, held or behind the count
        3 => bytes[slot(held).start] = generator.unknown_family(),
        4 => bytes[slot(any_slot).start] = generator.unknown_family(),
        // a size that no list has
        5 => bytes[SIZE_PLACE] = generator.pick(&[0, 17, 18, 128, 255]),
        // a size below the count
        6 => bytes[SIZE_PLACE] = generator.below(count + 1) as u8,
        // any byte of the list
        _ => bytes[generator.below(LIST_BYTES)] = generator.byte(),
    }
    memory
}

/// The front of the memory, too short for a list; now and then with a first
/// byte that is no size.
pub fn too_short(generator: &mut Generator, memory: &Output) -> Output {
    let any_length = generator.below(LIST_BYTES);
    let length = generator.pick(&[0, 1, 2, 34, LIST_BYTES - 1, LIST_BYTES - 51, any_length]);
    let mut short = Output::new(length, generator.byte());
    let mut whole = memory.clone();
    short.lent().copy_from_slice(&whole.lent()[..length]);
    if let (Some(size), 0) = (short.lent().first_mut(), generator.below(3)) {
        *size = generator.pick(&[0, 17, 18, 128, 255]);
    }
    short
}

/// Every size, good and bad, in memory of every length around a list's.
fn every_beginning(generator: &mut Generator, tallies: &mut Tallies) {
    for length in [0, 1, 2, 33, 34, 35, 400, 799, 848, 849, 850, 851, 900] {
        for size in (0..=300).chain(BAD_SIZES) {
            let mut memory = Output::new(length, generator.byte());
            tallies.begin(&mut memory, &generator.key(), size);
        }
    }
}

/// Lists of every size, begun, offered to and removed from; now and then a
/// damaged copy of the list gets a few calls of its own.
fn generated_calls(generator: &mut Generator, tallies: &mut Tallies) {
    for turn in 0..16 * 150 {
        let size = 1 + turn % 16;
        let target = generator.key();
        let keys = keys_around(generator, &target);
        let mut memory = memory_for_a_list(generator);
        tallies.begin(&mut memory, &target, size);
        for _ in 0..100 {
            one_call(generator, tallies, &mut memory, &keys);
            if generator.below(5) == 0 {
                tallies.damaged += 1;
                let mut copy = match generator.below(8) {
                    0 => too_short(generator, &memory),
                    _ => damaged(generator, &memory),
                };
                for _ in 0..3 {
                    one_call(generator, tallies, &mut copy, &keys);
                }
            }
        }
    }
}

/// A node whose key is zero but for its last byte.
fn ending(last: u8) -> Node {
    let mut key = [0; 32];
    key[31] = last;
    Node {
        family: FAMILIES[0],
        address: [0x7f; 16],
        port: 33_445,
        key,
    }
}

/// Document 01's list, and its example of a distance by subtraction.
fn named_lists(tallies: &mut Tallies) {
    let mut memory = Output::new(LIST_BYTES, 0);
    tallies.begin(&mut memory, &[0; 32], 2);
    for (last, kept) in [(0x05, 1), (0x03, 2), (0x09, 2)] {
        let before = tallies.kept;
        tallies.offer(&mut memory, &ending(last));
        assert_eq!(usize::from(memory.lent()[COUNT_PLACE]), kept);
        assert_eq!(tallies.kept - before, u64::from(last != 0x09));
    }
    assert_eq!(memory.lent()[slot(0)], slot_bytes(&ending(0x03))[..]);
    assert_eq!(memory.lent()[slot(1)], slot_bytes(&ending(0x05))[..]);

    let mut memory = Output::new(LIST_BYTES, 0);
    tallies.begin(&mut memory, &ending(0x08).key, 1);
    tallies.offer(&mut memory, &ending(0x07));
    tallies.offer(&mut memory, &ending(0x0c));
    assert_eq!(memory.lent()[slot(0)], slot_bytes(&ending(0x0c))[..]);
}

#[test]
fn nearest_lists_agree_with_the_reference() {
    assert_eq!(raw::nearest::bytes(), LIST_BYTES);
    assert_eq!(NearestList::BYTES, LIST_BYTES);
    let mut generator = Generator::new(5);
    let mut tallies = Tallies {
        begun: Tally::new(),
        offered: Tally::new(),
        removed: Tally::new(),
        read: Tally::new(),
        kept: 0,
        not_kept: 0,
        shown: 0,
        none: 0,
        damaged: 0,
    };
    named_lists(&mut tallies);
    every_beginning(&mut generator, &mut tallies);
    generated_calls(&mut generator, &mut tallies);

    let Tallies {
        begun,
        offered,
        removed,
        read,
        kept,
        not_kept,
        shown,
        none,
        damaged,
    } = tallies;
    say(&format!(
        "nearest lists\n  damaged: {damaged} lists\n{}{}  kept: {kept}, not kept: {not_kept}\n{}{}  shown: {shown}, none there: {none}\n",
        begun.line("beginnings"),
        offered.line("offers"),
        removed.line("removals"),
        read.line("nodes read back"),
    ));
    begun.demand("begin", &[12, 14]);
    offered.demand("offer", &[12, 14, 15]);
    removed.demand("remove", &[12, 13, 14]);
    read.demand("the reader of a held node", &[12, 14]);
    for count in [kept, not_kept, shown, none] {
        assert!(count >= 100);
    }
    assert!(offered.total() + removed.total() >= 200_000);
}
