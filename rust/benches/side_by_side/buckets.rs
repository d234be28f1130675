//! Buckets: offers that leave them as they were, and questions.

use crate::harness::{used, Harness};
use crate::nodes::{node, parts};
use crate::table::{Row, Table};
use banavoge::raw::buckets as library;
use reference::bucket_offers::{key_of_bucket, keys_that_fill};
use reference::buckets::{self as second, Effect, BUCKETS, BYTES};
use reference::key::Key;
use reference::node::{Node, LONGEST_LIST};
use reference::random::Random;
use std::hint::black_box;

/// Calls in a turn.
const COUNT: usize = 64;

/// How full buckets are.
pub struct Filling {
    /// How many nodes are held in all.
    pub held: &'static str,
    /// From the first bucket on, so many are as full as they can be.
    full: usize,
    /// The next one holds so many.
    then: usize,
}

/// As keys at random leave them, of which half belong to the first bucket, a quarter
/// to the second and so on.
pub const SOME: Filling = Filling {
    held: "100 nodes",
    full: 12,
    then: 4,
};

/// All that can be held.
pub const ALL: Filling = Filling {
    held: "2,031 nodes",
    full: BUCKETS,
    then: 0,
};

/// Where all buckets are as full as they can be, so many of them have keys that are
/// not held. Of the last four every key is.
const MORE_KEYS: usize = BUCKETS - 4;

/// A call on buckets.
#[derive(Clone)]
enum Call {
    Offer(Node),
    Nearest(Key),
}

use Call::{Nearest, Offer};

/// What the rows of the two calls are named by.
pub const OFFER: &str = "an offer";
pub const QUESTION: &str = "a question";

pub fn table(harness: &mut Harness) -> Table {
    let mut rows = Vec::new();
    for filling in [SOME, ALL] {
        let buckets = Buckets::filled(&filling);
        let mut push = |call, more, calls: &[Call]| {
            let name = format!("{}: {call}{more}", filling.held);
            rows.push(row(harness, &buckets.memory, name, calls));
        };
        push(OFFER, ", held and replaced", &buckets.held());
        let new = buckets.new_for_full(&filling);
        push(OFFER, ", full and not kept", &new);
        push(QUESTION, "", &questions());
    }
    Table {
        title: "Buckets",
        words: "Offers and questions, on buckets of 100 nodes, 8 in each of the first 12 and 4 in \
                the next, and on buckets of all that can be held. A node that is held is offered \
                again, and a new key to a full bucket; a question is for a key at random. Both \
                test the whole buckets at each call. The second program counts shared bits one by \
                one, compares each key with all those before it in its bucket, and sorts all held \
                nodes for a question.",
        rows_are: "buckets and call",
        sides: &["library", "second program"],
        same_tests: 1,
        rows,
    }
}

/// Buckets in lent memory, with what they hold.
struct Buckets {
    base: Key,
    memory: Vec<u8>,
    nodes: Vec<Node>,
}

impl Buckets {
    fn filled(filling: &Filling) -> Buckets {
        let random = &mut Random::new(12);
        let base = random.key();
        let mut keys: Vec<Key> = (0..filling.full)
            .flat_map(|number| keys_that_fill(random, &base, number))
            .collect();
        if filling.then > 0 {
            let next = keys_that_fill(random, &base, filling.full);
            keys.extend(&next[..filling.then]);
        }
        let nodes: Vec<Node> = keys.iter().map(|key| with_key(random, key)).collect();
        let mut memory = vec![0; BYTES];
        second::begin(&mut memory, &base).expect("memory enough");
        for node in &nodes {
            assert_eq!(second::offer(&mut memory, node), Ok(Effect::Added));
        }
        Buckets {
            base,
            memory,
            nodes,
        }
    }

    /// Offers of nodes that are held, as they are held.
    fn held(&self) -> Vec<Call> {
        let mut random = Random::new(13);
        let mut one = || self.nodes[random.below(self.nodes.len())].clone();
        (0..COUNT).map(|_| Offer(one())).collect()
    }

    /// Offers of new keys to buckets that are full.
    fn new_for_full(&self, filling: &Filling) -> Vec<Call> {
        let random = &mut Random::new(14);
        let mut calls = Vec::new();
        while calls.len() < COUNT {
            let number = random.below(filling.full.min(MORE_KEYS));
            let key = key_of_bucket(random, &self.base, number);
            if self.nodes.iter().all(|held| held.key != key) {
                calls.push(Offer(with_key(random, &key)));
            }
        }
        calls
    }
}

/// Questions for keys at random.
fn questions() -> Vec<Call> {
    let mut random = Random::new(15);
    (0..COUNT).map(|_| Nearest(random.key())).collect()
}

/// A node with this key, over IPv4 or IPv6.
fn with_key(random: &mut Random, key: &Key) -> Node {
    let family = random.one_of(&[2, 10]).expect("a family");
    Node {
        key: *key,
        ..node(family, random)
    }
}

fn row(harness: &mut Harness, memory: &[u8], name: String, calls: &[Call]) -> Row {
    agree(memory, calls);
    let (mut lent, mut out) = (memory.to_vec(), [0; LONGEST_LIST]);
    let mut by_library = || {
        for call in calls {
            used(&library_call(&mut lent, black_box(call), &mut out));
        }
    };
    let (mut lent, mut out) = (memory.to_vec(), [0; LONGEST_LIST]);
    let mut by_second = || {
        for call in calls {
            used(&second_call(&mut lent, black_box(call), &mut out));
        }
    };
    let times = harness.measure(calls.len(), &mut [&mut by_library, &mut by_second]);
    Row::new(name, times)
}

fn library_call(memory: &mut [u8], call: &Call, out: &mut [u8]) -> i32 {
    match call {
        Offer(node) => library::offer(memory, &parts(node)),
        Nearest(target) => library::nearest(memory, target, out),
    }
}

/// The same of the second program: 1 for kept, 0 for not kept, the bytes of a list.
fn second_call(memory: &mut [u8], call: &Call, out: &mut [u8]) -> Result<i32, u8> {
    match call {
        Offer(node) => second::offer(memory, node).map(|effect| i32::from(effect.kept())),
        Nearest(target) => second::nearest(memory, target, out).map(|count| count as i32),
    }
}

/// The two answer and write the same, and leave the memory as it was.
fn agree(memory: &[u8], calls: &[Call]) {
    let (mut lent, mut out) = (memory.to_vec(), [0; LONGEST_LIST]);
    let (mut other, mut other_out) = (memory.to_vec(), [0; LONGEST_LIST]);
    for call in calls {
        let found = library_call(&mut lent, call, &mut out);
        let expected = second_call(&mut other, call, &mut other_out);
        assert_eq!(Ok(found), expected);
        assert!(out == other_out);
    }
    assert!(lent == memory && other == memory);
}
