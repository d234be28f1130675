//! What calls on buckets meet: counts of the cases that offers and questions come
//! to.
//!
//! The counter has the second program make each call, and tells the cases apart by
//! the bucket of the offered key before the call, by the nodes shown, and by the
//! answer.

use std::collections::BTreeMap;

use crate::buckets::{self, Effect, BUCKETS, BYTES, PLACES};
use crate::key::{nearer, shared_bits, Key};
use crate::node::{self, Node, LONGEST_LIST, MOST_NODES};
use crate::refusal::{self, Refusal};

/// Every case that is counted, in no order.
pub const BUCKET_CASES: [&str; 35] = [
    "added",
    "added to an empty bucket",
    "added before a held key",
    "added behind all held keys",
    "added in the last place",
    "added to one of the last three buckets",
    "replaced",
    "replaced in a full bucket",
    "replaced over the other version of IP",
    "full",
    "full, though nearer to the base key than a held one",
    "base key",
    "offer refused with 15",
    "offer refused with 15, of the base key",
    "offer refused with 15, of a held key",
    "offer refused with 15, of a new key for a full bucket",
    "offer refused with 20",
    "answer of 0 nodes",
    "answer of 1 node",
    "answer of 2 nodes",
    "answer of 3 nodes",
    "answer of 4 nodes",
    "answer of 4 nodes, and no more are held",
    "answer over both versions of IP",
    "answer from two buckets or more",
    "answer in another order than to the base key",
    "answer into an output of its length",
    "answer into an empty output",
    "target is the base key",
    "target is held",
    "target is neither",
    "question refused with 10",
    "question refused with 10, by one byte",
    "question refused with 20",
    "question refused with 20, for an empty output",
];

/// A case, with whether a call meets it.
type Case = (bool, &'static str);

/// The cases met so far.
pub struct MetBuckets {
    counts: BTreeMap<&'static str, usize>,
    offers: usize,
    questions: usize,
}

impl Default for MetBuckets {
    fn default() -> MetBuckets {
        MetBuckets {
            counts: BUCKET_CASES.into_iter().map(|case| (case, 0)).collect(),
            offers: 0,
            questions: 0,
        }
    }
}

impl MetBuckets {
    /// Offers a node.
    pub fn offer(&mut self, memory: &mut [u8], node: &Node) -> Result<Effect, Refusal> {
        let before = Before::of(memory, node);
        let answer = buckets::offer(memory, node);
        self.offers += 1;
        match answer {
            Ok(effect) => self.count_all(&before.cases(node, effect)),
            Err(refusal::FAMILY) => self.count_all(&before.cases_of_15(node)),
            Err(_) => self.count_all(&[(true, "offer refused with 20")]),
        }
        answer
    }

    /// Asks for the nodes nearest to a target.
    pub fn nearest(
        &mut self,
        memory: &[u8],
        target: &Key,
        out: &mut [u8],
    ) -> Result<usize, Refusal> {
        let answer = buckets::nearest(memory, target, out);
        self.questions += 1;
        match answer {
            Ok(count) => {
                let empty = out.is_empty();
                self.count_all(&[
                    (count == out.len(), "answer into an output of its length"),
                    (empty, "answer into an empty output"),
                ]);
                self.count_all(&answer_cases(memory, target, &out[..count]));
            }
            Err(refusal::OUTPUT) => {
                let by_one = exact_length(memory, target) == out.len() + 1;
                self.count_all(&[
                    (true, "question refused with 10"),
                    (by_one, "question refused with 10, by one byte"),
                ]);
            }
            Err(_) => self.count_all(&[
                (true, "question refused with 20"),
                (
                    out.is_empty(),
                    "question refused with 20, for an empty output",
                ),
            ]),
        }
        answer
    }

    /// How often each case was met.
    pub fn counts(&self) -> &BTreeMap<&'static str, usize> {
        &self.counts
    }

    /// How many offers were made.
    pub fn offers(&self) -> usize {
        self.offers
    }

    /// How many questions were put.
    pub fn questions(&self) -> usize {
        self.questions
    }

    fn count_all(&mut self, cases: &[Case]) {
        for (met, case) in cases {
            *self.counts.get_mut(case).expect("a case of the list") += usize::from(*met);
        }
    }
}

/// What an offer finds. It says nothing where the buckets are not whole.
struct Before {
    base: Key,
    /// How many leading bits the key shares with the base key.
    number: usize,
    /// The nodes in the bucket of the key, by rising key; none for the base key.
    held: Vec<Node>,
}

impl Before {
    fn of(memory: &[u8], node: &Node) -> Before {
        let mut before = Before {
            base: node.key,
            number: BUCKETS,
            held: Vec::new(),
        };
        if memory.len() < BYTES {
            return before;
        }
        before.base = buckets::base(memory);
        before.number = shared_bits(&before.base, &node.key);
        if before.number < BUCKETS && buckets::bucket(memory, before.number).whole() {
            before.held = buckets::nodes_in(memory, before.number);
        }
        before
    }

    fn full(&self) -> bool {
        self.held.len() == PLACES
    }

    /// The node held with the key of the one offered.
    fn same_key(&self, node: &Node) -> Option<&Node> {
        self.held.iter().find(|held| held.key == node.key)
    }

    /// The cases of an offer that is not refused.
    fn cases(&self, node: &Node, effect: Effect) -> Vec<Case> {
        match effect {
            Effect::Added => self.cases_of_added(node),
            Effect::Replaced => {
                let held = self.same_key(node);
                let other = held.is_some_and(|held| ipv4(held) != ipv4(node));
                vec![
                    (true, "replaced"),
                    (self.full(), "replaced in a full bucket"),
                    (other, "replaced over the other version of IP"),
                ]
            }
            Effect::Full => {
                let mut held = self.held.iter();
                let near = held.any(|held| nearer(&self.base, &node.key, &held.key));
                vec![
                    (true, "full"),
                    (near, "full, though nearer to the base key than a held one"),
                ]
            }
            Effect::BaseKey => vec![(true, "base key")],
        }
    }

    fn cases_of_added(&self, node: &Node) -> Vec<Case> {
        let empty = self.held.is_empty();
        let before = self.held.iter().any(|held| node.key < held.key);
        let last_place = self.held.len() == PLACES - 1;
        let last_bucket = self.number >= BUCKETS - 3;
        vec![
            (true, "added"),
            (empty, "added to an empty bucket"),
            (before, "added before a held key"),
            (!empty && !before, "added behind all held keys"),
            (last_place, "added in the last place"),
            (last_bucket, "added to one of the last three buckets"),
        ]
    }

    fn cases_of_15(&self, node: &Node) -> Vec<Case> {
        let base = self.number == BUCKETS;
        let held = self.same_key(node).is_some();
        vec![
            (true, "offer refused with 15"),
            (base, "offer refused with 15, of the base key"),
            (held, "offer refused with 15, of a held key"),
            (
                self.full() && !held,
                "offer refused with 15, of a new key for a full bucket",
            ),
        ]
    }
}

/// The cases of a list that was written for a target.
fn answer_cases(memory: &[u8], target: &Key, list: &[u8]) -> Vec<Case> {
    let (shown, _) = node::walk(list);
    let base = buckets::base(memory);
    let number = |node: &Node| shared_bits(&base, &node.key);
    let two = |differ: &dyn Fn(&Node, &Node) -> bool| {
        shown.windows(2).any(|pair| differ(&pair[0], &pair[1]))
    };
    let held_in_all: usize = (0..BUCKETS)
        .map(|number| buckets::bucket(memory, number).listed().len())
        .sum();
    let at_base = *target == base;
    let held = shown.first().is_some_and(|first| first.key == *target);
    let counted = [
        "answer of 0 nodes",
        "answer of 1 node",
        "answer of 2 nodes",
        "answer of 3 nodes",
        "answer of 4 nodes",
    ][shown.len()];
    vec![
        (true, counted),
        (
            shown.len() == MOST_NODES && held_in_all == MOST_NODES,
            "answer of 4 nodes, and no more are held",
        ),
        (
            two(&|a, b| ipv4(a) != ipv4(b)),
            "answer over both versions of IP",
        ),
        (
            two(&|a, b| number(a) != number(b)),
            "answer from two buckets or more",
        ),
        (
            two(&|a, b| nearer(&base, &b.key, &a.key)),
            "answer in another order than to the base key",
        ),
        (at_base, "target is the base key"),
        (held, "target is held"),
        (!at_base && !held, "target is neither"),
    ]
}

/// How many bytes the list for a target has, of whole buckets.
fn exact_length(memory: &[u8], target: &Key) -> usize {
    let mut out = [0; LONGEST_LIST];
    buckets::nearest(memory, target, &mut out).expect("whole buckets")
}

/// Whether a node of known family has an address of 4 bytes.
fn ipv4(node: &Node) -> bool {
    matches!(node.family, 2 | 130)
}

#[cfg(test)]
#[path = "met_buckets_tests.rs"]
mod tests;
