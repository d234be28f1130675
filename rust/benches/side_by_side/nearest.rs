//! Nearest lists: offers and removals, in groups after which the list is as
//! before, so that each group meets the same list.

use crate::harness::{used, Harness};
use crate::nodes::{node, parts};
use crate::table::{Row, Table};
use banavoge::raw::{self, node::Parts};
use reference::key::{nearer, Key};
use reference::nearest::{self as second, List};
use reference::node::Node;
use reference::random::Random;
use std::hint::black_box;

/// The size of the list that is given, and the largest.
const SIZES: [usize; 2] = [8, 16];

/// Groups in a turn: so many that the processor does not come to predict them.
const GROUPS: usize = 4_096;

/// A call on a list.
#[derive(Clone)]
enum Step {
    Offer(Node),
    Remove(Key),
}

use Step::{Offer, Remove};

pub fn table(harness: &mut Harness) -> Table {
    let mut rows = Vec::new();
    for size in SIZES {
        let mut list = full(size);
        let nodes = Nodes::around(&list);
        let mut push = |list: &List, name, steps: Vec<Step>| {
            rows.push(row(harness, list, name, &steps));
        };
        let held = groups(&list.nodes, |node| vec![Offer(node)]);
        push(&list, "held, replaced", held);
        let too_far = groups(&nodes.further, |node| vec![Offer(node)]);
        push(&list, "too far, not kept", too_far);
        let not_held = groups(&nodes.nearer, |node| vec![Remove(node.key)]);
        push(&list, "removal refused with 13", not_held);

        let furthest = list.nodes[size - 1].clone();
        let put_out = groups(&nodes.nearer, |node| {
            let key = node.key;
            vec![Offer(node), Remove(key), Offer(furthest.clone())]
        });
        let name = "kept, the furthest goes; removed; the furthest kept";
        push(&list, name, put_out);

        list.nodes.pop();
        let put_in = groups(&nodes.nearer, |node| {
            let key = node.key;
            vec![Offer(node), Remove(key)]
        });
        push(&list, "kept where there is room; removed", put_in);
    }
    Table {
        title: "Nearest lists",
        words: "Offers and removals on a list that is full, or has room for one, in groups after \
                which the list is as before; a time is that of all calls of a group. Both test the \
                whole list at each call. The library's list is in lent memory, the second \
                program's is a value that each call copies.",
        rows_are: "list and calls",
        sides: &["library", "second program"],
        same_tests: 1,
        rows,
    }
}

/// Nodes that a list does not hold.
struct Nodes {
    /// Nearer than the furthest that it holds.
    nearer: Vec<Node>,
    /// Further than that.
    further: Vec<Node>,
}

impl Nodes {
    /// Some hundreds of both.
    fn around(list: &List) -> Nodes {
        let mut random = Random::new(10);
        let mut nodes = Nodes {
            nearer: Vec::new(),
            further: Vec::new(),
        };
        let furthest = &list.nodes[list.nodes.len() - 1];
        while nodes.nearer.len().min(nodes.further.len()) < 300 {
            let node = node(2, &mut random);
            if nearer(&list.target, &node.key, &furthest.key) {
                nodes.nearer.push(node);
            } else {
                nodes.further.push(node);
            }
        }
        nodes
    }
}

/// A full list of random nodes for a random target.
fn full(size: usize) -> List {
    let mut random = Random::new(9);
    let (mut list, _) = second::begin(&node(2, &mut random).key, size);
    while list.nodes.len() < size {
        (list, _) = second::offer(&list, &node(2, &mut random));
    }
    list
}

/// The steps for nodes chosen from these at random, as many as a turn has.
fn groups(nodes: &[Node], steps: impl Fn(Node) -> Vec<Step>) -> Vec<Step> {
    let mut random = Random::new(11);
    let mut group = || steps(nodes[random.below(nodes.len())].clone());
    (0..GROUPS).flat_map(|_| group()).collect()
}

fn row(harness: &mut Harness, list: &List, name: &str, steps: &[Step]) -> Row {
    agree(list, steps);
    let mut memory = in_memory(list);
    let mut value = list.clone();
    let mut by_library = || {
        for step in steps {
            used(&library_step(&mut memory, black_box(step)));
        }
    };
    let mut by_second = || {
        for step in steps {
            used(&second_step(&mut value, black_box(step)));
        }
    };
    let times = harness.measure(GROUPS, &mut [&mut by_library, &mut by_second]);
    let name = format!("{} of {}: {name}", list.nodes.len(), list.size);
    Row::new(name, times)
}

fn library_step(memory: &mut [u8], step: &Step) -> i32 {
    match step {
        Offer(node) => raw::nearest::offer(memory, &parts(node)),
        Remove(key) => raw::nearest::remove(memory, key),
    }
}

/// The same of the second program: 1 for kept, 0 for not kept and for removed.
fn second_step(list: &mut List, step: &Step) -> Result<i32, u8> {
    match step {
        Offer(node) => {
            let (changed, kept) = second::offer(list, node);
            *list = changed;
            kept.map(i32::from)
        }
        Remove(key) => {
            let (changed, removed) = second::remove(list, key);
            *list = changed;
            removed.map(|()| 0)
        }
    }
}

/// The two answer the same, and leave the list as it was.
fn agree(list: &List, steps: &[Step]) {
    let mut memory = in_memory(list);
    let mut value = list.clone();
    for step in steps {
        let found = library_step(&mut memory, step);
        let expected = second_step(&mut value, step);
        assert_eq!(found, expected.unwrap_or_else(|number| -i32::from(number)));
    }
    assert!(value == *list);
    assert!(held(&memory).eq(list.nodes.iter().map(parts)));
}

/// The list in lent memory.
fn in_memory(list: &List) -> Vec<u8> {
    let mut memory = vec![0; raw::nearest::bytes()];
    assert_eq!(raw::nearest::begin(&mut memory, &list.target, list.size), 0);
    for node in &list.nodes {
        assert_eq!(raw::nearest::offer(&mut memory, &parts(node)), 1);
    }
    memory
}

/// The nodes that the memory holds, nearest first.
fn held(memory: &[u8]) -> impl Iterator<Item = Parts> + '_ {
    (0..).map_while(|index| {
        let mut node = Parts::default();
        (raw::nearest::node(memory, index, &mut node) == 1).then_some(node)
    })
}
