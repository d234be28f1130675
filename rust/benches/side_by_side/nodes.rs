//! Packed nodes, read and written, and lists of them, walked.

use crate::harness::{used, Harness};
use crate::table::{Row, Table};
use banavoge::raw::node::{self as library, Parts};
use reference::node::{self as second, Node};
use reference::random::Random;
use std::hint::black_box;

/// Nodes read or written, or lists walked, in a turn.
const COUNT: usize = 1_024;

/// UDP over IPv4, TCP over IPv6, TCP over IPv4, UDP over IPv6.
const FAMILIES: [u8; 4] = [2, 138, 130, 10];

pub fn table(harness: &mut Harness) -> Table {
    let nodes = FAMILIES.map(|family| node(family, &mut Random::new(8)));
    let named = [(&nodes[0], "IPv4"), (&nodes[1], "IPv6")];
    let mut rows = Vec::new();
    for (node, name) in named {
        rows.push(read(harness, name, node));
    }
    for (node, name) in named {
        rows.push(write(harness, name, node));
    }
    rows.push(walk(harness, &nodes));
    Table {
        title: "Nodes",
        words: "One packed node read and written. Four walked: a list of four is gone through to \
                its end, which is five calls of the library; the second program keeps the nodes \
                in a list that grows.",
        rows_are: "node",
        sides: &["library", "second program"],
        same_tests: 1,
        rows,
    }
}

fn read(harness: &mut Harness, name: &str, node: &Node) -> Row {
    let bytes = &packed(node)[..];
    let expected = (parts(node), bytes.len());
    let (mut node, mut next) = (Parts::default(), 0);
    assert_eq!(library::read(bytes, 0, &mut node, &mut next), 0);
    assert_eq!((node, next), expected);

    let mut by_library = || {
        for _ in 0..COUNT {
            library::read(black_box(bytes), 0, &mut node, &mut next);
            used(&(&node, next));
        }
    };
    let mut by_second = || {
        for _ in 0..COUNT {
            used(&second::read(black_box(bytes), 0));
        }
    };
    let times = harness.measure(COUNT, &mut [&mut by_library, &mut by_second]);
    Row::new(format!("read, {name}"), times)
}

fn write(harness: &mut Harness, name: &str, node: &Node) -> Row {
    let parts = parts(node);
    let (mut out, mut other) = ([0; 51], [0; 51]);
    let mut by_library = || {
        for _ in 0..COUNT {
            used(&library::write(black_box(&parts), black_box(&mut out)));
        }
    };
    let mut by_second = || {
        for _ in 0..COUNT {
            used(&second::write(black_box(node), black_box(&mut other)));
        }
    };
    let times = harness.measure(COUNT, &mut [&mut by_library, &mut by_second]);
    assert_eq!(out, other);
    Row::new(format!("written, {name}"), times)
}

fn walk(harness: &mut Harness, nodes: &[Node]) -> Row {
    let list = nodes.iter().map(packed).collect::<Vec<_>>().concat();
    assert_eq!(walked(&list), nodes.len());
    assert_eq!(second::walk(&list).0, nodes);
    let mut by_library = || {
        for _ in 0..COUNT {
            used(&walked(black_box(&list)));
        }
    };
    let mut by_second = || {
        for _ in 0..COUNT {
            used(&second::walk(black_box(&list)));
        }
    };
    let times = harness.measure(COUNT, &mut [&mut by_library, &mut by_second]);
    Row::new("four walked", times)
}

/// Walks a list with the library, and answers how many nodes it shows.
fn walked(list: &[u8]) -> usize {
    let (mut node, mut place, mut shown) = (Parts::default(), 0, 0);
    loop {
        let mut next = 0;
        if library::step(list, place, shown, &mut node, &mut next) != 1 {
            return shown;
        }
        used(&node);
        place = next;
        shown += 1;
    }
}

/// A node of this family. An address of IPv4 has zeros behind it.
pub fn node(family: u8, random: &mut Random) -> Node {
    let length = if matches!(family, 2 | 130) { 4 } else { 16 };
    let mut address = [0; 16];
    address[..length].fill_with(|| random.byte());
    Node {
        family,
        address,
        port: 33_445,
        key: random.key(),
    }
}

/// A node as the library takes it.
pub fn parts(node: &Node) -> Parts {
    Parts {
        family: node.family,
        address: node.address,
        port: node.port,
        key: node.key,
    }
}

fn packed(node: &Node) -> Vec<u8> {
    second::packed(node).expect("a known family")
}
