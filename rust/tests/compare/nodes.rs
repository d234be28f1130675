//! Packed nodes, read and written, and lists of them, walked.

use crate::generator::{Generator, FAMILIES};
use crate::tally::{say, Tally};
use crate::writers::{answered, compare};
use banavoge::raw::{self, node::Parts};
use banavoge::{Key, Nodes, Refusal, Transport};
use reference::node::{self, Node, Step};
use std::net::{IpAddr, Ipv4Addr, Ipv6Addr};

/// What stands in the lent node before a call, so that a write shows.
pub const NODE_BEFORE: Parts = Parts {
    family: 0xa5,
    address: [0xa5; 16],
    port: 0xa55a,
    key: [0xa5; 32],
};

/// What stands in the lent place before a call, so that a write shows.
const NEXT_BEFORE: usize = 0x5a5a_a5a5;

/// Counts of nodes shown: around the bound, and such as are low once they are
/// cut to fewer bits.
const COUNTS: [usize; 10] = [
    0,
    1,
    2,
    3,
    4,
    5,
    255,
    256,
    (u32::MAX as usize).wrapping_add(1),
    usize::MAX,
];

/// Places behind any list, some of them low once they are cut to fewer bits.
const FAR_PLACES: [usize; 4] = [
    65_536,
    (u32::MAX as usize).wrapping_add(1),
    usize::MAX - 38,
    usize::MAX,
];

/// A node of the reference in the parts that the library takes.
pub fn to_parts(node: &Node) -> Parts {
    Parts {
        family: node.family,
        address: node.address,
        port: node.port,
        key: node.key,
    }
}

/// A node of the reference, of known family, as the library's node.
pub fn to_library(node: &Node) -> banavoge::Node {
    let ipv4 = || {
        let first: [u8; 4] = node.address[..4].try_into().expect("4 bytes");
        IpAddr::from(Ipv4Addr::from(first))
    };
    let ipv6 = || IpAddr::from(Ipv6Addr::from(node.address));
    let (transport, ip) = match node.family {
        2 => (Transport::Udp, ipv4()),
        10 => (Transport::Udp, ipv6()),
        130 => (Transport::Tcp, ipv4()),
        138 => (Transport::Tcp, ipv6()),
        family => panic!("family {family} is not known"),
    };
    banavoge::Node {
        transport,
        ip,
        port: node.port,
        key: Key(node.key),
    }
}

/// All that a reader or a step answers and leaves behind.
#[derive(Debug, PartialEq, Eq)]
struct Reading {
    answer: i32,
    node: Parts,
    next: usize,
}

/// A call that shows no node leaves all as it was before.
fn nothing_shown(answer: i32) -> Reading {
    Reading {
        answer,
        node: NODE_BEFORE,
        next: NEXT_BEFORE,
    }
}

/// What a library's call answers and leaves behind.
fn found(call: impl Fn(&mut Parts, &mut usize) -> i32) -> Reading {
    let mut node = NODE_BEFORE;
    let mut next = NEXT_BEFORE;
    let answer = call(&mut node, &mut next);
    Reading { answer, node, next }
}

/// Reads one node with library and reference, and fails where they differ.
/// Answers the reference's outcome.
fn compare_read(bytes: &[u8], at: usize) -> Result<(Node, usize), u8> {
    let outcome = node::read(bytes, at);
    let expected = match &outcome {
        Ok((node, next)) => Reading {
            answer: 0,
            node: to_parts(node),
            next: *next,
        },
        Err(number) => nothing_shown(-i32::from(*number)),
    };
    let found = found(|node, next| raw::node::read(bytes, at, node, next));
    assert_eq!(
        found,
        expected,
        "node read at {at} of {} bytes: {bytes:02x?}",
        bytes.len()
    );
    let front = bytes.get(at..).unwrap_or(&[]);
    assert_eq!(
        banavoge::Node::read(front).map_err(Refusal::number),
        outcome
            .as_ref()
            .map(|(node, next)| (to_library(node), next - at))
            .map_err(|number| *number),
        "node read at the front of {front:02x?}"
    );
    outcome
}

/// Takes one step with library and reference, and fails where they differ.
/// Answers the reference's outcome.
fn compare_step(list: &[u8], place: usize, count: usize) -> Result<Step, u8> {
    let outcome = node::step(list, place, count);
    let expected = match &outcome {
        Ok(Step::Shown { node, next }) => Reading {
            answer: 1,
            node: to_parts(node),
            next: *next,
        },
        Ok(Step::End) => nothing_shown(0),
        Err(number) => nothing_shown(-i32::from(*number)),
    };
    let found = found(|node, next| raw::node::step(list, place, count, node, next));
    assert_eq!(
        found,
        expected,
        "step from {place} with count {count} in a list of {} bytes: {list:02x?}",
        list.len()
    );
    outcome
}

/// Walks a list from its start with the library's walker, and fails where it
/// shows other nodes or another end than the reference. Each step is compared
/// by itself too. Answers the reference's outcome.
fn compare_walk(list: &[u8], tallies: &mut Tallies) -> Result<(), u8> {
    let (expected, end) = node::walk(list);
    let mut walker = Nodes::new(list);
    for node in &expected {
        tallies.run_step(list, walker.place(), walker.shown());
        assert_eq!(walker.step(), Ok(Some(to_library(node))), "{list:02x?}");
    }
    tallies.run_step(list, walker.place(), walker.shown());

    // Neither the end nor a refusal moves the walker.
    let before = walker.clone();
    let expected_end = end.map(|()| None);
    for _ in 0..2 {
        let found = walker.step().map_err(Refusal::number);
        assert_eq!(found, expected_end, "{list:02x?}");
        assert_eq!(walker, before);
    }
    assert_eq!(walker.shown(), expected.len());

    // As an iterator it shows the nodes, then the refusal if there is one, and
    // nothing after that.
    let mut iterator = Nodes::new(list);
    let expected = expected.iter().map(|node| Ok(to_library(node)));
    for item in expected.chain(end.err().map(Err)) {
        let found = iterator.next().map(|shown| shown.map_err(Refusal::number));
        assert_eq!(found, Some(item), "{list:02x?}");
    }
    for _ in 0..2 {
        assert_eq!(iterator.next(), None, "{list:02x?}");
    }
    end
}

/// The bytes that the library writes for a node of known family.
fn written(node: &Node) -> Vec<u8> {
    let mut out = vec![0; 64];
    let count = to_library(node)
        .write(&mut out)
        .expect("a node of known family");
    out.truncate(count);
    out
}

/// Nodes of known families, packed by the reference one behind the other.
fn packed(nodes: &[Node]) -> Vec<u8> {
    let mut list = Vec::new();
    for node in nodes {
        let mut out = [0; 51];
        let count = node::write(node, &mut out).expect("a node of known family");
        list.extend(&out[..count]);
    }
    list
}

/// So many known families.
fn known_families(generator: &mut Generator, count: usize) -> Vec<u8> {
    (0..count).map(|_| generator.pick(&FAMILIES)).collect()
}

/// A list of packed nodes of these families.
fn list_of(generator: &mut Generator, families: &[u8]) -> Vec<u8> {
    let nodes: Vec<Node> = families
        .iter()
        .map(|family| Node {
            family: *family,
            ..generator.node()
        })
        .collect();
    packed(&nodes)
}

/// Where each node of a list of these families starts.
fn starts(families: &[u8]) -> Vec<usize> {
    let mut starts = vec![0];
    for family in families {
        let length = if matches!(family, 2 | 130) { 39 } else { 51 };
        starts.push(starts[starts.len() - 1] + length);
    }
    starts.pop();
    starts
}

/// Output lengths around that of a node of this family, and the length of a
/// node of another.
fn output_lengths(family: u8) -> &'static [usize] {
    match family {
        2 | 130 => &[0, 1, 37, 38, 39, 40, 41, 51],
        10 | 138 => &[0, 1, 39, 49, 50, 51, 52, 53],
        _ => &[0, 1, 38, 39, 50, 51, 64],
    }
}

/// Every list of four families, the order included.
fn four_families() -> Vec<[u8; 4]> {
    let mut all = Vec::new();
    for a in FAMILIES {
        for b in FAMILIES {
            for c in FAMILIES {
                for d in FAMILIES {
                    all.push([a, b, c, d]);
                }
            }
        }
    }
    all
}

/// The counts of readers, writers and lists.
struct Tallies {
    read: Tally,
    written: Tally,
    steps: Tally,
    walked: Tally,
    /// How many nodes were generated.
    nodes: u64,
    /// How many lists were generated.
    lists: u64,
}

impl Tallies {
    /// Compares the reader at one place.
    fn run_read(&mut self, bytes: &[u8], at: usize) {
        self.read.add(&compare_read(bytes, at));
    }

    /// Compares one step.
    fn run_step(&mut self, list: &[u8], place: usize, count: usize) {
        self.steps.add(&compare_step(list, place, count));
    }

    /// Compares a walk from the start.
    fn run_walk(&mut self, list: &[u8]) {
        let outcome = compare_walk(list, self);
        self.walked.add(&outcome);
    }

    /// Compares the writer on one node with every output length around its
    /// own, then reads back what was written.
    fn run_write(&mut self, node: &Node) {
        let parts = to_parts(node);
        let known = FAMILIES.contains(&node.family).then(|| to_library(node));
        let what = format!("{node:?}");
        let mut accepted = false;
        for length in output_lengths(node.family) {
            let outcome = compare(
                &what,
                *length,
                |out| answered(raw::node::write(&parts, out)),
                |out| node::write(node, out),
            );
            if let Some(known) = known {
                let safely = compare(
                    &what,
                    *length,
                    |out| known.write(out).map_err(Refusal::number),
                    |out| node::write(node, out),
                );
                assert_eq!(safely, outcome, "{what}");
            }
            accepted |= outcome.is_ok();
            self.written.add(&outcome);
        }
        if accepted {
            self.run_round_trip(node);
        }
    }

    /// A node written and read is the node, but for the address bytes that
    /// its family does not use. Read and written again, the bytes are the
    /// same.
    fn run_round_trip(&mut self, node: &Node) {
        let mut clean = node.clone();
        if matches!(node.family, 2 | 130) {
            clean.address[4..].fill(0);
        }
        let bytes = written(node);
        assert_eq!(compare_read(&bytes, 0), Ok((clean.clone(), bytes.len())));
        assert_eq!(written(&clean), bytes);
    }
}

/// Document 01's node, and the errors that it names.
fn named_nodes(tallies: &mut Tallies) {
    let bytes = [&[0x02, 0x7f, 0x00, 0x00, 0x01, 0x82, 0xa5], &[0x11; 32][..]].concat();
    for family in [2, 130] {
        let mut bytes = bytes.clone();
        bytes[0] = family;
        tallies.run_read(&bytes, 0);
        let mut parts = NODE_BEFORE;
        let mut next = NEXT_BEFORE;
        assert_eq!(raw::node::read(&bytes, 0, &mut parts, &mut next), 0);
        assert_eq!((parts.family, next), (family, 39));
        assert_eq!(parts.address[..4], [127, 0, 0, 1]);
        assert_eq!(parts.address[4..], [0; 12]);
        assert_eq!(parts.port, 33_445);
        assert_eq!(parts.key, [0x11; 32]);

        let (node, count) = banavoge::Node::read(&bytes).expect("a good node");
        assert_eq!(count, 39);
        assert_eq!(node.transport == Transport::Tcp, family == 130);
        assert_eq!(node.socket_address().to_string(), "127.0.0.1:33445");
        assert_eq!(node.key, Key([0x11; 32]));
    }
    let read = banavoge::Node::read;
    assert_eq!(read(&bytes[..38]), Err(Refusal::NodeCutShort));
    assert_eq!(read(&[]), Err(Refusal::NodeCutShort));
    assert_eq!(read(&[1]), Err(Refusal::UnknownFamily));
}

/// Every family byte, with bytes enough for any node and cut at every byte,
/// and every port byte.
fn every_family(generator: &mut Generator, tallies: &mut Tallies) {
    for family in 0..=255 {
        // The node is the front of a longer run of bytes, so that a reader
        // that looks past its end finds something there.
        let mut bytes = generator.bytes(60);
        bytes[0] = family;
        for length in 0..=bytes.len() {
            tallies.run_read(&bytes[..length], 0);
            tallies.run_walk(&bytes[..length]);
        }
        tallies.run_write(&Node {
            family,
            ..generator.node()
        });
    }
    for byte in 0..=255 {
        for family in FAMILIES {
            for port in [byte, byte << 8] {
                tallies.run_write(&Node {
                    family,
                    port,
                    ..generator.node()
                });
            }
        }
    }
}

/// Lists of four nodes in every mixture of families: whole, cut at every byte,
/// with bytes or a fifth node behind, with port 0 in every node.
fn four_nodes(generator: &mut Generator, tallies: &mut Tallies) {
    for families in four_families() {
        let list = list_of(generator, &families);
        tallies.run_walk(&list);
        assert_eq!(node::walk(&list).0.len(), 4);
        for length in 0..list.len() {
            tallies.run_walk(&list[..length]);
        }

        let fifth = packed(&[generator.node()]);
        let unknown = [generator.unknown_family()];
        for tail in [&fifth[..], &fifth[..1], &fifth[..38], &unknown] {
            tallies.run_walk(&[&list, tail].concat());
        }

        let nodes = families.map(|family| Node {
            family,
            port: 0,
            ..generator.node()
        });
        tallies.run_walk(&packed(&nodes));
    }
}

/// Lists of one to five nodes with an unknown family at each place in turn,
/// and with a known family of the other length there.
fn wrong_families(generator: &mut Generator, tallies: &mut Tallies) {
    for length in 1..=5 {
        for _ in 0..10 {
            let families = known_families(generator, length);
            let list = list_of(generator, &families);
            for start in starts(&families) {
                for family in 0..=255 {
                    let mut damaged = list.clone();
                    damaged[start] = family;
                    tallies.run_walk(&damaged);
                }
            }
        }
    }
}

/// Steps and reads from every place of a list, past its end too, with every
/// count around the bound.
fn every_place(generator: &mut Generator, tallies: &mut Tallies) {
    for length in 0..=5 {
        for _ in 0..4 {
            let families = known_families(generator, length);
            let list = list_of(generator, &families);
            for place in (0..=list.len() + 60).chain(FAR_PLACES) {
                tallies.run_read(&list, place);
                for count in COUNTS {
                    tallies.run_step(&list, place, count);
                }
            }
        }
    }
}

/// Nodes of any kind, written, and read among other bytes.
fn generated_nodes(generator: &mut Generator, tallies: &mut Tallies) {
    for _ in 0..60_000 {
        tallies.nodes += 1;
        let mut node = generator.node();
        if generator.below(8) == 0 {
            node.family = generator.unknown_family();
            tallies.run_write(&node);
            continue;
        }
        tallies.run_write(&node);

        let before = generator.below(100);
        let behind = generator.below(60);
        let mut bytes = generator.bytes(before);
        bytes.extend(packed(&[node]));
        bytes.extend(generator.bytes(behind));
        tallies.run_read(&bytes, before);
        tallies.run_read(&bytes, generator.below(bytes.len() + 2));
        let length = generator.below(bytes.len() + 1);
        tallies.run_read(&bytes[..length], before);
        tallies.run_read(&bytes, generator.pick(&FAR_PLACES));
    }
}

/// The list with one thing wrong, or with nothing wrong after all.
fn damaged_list(generator: &mut Generator, mut list: Vec<u8>, starts: &[usize]) -> Vec<u8> {
    match generator.below(5) {
        0 if !starts.is_empty() => {
            let start = generator.pick(starts);
            list[start] = generator.unknown_family();
        }
        1 if !starts.is_empty() => {
            let start = generator.pick(starts);
            list[start] = generator.pick(&FAMILIES);
        }
        2 => {
            let length = generator.below(list.len() + 1);
            list.truncate(length);
        }
        3 => {
            let length = 1 + generator.below(60);
            list.extend(generator.bytes(length));
        }
        _ if !list.is_empty() => {
            let place = generator.below(list.len());
            list[place] = generator.byte();
        }
        _ => {}
    }
    list
}

/// Lists of 0 to 6 nodes, whole and damaged, walked from the start and stepped
/// through from elsewhere.
fn generated_lists(generator: &mut Generator, tallies: &mut Tallies) {
    for turn in 0..60_000 {
        tallies.lists += 1;
        let length = generator.pick(&[0, 1, 2, 3, 4, 4, 5, 6]);
        let families = known_families(generator, length);
        let mut list = list_of(generator, &families);
        if turn % 2 == 0 {
            list = damaged_list(generator, list, &starts(&families));
        }
        tallies.run_walk(&list);
        let place = generator.below(list.len() + 3);
        tallies.run_step(&list, place, generator.pick(&COUNTS));
        if length > 0 {
            let place = generator.pick(&starts(&families));
            tallies.run_step(&list, place, generator.pick(&COUNTS));
        }
    }
}

#[test]
fn nodes_agree_with_the_reference() {
    let mut generator = Generator::new(4);
    let mut tallies = Tallies {
        read: Tally::new(),
        written: Tally::new(),
        steps: Tally::new(),
        walked: Tally::new(),
        nodes: 0,
        lists: 0,
    };
    named_nodes(&mut tallies);
    every_family(&mut generator, &mut tallies);
    four_nodes(&mut generator, &mut tallies);
    wrong_families(&mut generator, &mut tallies);
    every_place(&mut generator, &mut tallies);
    generated_nodes(&mut generator, &mut tallies);
    generated_lists(&mut generator, &mut tallies);

    let Tallies {
        read,
        written,
        steps,
        walked,
        nodes,
        lists,
    } = tallies;
    say(&format!(
        "nodes\n  generated: {nodes} nodes, {lists} lists\n{}{}{}{}",
        read.line("reads"),
        written.line("writes"),
        steps.line("steps"),
        walked.line("walks of whole lists")
    ));
    read.demand("the node reader", &[15, 16]);
    written.demand("the node writer", &[10, 15]);
    steps.demand("the walker's steps", &[15, 16, 17]);
    walked.demand("the walks", &[15, 16, 17]);
    assert!(nodes + lists >= 100_000);
}
