//! Packed nodes, read and written, and lists of packed nodes.
//!
//! A packed node is a family byte, the address, the port in 2 bytes with the
//! highest first, and the key. A list is 0 to 4 packed nodes with no byte over.

use crate::key::Key;
use crate::refusal;

/// The most nodes that a list of packed nodes may have.
pub const MOST_NODES: usize = 4;

/// The most bytes that a list of packed nodes may have: four nodes over IPv6.
pub const LONGEST_LIST: usize = MOST_NODES * 51;

/// A node. The family is the byte as given, known or not.
///
/// An address of 4 bytes stands in the first 4 of the 16. The other 12 are 0
/// when such a node is read, and are not looked at when it is written.
#[derive(Debug, Clone, PartialEq, Eq)]
pub struct Node {
    pub family: u8,
    pub address: [u8; 16],
    pub port: u16,
    pub key: Key,
}

/// What a step through a list of packed nodes comes to, if it is not refused.
#[derive(Debug, Clone, PartialEq, Eq)]
pub enum Step {
    /// The next node, and the place where the following one starts.
    Shown { node: Node, next: usize },
    /// No byte is left.
    End,
}

/// Reads the node that starts at the place `at`. Bytes may follow it. Answers
/// the node and the place behind it, or the refusal number.
pub fn read(bytes: &[u8], at: usize) -> Result<(Node, usize), u8> {
    // With no byte at all there is no family to judge: the node is cut short.
    if at >= bytes.len() {
        return Err(refusal::NODE_CUT);
    }
    let rest = &bytes[at..];
    // An unknown family is refused even where it is the only byte.
    let address_length = address_length(rest[0])?;
    let length = 1 + address_length + 2 + 32;
    if rest.len() < length {
        return Err(refusal::NODE_CUT);
    }

    let port_place = 1 + address_length;
    let key_place = port_place + 2;
    let mut node = Node {
        family: rest[0],
        address: [0; 16],
        port: u16::from(rest[port_place]) * 256 + u16::from(rest[port_place + 1]),
        key: [0; 32],
    };
    node.address[..address_length].copy_from_slice(&rest[1..port_place]);
    node.key.copy_from_slice(&rest[key_place..length]);
    Ok((node, at + length))
}

/// Writes a node to the front of `out` and answers how many bytes it has, or
/// answers the refusal number and leaves `out` as it was. Bytes of `out`
/// behind the node keep their contents.
pub fn write(node: &Node, out: &mut [u8]) -> Result<usize, u8> {
    let bytes = packed(node)?;
    // A writer looks at the output last.
    if out.len() < bytes.len() {
        return Err(refusal::OUTPUT);
    }
    out[..bytes.len()].copy_from_slice(&bytes);
    Ok(bytes.len())
}

/// The bytes of a packed node, or refusal 15.
pub fn packed(node: &Node) -> Result<Vec<u8>, u8> {
    let address_length = address_length(node.family)?;
    let bytes = [
        &[node.family],
        &node.address[..address_length],
        &node.port.to_be_bytes(),
        &node.key,
    ]
    .concat();
    Ok(bytes)
}

/// One step through a list of packed nodes, from a place in it and with the
/// count of nodes shown so far.
pub fn step(list: &[u8], place: usize, count: usize) -> Result<Step, u8> {
    if place > list.len() {
        return Err(refusal::NODE_CUT);
    }
    if place == list.len() {
        return Ok(Step::End);
    }
    // Bytes are left. After four nodes it does not matter which.
    if count >= MOST_NODES {
        return Err(refusal::NODE_COUNT);
    }
    let (node, next) = read(list, place)?;
    Ok(Step::Shown { node, next })
}

/// Steps through a list from its start. Answers the nodes shown, and whether
/// the end was reached or with which number a step was refused.
pub fn walk(list: &[u8]) -> (Vec<Node>, Result<(), u8>) {
    let mut nodes = Vec::new();
    let mut place = 0;
    loop {
        match step(list, place, nodes.len()) {
            Ok(Step::Shown { node, next }) => {
                nodes.push(node);
                place = next;
            }
            Ok(Step::End) => return (nodes, Ok(())),
            Err(number) => return (nodes, Err(number)),
        }
    }
}

/// Whether a family is one of the four: UDP over IPv4 and IPv6, TCP over IPv4
/// and IPv6.
pub fn known_family(family: u8) -> bool {
    matches!(family, 2 | 10 | 130 | 138)
}

/// How many address bytes a family has, or refusal 15.
fn address_length(family: u8) -> Result<usize, u8> {
    match family {
        2 | 130 => Ok(4),
        10 | 138 => Ok(16),
        _ => Err(refusal::FAMILY),
    }
}

#[cfg(test)]
mod tests {
    use super::*;

    const KA: Key = [0x11; 32];

    /// A node with a different byte at each place of its address, and 0 where
    /// its family has no address byte.
    fn node(family: u8) -> Node {
        let mut address = [1, 2, 3, 4, 5, 6, 7, 8, 9, 10, 11, 12, 13, 14, 15, 16];
        if matches!(family, 2 | 130) {
            address[4..].fill(0);
        }
        Node {
            family,
            address,
            port: 33_445,
            key: KA,
        }
    }

    /// Writes into an output of 64 bytes and answers the bytes written.
    fn written(node: &Node) -> Vec<u8> {
        let mut out = [0xee; 64];
        let count = write(node, &mut out).unwrap();
        assert!(out[count..].iter().all(|byte| *byte == 0xee));
        out[..count].to_vec()
    }

    /// The packed nodes of these families, one behind the other.
    fn list(families: &[u8]) -> Vec<u8> {
        let parts: Vec<Vec<u8>> = families
            .iter()
            .map(|family| written(&node(*family)))
            .collect();
        parts.concat()
    }

    #[test]
    fn p12_is_udp_at_127_0_0_1_port_33445() {
        let bytes = [&[0x02, 0x7f, 0x00, 0x00, 0x01, 0x82, 0xa5], &KA[..]].concat();
        let mut address = [0; 16];
        address[..4].copy_from_slice(&[127, 0, 0, 1]);
        let node = Node {
            family: 2,
            address,
            port: 33_445,
            key: KA,
        };
        assert_eq!(bytes.len(), 39);
        assert_eq!(read(&bytes, 0), Ok((node.clone(), 39)));
        assert_eq!(written(&node), bytes);
    }

    #[test]
    fn the_four_families_are_known_and_no_other() {
        for family in 0..=255 {
            let bytes = [&[family], &[0x61; 50][..]].concat();
            let length = match family {
                2 | 130 => Some(39),
                10 | 138 => Some(51),
                _ => None,
            };
            assert_eq!(known_family(family), length.is_some());
            let mut out = [0xee; 51];
            match length {
                Some(length) => {
                    let (node, next) = read(&bytes, 0).unwrap();
                    assert_eq!((node.family, next), (family, length));
                    assert_eq!(written(&node), bytes[..length]);
                }
                None => {
                    assert_eq!(read(&bytes, 0), Err(15));
                    assert_eq!(read(&[family], 0), Err(15));
                    assert_eq!(write(&node(family), &mut out), Err(15));
                    assert_eq!(out, [0xee; 51]);
                }
            }
        }
    }

    #[test]
    fn port_has_its_high_byte_first_and_may_be_0() {
        for family in [2, 10, 130, 138] {
            for (port, bytes) in [
                (0, [0, 0]),
                (1, [0, 1]),
                (256, [1, 0]),
                (65_535, [255, 255]),
            ] {
                let node = Node {
                    port,
                    ..node(family)
                };
                let packed = written(&node);
                let place = packed.len() - 34;
                assert_eq!(packed[place..place + 2], bytes);
                assert_eq!(read(&packed, 0), Ok((node, packed.len())));
            }
        }
    }

    #[test]
    fn a_node_cut_at_any_byte_is_refused() {
        for family in [2, 10, 130, 138] {
            let packed = list(&[family]);
            for length in 0..packed.len() {
                assert_eq!(read(&packed[..length], 0), Err(16));
            }
            assert!(read(&packed, 0).is_ok());
        }
    }

    #[test]
    fn a_node_is_read_at_its_place_with_bytes_before_and_behind() {
        let packed = written(&node(130));
        let bytes = [&[0xff; 5], &packed[..], &[0xff; 3]].concat();
        assert_eq!(read(&bytes, 5), Ok((node(130), 44)));
        assert_eq!(read(&bytes, 4), Err(15));
        assert_eq!(read(&bytes, bytes.len()), Err(16));
        assert_eq!(read(&bytes, bytes.len() + 1), Err(16));
        assert_eq!(read(&bytes, usize::MAX), Err(16));
    }

    #[test]
    fn unused_address_bytes_are_0_when_read_and_not_looked_at_when_written() {
        for family in [2, 130] {
            let clean = node(family);
            let mut other = clean.clone();
            other.address[4..].fill(0x61);
            assert_eq!(written(&other), written(&clean));
            assert_eq!(read(&written(&other), 0), Ok((clean, 39)));
        }
    }

    #[test]
    fn short_output_is_refused_last_and_left_as_it_was() {
        for (family, length) in [(2, 39), (10, 51), (130, 39), (138, 51)] {
            let mut out = vec![0xee; length];
            assert_eq!(write(&node(family), &mut out[..length - 1]), Err(10));
            assert_eq!(write(&node(1), &mut out[..length - 1]), Err(15));
            assert_eq!(out, vec![0xee; length]);
            assert_eq!(write(&node(family), &mut out), Ok(length));
        }
    }

    #[test]
    fn a_list_has_up_to_four_nodes() {
        let families = [2, 138, 130, 10, 2];
        for count in 0..=4 {
            let nodes = families[..count].iter().map(|family| node(*family));
            assert_eq!(walk(&list(&families[..count])), (nodes.collect(), Ok(())));
        }
        let (nodes, end) = walk(&list(&families));
        assert_eq!((nodes.len(), end), (4, Err(17)));
    }

    #[test]
    fn bytes_behind_four_nodes_get_17_whatever_they_are() {
        for tail in [&[0xff][..], &[2], &[2, 0, 0], &[0; 60]] {
            let bytes = [&list(&[2, 2, 2, 2]), tail].concat();
            let (nodes, end) = walk(&bytes);
            assert_eq!((nodes.len(), end), (4, Err(17)));
        }
    }

    #[test]
    fn a_list_cut_at_any_byte_shows_the_whole_nodes_before_the_cut() {
        let bytes = list(&[2, 138, 130, 10]);
        for length in 0..=bytes.len() {
            let whole = [39, 90, 129, 180]
                .iter()
                .filter(|end| **end <= length)
                .count();
            let at_an_end = [0, 39, 90, 129, 180].contains(&length);
            let (nodes, end) = walk(&bytes[..length]);
            assert_eq!(nodes.len(), whole);
            assert_eq!(end, if at_an_end { Ok(()) } else { Err(16) });
        }
    }

    #[test]
    fn what_is_wrong_nearest_the_front_is_refused_first() {
        let mut bytes = list(&[2, 138, 130, 10, 2]);
        bytes[90] = 3;
        let (nodes, end) = walk(&bytes);
        assert_eq!((nodes.len(), end), (2, Err(15)));
        let (nodes, end) = walk(&bytes[..80]);
        assert_eq!((nodes.len(), end), (1, Err(16)));
    }

    #[test]
    fn a_step_judges_the_place_first_then_the_count() {
        let bytes = list(&[2]);
        for count in [0, 3, 4, 5, usize::MAX] {
            assert_eq!(step(&bytes, 40, count), Err(16));
            assert_eq!(step(&bytes, usize::MAX, count), Err(16));
            assert_eq!(step(&bytes, 39, count), Ok(Step::End));
            assert_eq!(step(&[], 0, count), Ok(Step::End));
            let shown = step(&bytes, 0, count);
            if count < 4 {
                let node = node(2);
                assert_eq!(shown, Ok(Step::Shown { node, next: 39 }));
            } else {
                assert_eq!(shown, Err(17));
            }
        }
    }
}
