//! The nearest list: the nodes nearest to a target key, nearest first.

use crate::key::{distance, nearer, Key};
use crate::node::{known_family, Node};
use crate::refusal;

/// The most nodes that a list may be made for.
const LARGEST_SIZE: usize = 16;

/// The size of the list that comes back from a beginning with a bad size.
const SIZE_GIVEN: usize = 8;

/// A list with its target key, its size and the nodes held.
///
/// Any list can be made by naming its parts; one that breaks its own rules is
/// refused by the calls below.
#[derive(Debug, Clone, PartialEq, Eq)]
pub struct List {
    pub target: Key,
    pub size: usize,
    pub nodes: Vec<Node>,
}

/// Begins an empty list. For a bad size the call is refused with 12, and what
/// comes back is the empty list of size 8.
pub fn begin(target: &Key, size: usize) -> (List, Result<(), u8>) {
    match check_size(size) {
        Ok(()) => (empty(target, size), Ok(())),
        Err(number) => (empty(target, SIZE_GIVEN), Err(number)),
    }
}

/// Offers a node. Answers the list, changed or as it stood, with yes or no for
/// kept or the refusal number.
pub fn offer(list: &List, node: &Node) -> (List, Result<bool, u8>) {
    if let Err(number) = check_offer(list, node) {
        return (list.clone(), Err(number));
    }
    let mut changed = list.clone();

    // A key already held has its node replaced.
    if let Some(place) = place_of(list, &node.key) {
        changed.nodes[place] = node.clone();
        return (changed, Ok(true));
    }
    // Else, with room, it is put in.
    if list.nodes.len() < list.size {
        put_in(&mut changed, node);
        return (changed, Ok(true));
    }
    // Else, if nearer than the furthest, it takes that one's room. A full list
    // is not empty, for its size is not 0.
    let furthest = &list.nodes[list.nodes.len() - 1];
    if nearer(&list.target, &node.key, &furthest.key) {
        changed.nodes.pop();
        put_in(&mut changed, node);
        return (changed, Ok(true));
    }
    // Else it is not kept.
    (changed, Ok(false))
}

/// Takes out the node with this key. Answers the list, changed or, with the
/// refusal number, as it stood.
pub fn remove(list: &List, key: &Key) -> (List, Result<(), u8>) {
    if let Err(number) = check(list) {
        return (list.clone(), Err(number));
    }
    let Some(place) = place_of(list, key) else {
        return (list.clone(), Err(refusal::NOT_HELD));
    };
    let mut changed = list.clone();
    changed.nodes.remove(place);
    (changed, Ok(()))
}

/// Whether a list keeps its own rules: refusal 12, then refusal 14.
pub fn check(list: &List) -> Result<(), u8> {
    check_size(list.size)?;
    let whole = list.nodes.len() <= list.size
        && strictly_rising(list)
        && list.nodes.iter().all(|node| known_family(node.family));
    if !whole {
        return Err(refusal::LIST);
    }
    Ok(())
}

/// The refusals of an offer: those of the list come before the node's.
fn check_offer(list: &List, node: &Node) -> Result<(), u8> {
    check(list)?;
    if !known_family(node.family) {
        return Err(refusal::FAMILY);
    }
    Ok(())
}

/// Refusal 12.
fn check_size(size: usize) -> Result<(), u8> {
    if !(1..=LARGEST_SIZE).contains(&size) {
        return Err(refusal::LIST_SIZE);
    }
    Ok(())
}

/// Whether each node held is strictly nearer than the one behind it. Then no
/// key is held twice, since equal keys have equal distances.
fn strictly_rising(list: &List) -> bool {
    list.nodes
        .windows(2)
        .all(|pair| nearer(&list.target, &pair[0].key, &pair[1].key))
}

fn empty(target: &Key, size: usize) -> List {
    List {
        target: *target,
        size,
        nodes: Vec::new(),
    }
}

/// The place of the node with this key, if it is held.
fn place_of(list: &List, key: &Key) -> Option<usize> {
    list.nodes.iter().position(|node| node.key == *key)
}

/// Puts in a node whose key is not held, and brings the nodes back in order.
fn put_in(list: &mut List, node: &Node) {
    let target = list.target;
    list.nodes.push(node.clone());
    list.nodes.sort_by_key(|held| distance(&target, &held.key));
}

#[cfg(test)]
mod tests {
    use super::*;

    /// A key that is zero but for its last byte.
    fn ending(last: u8) -> Key {
        let mut key = [0; 32];
        key[31] = last;
        key
    }

    /// A node whose key is zero but for its last byte.
    fn node(last: u8) -> Node {
        Node {
            family: 2,
            address: [0x7f; 16],
            port: 33_445,
            key: ending(last),
        }
    }

    /// A list for the target ending so, that holds the nodes ending so.
    fn list(target: u8, size: usize, lasts: &[u8]) -> List {
        List {
            target: ending(target),
            size,
            nodes: lasts.iter().map(|last| node(*last)).collect(),
        }
    }

    #[test]
    fn p13_holds_the_two_nearest() {
        let (begun, answer) = begin(&[0; 32], 2);
        assert_eq!(answer, Ok(()));
        let (one, answer) = offer(&begun, &node(0x05));
        assert_eq!(answer, Ok(true));
        let (two, answer) = offer(&one, &node(0x03));
        assert_eq!(answer, Ok(true));
        let (three, answer) = offer(&two, &node(0x09));
        assert_eq!(answer, Ok(false));
        assert_eq!(three, list(0, 2, &[0x03, 0x05]));
    }

    #[test]
    fn distance_is_not_by_subtraction() {
        let (held, answer) = offer(&list(0x08, 1, &[0x07]), &node(0x0c));
        assert_eq!((held, answer), (list(0x08, 1, &[0x0c]), Ok(true)));
        let (held, answer) = offer(&list(0x08, 1, &[0x0c]), &node(0x07));
        assert_eq!((held, answer), (list(0x08, 1, &[0x0c]), Ok(false)));
        let (held, answer) = offer(&list(0x08, 2, &[0x0c]), &node(0x07));
        assert_eq!((held, answer), (list(0x08, 2, &[0x0c, 0x07]), Ok(true)));
    }

    #[test]
    fn family_130_is_known() {
        let tcp = Node {
            family: 130,
            ..node(1)
        };
        let (held, answer) = offer(&list(0, 1, &[]), &tcp);
        assert_eq!(answer, Ok(true));
        assert_eq!(held.nodes, [tcp]);
        assert_eq!(check(&held), Ok(()));
    }

    #[test]
    fn a_bad_size_is_refused_and_gives_the_empty_list_of_size_8() {
        for size in [0, 17, 255, 256, 257, 264, usize::MAX] {
            let (begun, answer) = begin(&ending(7), size);
            assert_eq!((begun, answer), (list(7, 8, &[]), Err(12)));
        }
        for size in 1..=16 {
            let (begun, answer) = begin(&ending(7), size);
            assert_eq!((begun, answer), (list(7, size, &[]), Ok(())));
        }
    }

    #[test]
    fn a_held_key_has_its_node_replaced_in_a_full_list_too() {
        for size in [2, 3] {
            let moved = Node {
                family: 138,
                port: 0,
                ..node(0x05)
            };
            let (held, answer) = offer(&list(0, size, &[0x03, 0x05]), &moved);
            assert_eq!(answer, Ok(true));
            assert_eq!(held.nodes, [node(0x03), moved]);
        }
    }

    #[test]
    fn a_nearer_node_takes_the_room_of_the_furthest() {
        let (held, answer) = offer(&list(0, 3, &[0x03, 0x05, 0x09]), &node(0x04));
        assert_eq!(answer, Ok(true));
        assert_eq!(held, list(0, 3, &[0x03, 0x04, 0x05]));
    }

    #[test]
    fn the_key_of_the_target_may_be_held() {
        let (held, answer) = offer(&list(5, 2, &[0x04, 0x07]), &node(0x05));
        assert_eq!(answer, Ok(true));
        assert_eq!(held, list(5, 2, &[0x05, 0x04]));
    }

    #[test]
    fn removing_takes_out_one_key() {
        let held = list(0, 3, &[0x03, 0x05, 0x09]);
        for (key, left) in [
            (0x03, [0x05, 0x09]),
            (0x05, [0x03, 0x09]),
            (0x09, [0x03, 0x05]),
        ] {
            assert_eq!(remove(&held, &ending(key)), (list(0, 3, &left), Ok(())));
        }
        assert_eq!(remove(&held, &ending(0x04)), (held.clone(), Err(13)));
        let empty = list(0, 3, &[]);
        assert_eq!(remove(&empty, &ending(0)), (empty.clone(), Err(13)));
    }

    /// An offer and a removal must both be refused with this number.
    fn both_refused(list: &List, number: u8) {
        let unknown = Node {
            family: 3,
            ..node(0x33)
        };
        for offered in [&node(0x03), &node(0x33), &unknown] {
            assert_eq!(offer(list, offered), (list.clone(), Err(number)));
        }
        for key in [0x03, 0x33] {
            assert_eq!(remove(list, &ending(key)), (list.clone(), Err(number)));
        }
    }

    #[test]
    fn a_list_that_breaks_its_own_rules_is_refused() {
        both_refused(&list(0, 2, &[0x03, 0x05, 0x09]), 14);
        both_refused(&list(0, 3, &[0x05, 0x03]), 14);
        both_refused(&list(0, 3, &[0x03, 0x05, 0x05]), 14);
        for place in 0..3 {
            let mut unknown = list(0, 3, &[0x03, 0x05, 0x09]);
            unknown.nodes[place].family = 3;
            both_refused(&unknown, 14);
        }
    }

    #[test]
    fn a_bad_size_is_refused_before_all_else() {
        for size in [0, 17] {
            both_refused(&list(0, size, &[]), 12);
            both_refused(&list(0, size, &[0x05, 0x03, 0x03]), 12);
        }
    }

    #[test]
    fn an_offered_node_of_unknown_family_is_refused_whatever_its_key() {
        let held = list(0, 2, &[0x03, 0x05]);
        for key in [0x01, 0x03, 0x09] {
            let unknown = Node {
                family: 0,
                ..node(key)
            };
            assert_eq!(offer(&held, &unknown), (held.clone(), Err(15)));
        }
    }
}
