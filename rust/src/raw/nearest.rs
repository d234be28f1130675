//! Nearest lists in lent memory.

use super::node::Parts;
use super::Key;

extern "C" {
    fn banavoge_nearest_bytes() -> usize;

    fn banavoge_nearest_begin(
        list: *mut u8,
        list_length: usize,
        target: *const Key,
        size: usize,
    ) -> i32;

    fn banavoge_nearest_offer(
        list: *mut u8,
        list_length: usize,
        family: u8,
        address: *const [u8; 16],
        port: u16,
        key: *const Key,
    ) -> i32;

    fn banavoge_nearest_remove(list: *mut u8, list_length: usize, key: *const Key) -> i32;

    fn banavoge_nearest_node(
        list: *const u8,
        list_length: usize,
        index: usize,
        family: *mut u8,
        address: *mut [u8; 16],
        port: *mut u16,
        key: *mut Key,
    ) -> i32;
}

/// How many bytes of memory a list takes.
pub fn bytes() -> usize {
    // SAFETY: the call takes nothing.
    unsafe { banavoge_nearest_bytes() }
}

/// Begins a list: 0, or a refusal. A bad size is refused, and yet begins the
/// empty list of size 8 in memory that is long enough.
pub fn begin(list: &mut [u8], target: &Key, size: usize) -> i32 {
    // SAFETY: the pointers come from references to the list, whose count is its
    // own, and to the key.
    unsafe { banavoge_nearest_begin(list.as_mut_ptr(), list.len(), target, size) }
}

/// Offers a node: 1 when it is kept, 0 when not, or a refusal.
pub fn offer(list: &mut [u8], node: &Parts) -> i32 {
    // SAFETY: the pointers come from references to the list, whose count is its
    // own, and to the parts of the node.
    unsafe {
        banavoge_nearest_offer(
            list.as_mut_ptr(),
            list.len(),
            node.family,
            &node.address,
            node.port,
            &node.key,
        )
    }
}

/// Takes out the node of a key: 0, or a refusal.
pub fn remove(list: &mut [u8], key: &Key) -> i32 {
    // SAFETY: the pointers come from references to the list, whose count is its
    // own, and to the key.
    unsafe { banavoge_nearest_remove(list.as_mut_ptr(), list.len(), key) }
}

/// Shows the node held at an index: 1 when one is shown, 0 when none is held
/// there, or a refusal. The lent node is as it was unless one is shown.
pub fn node(list: &[u8], index: usize, node: &mut Parts) -> i32 {
    // SAFETY: the pointers come from references to the list, whose count is its
    // own, and to the parts of the node.
    unsafe {
        banavoge_nearest_node(
            list.as_ptr(),
            list.len(),
            index,
            &mut node.family,
            &mut node.address,
            &mut node.port,
            &mut node.key,
        )
    }
}
