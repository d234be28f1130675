//! Packed nodes, with the places for what is read lent by the caller.

use super::Key;

extern "C" {
    fn banavoge_node_read(
        bytes: *const u8,
        bytes_length: usize,
        at: usize,
        family: *mut u8,
        address: *mut [u8; 16],
        port: *mut u16,
        key: *mut Key,
        next: *mut usize,
    ) -> i32;

    fn banavoge_node_write(
        family: u8,
        address: *const [u8; 16],
        port: u16,
        key: *const Key,
        out: *mut u8,
        out_length: usize,
    ) -> i32;

    fn banavoge_nodes_step(
        list: *const u8,
        list_length: usize,
        place: usize,
        count: usize,
        family: *mut u8,
        address: *mut [u8; 16],
        port: *mut u16,
        key: *mut Key,
        next: *mut usize,
    ) -> i32;
}

/// A node in the parts that the C functions take and show.
#[derive(Debug, Clone, Copy, PartialEq, Eq, Default)]
pub struct Parts {
    /// The family byte, known or not.
    pub family: u8,
    /// The address. That of IPv4 stands in the first 4 bytes; the others are 0
    /// when it is read, and are not looked at when it is written.
    pub address: [u8; 16],
    /// The port.
    pub port: u16,
    /// The key.
    pub key: Key,
}

/// Reads the node that starts at the place `at`: 0, or a refusal.
pub fn read(bytes: &[u8], at: usize, node: &mut Parts, next: &mut usize) -> i32 {
    // SAFETY: the pointers come from references to the bytes, whose count is
    // their own, to the parts of the node and to the place.
    unsafe {
        banavoge_node_read(
            bytes.as_ptr(),
            bytes.len(),
            at,
            &mut node.family,
            &mut node.address,
            &mut node.port,
            &mut node.key,
            next,
        )
    }
}

/// Writes a node: how many bytes it has, or a refusal.
pub fn write(node: &Parts, out: &mut [u8]) -> i32 {
    // SAFETY: the pointers come from references to the parts of the node and to
    // the output, whose count is its own.
    unsafe {
        banavoge_node_write(
            node.family,
            &node.address,
            node.port,
            &node.key,
            out.as_mut_ptr(),
            out.len(),
        )
    }
}

/// Shows the next node of a list: 1 when one is shown, 0 at the end, or a
/// refusal. The lent places are as they were unless a node is shown.
pub fn step(list: &[u8], place: usize, count: usize, node: &mut Parts, next: &mut usize) -> i32 {
    // SAFETY: the pointers come from references to the list, whose count is its
    // own, to the parts of the node and to the place.
    unsafe {
        banavoge_nodes_step(
            list.as_ptr(),
            list.len(),
            place,
            count,
            &mut node.family,
            &mut node.address,
            &mut node.port,
            &mut node.key,
            next,
        )
    }
}
