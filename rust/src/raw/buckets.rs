//! Buckets in lent memory.

use super::node::Parts;
use super::Key;

extern "C" {
    fn banavoge_buckets_bytes() -> usize;

    fn banavoge_buckets_begin(buckets: *mut u8, buckets_length: usize, base: *const Key) -> i32;

    fn banavoge_buckets_offer(
        buckets: *mut u8,
        buckets_length: usize,
        family: u8,
        address: *const [u8; 16],
        port: u16,
        key: *const Key,
    ) -> i32;

    fn banavoge_buckets_nearest(
        buckets: *const u8,
        buckets_length: usize,
        target: *const Key,
        out: *mut u8,
        out_length: usize,
    ) -> i32;
}

/// How many bytes of memory buckets take.
pub fn bytes() -> usize {
    // SAFETY: the call takes nothing.
    unsafe { banavoge_buckets_bytes() }
}

/// Begins empty buckets for a base key: 0, or a refusal.
pub fn begin(buckets: &mut [u8], base: &Key) -> i32 {
    // SAFETY: the pointers come from references to the buckets, whose count is
    // their own, and to the key.
    unsafe { banavoge_buckets_begin(buckets.as_mut_ptr(), buckets.len(), base) }
}

/// Offers a node: 1 when it is kept, 0 when not, or a refusal.
pub fn offer(buckets: &mut [u8], node: &Parts) -> i32 {
    // SAFETY: the pointers come from references to the buckets, whose count is
    // their own, and to the parts of the node.
    unsafe {
        banavoge_buckets_offer(
            buckets.as_mut_ptr(),
            buckets.len(),
            node.family,
            &node.address,
            node.port,
            &node.key,
        )
    }
}

/// Writes the nodes nearest to a target as a node list: how many bytes it has, or
/// a refusal.
pub fn nearest(buckets: &[u8], target: &Key, out: &mut [u8]) -> i32 {
    // SAFETY: the pointers come from references to the buckets and to the output,
    // whose counts are their own, and to the key.
    unsafe {
        banavoge_buckets_nearest(
            buckets.as_ptr(),
            buckets.len(),
            target,
            out.as_mut_ptr(),
            out.len(),
        )
    }
}
