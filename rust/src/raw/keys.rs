//! Keys: sameness, and which of two is nearer to a third.

use super::Key;

extern "C" {
    fn banavoge_same_key(a: *const Key, b: *const Key) -> bool;

    fn banavoge_nearer(target: *const Key, a: *const Key, b: *const Key) -> bool;
}

/// Whether two keys are the same.
pub fn same(a: &Key, b: &Key) -> bool {
    // SAFETY: the pointers come from references.
    unsafe { banavoge_same_key(a, b) }
}

/// Whether `a` is nearer to `target` than `b` is.
pub fn nearer(target: &Key, a: &Key, b: &Key) -> bool {
    // SAFETY: the pointers come from references.
    unsafe { banavoge_nearer(target, a, b) }
}
