//! The library's C functions, each with a safe call on slices.
//!
//! This is the only module with unsafe code, and no part of the interface: the
//! types at the root of the crate rest on it, and the tests use it to lend
//! places that are filled beforehand, so that a stray write shows.
//!
//! Each call answers what the library answers: 0 or more, or a refusal number
//! with its sign changed, and then whatever is lent is as it was, but for what
//! the call's own comment names.
//!
//! A C function asks of its parameters what memory asks for, and references
//! give just that. A pointer made from a reference is neither null nor
//! misaligned and stays good during the call. A slice goes as its pointer and
//! its count; an empty one has a pointer that is not null. What one call may
//! write overlaps with nothing else that it is lent, since it comes from `&mut`.

pub mod buckets;
pub mod frames;
pub mod keys;
pub mod nearest;
pub mod node;
pub mod play;
pub mod readers;
pub mod relay;
pub mod room;
pub mod sitting;
pub mod writers;

/// A key, as the C functions take it.
pub type Key = [u8; 32];
