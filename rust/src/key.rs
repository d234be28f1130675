//! Keys.

use crate::raw;
use std::fmt;

/// A client's or a node's key: 32 bytes, any of them.
///
/// It prints as 64 hexadecimal digits.
///
/// ```
/// use banavoge::Key;
///
/// let key = Key([0x0f; 32]);
/// assert_eq!(key.to_string(), "0f".repeat(32));
/// assert_eq!(format!("{key:?}"), format!("Key({key})"));
/// ```
#[derive(Clone, Copy, PartialEq, Eq, Hash)]
pub struct Key(pub [u8; 32]);

impl Key {
    /// Whether `a` is nearer to this key than `b` is.
    ///
    /// The distance of two keys is their XOR read as one 256-bit number, so
    /// for a target that ends in 08 a key that ends in 0C (distance 4) is
    /// nearer than one that ends in 07 (distance 15).
    ///
    /// ```
    /// use banavoge::Key;
    ///
    /// let ending = |last| {
    ///     let mut key = Key([0; 32]);
    ///     key.0[31] = last;
    ///     key
    /// };
    /// assert!(ending(0x08).nearer(&ending(0x0c), &ending(0x07)));
    /// assert!(!ending(0x08).nearer(&ending(0x07), &ending(0x0c)));
    /// ```
    pub fn nearer(&self, a: &Key, b: &Key) -> bool {
        raw::keys::nearer(&self.0, &a.0, &b.0)
    }
}

impl From<[u8; 32]> for Key {
    fn from(bytes: [u8; 32]) -> Key {
        Key(bytes)
    }
}

impl AsRef<[u8]> for Key {
    fn as_ref(&self) -> &[u8] {
        &self.0
    }
}

impl fmt::Display for Key {
    fn fmt(&self, f: &mut fmt::Formatter<'_>) -> fmt::Result {
        self.0.iter().try_for_each(|byte| write!(f, "{byte:02x}"))
    }
}

impl fmt::Debug for Key {
    fn fmt(&self, f: &mut fmt::Formatter<'_>) -> fmt::Result {
        write!(f, "Key({self})")
    }
}
