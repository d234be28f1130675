//! Keys and the distance of two keys.

/// A key is 32 bytes. The key of 32 zero bytes is a key like any other.
pub type Key = [u8; 32];

/// The distance of two keys: their XOR.
///
/// The 32 bytes are one 256-bit number with its highest byte first, so two
/// distances compare as numbers when they are compared as arrays.
pub fn distance(a: &Key, b: &Key) -> [u8; 32] {
    let mut xor = [0; 32];
    for place in 0..32 {
        xor[place] = a[place] ^ b[place];
    }
    xor
}

/// How many leading bits two keys share: 0 to 255 for keys that differ, and 256
/// for a key and itself. The highest bit of the first byte leads.
pub fn shared_bits(a: &Key, b: &Key) -> usize {
    (0..256)
        .take_while(|place| bit(a, *place) == bit(b, *place))
        .count()
}

/// The key with one bit changed, by its place from the front, 0 to 255.
pub fn flipped(key: &Key, place: usize) -> Key {
    let mut other = *key;
    other[place / 8] ^= 0x80 >> (place % 8);
    other
}

/// A bit of a key, by its place from the front, 0 to 255.
fn bit(key: &Key, place: usize) -> u8 {
    key[place / 8] >> (7 - place % 8) & 1
}

/// Whether `a` is strictly nearer to `target` than `b` is.
pub fn nearer(target: &Key, a: &Key, b: &Key) -> bool {
    distance(target, a) < distance(target, b)
}

#[cfg(test)]
mod tests {
    use super::*;

    /// A key that is zero but for its last byte.
    fn ending(last: u8) -> Key {
        let mut key = [0; 32];
        key[31] = last;
        key
    }

    #[test]
    fn distance_is_xor_and_not_subtraction() {
        let target = ending(0x08);
        assert_eq!(distance(&target, &ending(0x0c)), ending(4));
        assert_eq!(distance(&target, &ending(0x07)), ending(15));
        assert!(nearer(&target, &ending(0x0c), &ending(0x07)));
        assert!(!nearer(&target, &ending(0x07), &ending(0x0c)));
    }

    #[test]
    fn distance_has_its_highest_byte_first() {
        let target = [0; 32];
        let mut high = [0; 32];
        high[0] = 1;
        let low = ending(0xff);
        assert!(nearer(&target, &low, &high));
        assert!(!nearer(&target, &high, &low));
    }

    #[test]
    fn distance_is_the_same_both_ways_and_zero_to_itself() {
        let a = [0x11; 32];
        let b = [0x22; 32];
        assert_eq!(distance(&a, &b), [0x33; 32]);
        assert_eq!(distance(&b, &a), [0x33; 32]);
        assert_eq!(distance(&a, &a), [0; 32]);
    }

    #[test]
    fn no_key_is_nearer_than_itself() {
        let key = [0x22; 32];
        assert!(!nearer(&[0x11; 32], &key, &key));
        assert!(!nearer(&key, &key, &key));
    }

    #[test]
    fn the_target_is_nearest_to_itself() {
        let target = [0x11; 32];
        assert!(nearer(&target, &target, &[0x22; 32]));
        assert!(!nearer(&target, &[0x22; 32], &target));
    }

    #[test]
    fn keys_share_the_bits_before_the_first_that_differs() {
        let key = [0x5a; 32];
        assert_eq!(shared_bits(&key, &key), 256);
        for place in 0..256 {
            let one = flipped(&key, place);
            assert_eq!(shared_bits(&key, &one), place);
            // What stands behind the first bit that differs does not count.
            let all = (place..256).fold(key, |other, place| flipped(&other, place));
            assert_eq!(shared_bits(&key, &all), place);
            assert_eq!(shared_bits(&all, &key), place);
            assert_eq!(shared_bits(&one, &all), place + 1);
        }
    }

    /// The examples of document 001.
    #[test]
    fn the_first_bit_is_the_highest_of_the_first_byte() {
        let mut base = [0; 32];
        base[0] = 0x80;
        let mut key = [0; 32];
        key[0] = 0x40;
        assert_eq!(shared_bits(&base, &key), 0);
        key[0] = 0xc0;
        assert_eq!(shared_bits(&base, &key), 1);
        key = base;
        key[31] = 1;
        assert_eq!(shared_bits(&base, &key), 255);
    }
}
