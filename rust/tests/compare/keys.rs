//! Distance and sameness of keys.

use crate::generator::Generator;
use crate::tally::say;
use banavoge::raw;
use reference::key::{self, Key};

/// How often each answer was met.
struct Answers {
    nearer: u64,
    not_nearer: u64,
    same: u64,
    not_same: u64,
    /// For each place of a key, how often two keys first differed there.
    first_differences: [u64; 32],
    /// What is put behind the first byte in which two keys differ.
    tails: Generator,
}

impl Answers {
    fn new(tails: Generator) -> Answers {
        Answers {
            nearer: 0,
            not_nearer: 0,
            same: 0,
            not_same: 0,
            first_differences: [0; 32],
            tails,
        }
    }

    /// Compares library and reference on one target and two keys.
    fn run(&mut self, target: &Key, a: &Key, b: &Key) {
        let answers = self.run_both_ways(target, a, b);
        self.run_same(a, b);
        self.run_same(target, a);
        if let Some(place) = first_difference(a, b) {
            self.first_differences[place] += 1;
            self.run_tails(place + 1, target, a, b, answers);
        }
    }

    /// Whether `a` is nearer, and whether `b` is.
    fn run_both_ways(&mut self, target: &Key, a: &Key, b: &Key) -> [bool; 2] {
        [self.run_nearer(target, a, b), self.run_nearer(target, b, a)]
    }

    /// Changes the bytes from a place on in all three. Document 02, Req 06: "nothing after the
    /// first byte in which the two keys differ, in them or the target, changes one".
    fn run_tails(&mut self, from: usize, target: &Key, a: &Key, b: &Key, answers: [bool; 2]) {
        let [target, a, b] = [target, a, b].map(|key| with_tail(&mut self.tails, key, from));
        assert_eq!(
            self.run_both_ways(&target, &a, &b),
            answers,
            "from byte {from} on: target {target:02x?}, keys {a:02x?} and {b:02x?}"
        );
    }

    fn run_nearer(&mut self, target: &Key, a: &Key, b: &Key) -> bool {
        let expected = key::nearer(target, a, b);
        assert_eq!(
            banavoge::Key(*target).nearer(&banavoge::Key(*a), &banavoge::Key(*b)),
            expected,
            "target {target:02x?}, keys {a:02x?} and {b:02x?}"
        );
        if expected {
            self.nearer += 1;
        } else {
            self.not_nearer += 1;
        }
        expected
    }

    fn run_same(&mut self, a: &Key, b: &Key) {
        let expected = a == b;
        let found = raw::keys::same(a, b);
        assert_eq!(found, expected, "keys {a:02x?} and {b:02x?}");
        if expected {
            self.same += 1;
        } else {
            self.not_same += 1;
        }
    }
}

/// The place of the first byte in which two keys differ.
fn first_difference(a: &Key, b: &Key) -> Option<usize> {
    (0..32).find(|place| a[*place] != b[*place])
}

/// The key with one bit changed.
fn with_bit_changed(key: &Key, bit: usize) -> Key {
    let mut changed = *key;
    changed[bit / 8] ^= 0x80 >> (bit % 8);
    changed
}

/// The key with one byte replaced by any byte, its own included.
fn with_byte_replaced(generator: &mut Generator, key: &Key) -> Key {
    let mut changed = *key;
    changed[generator.below(32)] = generator.byte();
    changed
}

/// The key with its bytes from a place on replaced.
fn with_tail(generator: &mut Generator, key: &Key, from: usize) -> Key {
    let mut changed = *key;
    generator.fill(&mut changed[from..]);
    changed
}

/// The key with its bytes from some place on replaced.
fn with_tail_replaced(generator: &mut Generator, key: &Key) -> Key {
    let from = generator.below(32);
    with_tail(generator, key, from)
}

/// Keys that first differ in a given place, for every place: in one bit there, and in any.
fn first_differences(generator: &mut Generator, answers: &mut Answers) {
    for place in 0..32 {
        for _ in 0..200 {
            let target = generator.key();
            let a = generator.key();
            let bit = 8 * place + generator.below(8);
            answers.run(&target, &a, &with_bit_changed(&a, bit));
            let mut b = with_tail(generator, &a, place);
            b[place] = a[place].wrapping_add(1 + generator.below(255) as u8);
            answers.run(&target, &a, &b);
        }
    }
}

/// Keys that differ in one bit, for every place of the bit, and in two bits.
fn single_bits(generator: &mut Generator, answers: &mut Answers) {
    for bit in 0..256 {
        let target = generator.key();
        let a = generator.key();
        answers.run(&target, &a, &with_bit_changed(&a, bit));
        answers.run(&target, &target, &with_bit_changed(&target, bit));
        for _ in 0..20 {
            let other = generator.below(256);
            let b = with_bit_changed(&target, other);
            answers.run(&target, &with_bit_changed(&target, bit), &b);
        }
    }
}

/// Keys that are zero but for their last byte, all of them for some targets.
fn last_bytes(answers: &mut Answers) {
    let ending = |last| {
        let mut key = [0; 32];
        key[31] = last;
        key
    };
    for target in [0x00, 0x08, 0x7f, 0x80, 0xff] {
        for a in 0..=255 {
            for b in [0x00, 0x07, 0x08, 0x0c, 0x7f, 0x80, 0xff] {
                answers.run(&ending(target), &ending(a), &ending(b));
            }
        }
    }
}

fn generated(generator: &mut Generator, answers: &mut Answers) {
    for _ in 0..10_000 {
        let target = generator.key();
        let a = generator.key();
        let b = generator.key();
        answers.run(&target, &a, &b);
        answers.run(&target, &a, &a);
        answers.run(&target, &target, &b);
        answers.run(&target, &a, &with_byte_replaced(generator, &a));
        answers.run(&target, &a, &with_tail_replaced(generator, &a));
        let close = with_tail_replaced(generator, &target);
        let other_close = with_tail_replaced(generator, &target);
        answers.run(&target, &close, &other_close);
        answers.run(&target, &close, &with_byte_replaced(generator, &close));
    }
}

#[test]
fn keys_agree_with_the_reference() {
    let mut generator = Generator::new(3);
    let mut answers = Answers::new(Generator::new(6));
    single_bits(&mut generator, &mut answers);
    last_bytes(&mut answers);
    first_differences(&mut generator, &mut answers);
    generated(&mut generator, &mut answers);

    let Answers {
        nearer,
        not_nearer,
        same,
        not_same,
        first_differences,
        tails: _,
    } = answers;
    let fewest = first_differences.iter().min().unwrap();
    let differ: u64 = first_differences.iter().sum();
    say(&format!(
        "keys\n  nearer: {nearer} yes, {not_nearer} no\n  same: {same} yes, {not_same} no\n  \
         other bytes behind the first that differs: {differ} triples, at each place {fewest} or more\n"
    ));
    for count in [nearer, not_nearer, same, not_same] {
        assert!(count >= 1_000);
    }
    assert!(*fewest >= 400);
}
