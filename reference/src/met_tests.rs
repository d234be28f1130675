//! The cases of requests: told apart as they are meant to be.

use super::*;
use crate::generate::Generator;
use crate::room::BASE;

const KA: Key = [0x11; 32];
const KB: Key = [0x22; 32];

/// Two seats with two numbers each, so that a table is soon full.
const SMALL: Sizes = Sizes {
    seats: 2,
    numbers: 2,
};

/// The cases of a request for the own key, by the table, and in the same order
/// those where it is repeated.
const OWN: [&str; 3] = [
    "request for the own key, empty table",
    "request for the own key, thin table",
    "request for the own key, full table",
];
const OWN_REPEATED: [&str; 3] = [
    "request for the own key repeated, empty table",
    "request for the own key repeated, thin table",
    "request for the own key repeated, full table",
];

/// Makes a request of seat 0, which is accepted.
fn asks(met: &mut Met, key: Key) {
    let bytes = [&[0], &key[..]].concat();
    assert!(met.make(&Call::Packet { seat: 0, bytes }).is_ok());
}

fn counts(met: &Met, cases: [&str; 3]) -> [usize; 3] {
    cases.map(|case| met.counts()[case])
}

/// How often these cases were met, all together.
fn sum(met: &Met, cases: [&str; 3]) -> usize {
    counts(met, cases).iter().sum()
}

#[test]
fn every_case_is_listed_once() {
    let cases: HashSet<&str> = CASES.into_iter().collect();
    assert_eq!(cases.len(), CASES.len());
}

#[test]
fn requests_for_the_own_key_are_told_apart_by_the_table() {
    let mut met = Met::new(SMALL);
    met.make(&Call::Arrive { key: KA }).unwrap();
    asks(&mut met, KA);
    assert_eq!(counts(&met, OWN), [1, 0, 0]);
    asks(&mut met, KB);
    asks(&mut met, KA);
    assert_eq!(counts(&met, OWN), [1, 1, 0]);
    asks(&mut met, [0; 32]);
    asks(&mut met, KA);
    assert_eq!(counts(&met, OWN), [1, 1, 1]);
    // None was made before with such a table.
    assert_eq!(counts(&met, OWN_REPEATED), [0, 0, 0]);
    assert_eq!(met.counts()["request for the own key"], 3);
    assert_eq!(met.counts()["request answered 0"], 3);
    assert_eq!(met.counts()["request answered 0 for another's key"], 0);
    assert_eq!(met.counts()["request answered the last number"], 1);
    asks(&mut met, [0xff; 32]);
    assert_eq!(met.counts()["request answered 0"], 4);
    assert_eq!(met.counts()["request answered 0 for another's key"], 1);
}

#[test]
fn a_request_for_the_own_key_is_repeated_only_while_its_client_sits() {
    let mut met = Met::new(SMALL);
    met.make(&Call::Arrive { key: KA }).unwrap();
    for asked in 0..3 {
        asks(&mut met, KA);
        assert_eq!(counts(&met, OWN_REPEATED), [asked, 0, 0]);
    }
    met.make(&Call::Leave { seat: 0 }).unwrap();
    // Another client in that seat, and then the same one again.
    for key in [KB, KA] {
        met.make(&Call::Arrive { key }).unwrap();
        asks(&mut met, key);
        assert_eq!(counts(&met, OWN_REPEATED), [2, 0, 0]);
        met.make(&Call::Leave { seat: 0 }).unwrap();
    }
    // Nor does a repetition reach from one history into the next.
    met.make(&Call::Arrive { key: KB }).unwrap();
    asks(&mut met, KB);
    met.begin();
    met.make(&Call::Arrive { key: KB }).unwrap();
    asks(&mut met, KB);
    assert_eq!(counts(&met, OWN_REPEATED), [2, 0, 0]);
    assert_eq!(counts(&met, OWN), [7, 0, 0]);
}

/// Every request answered 0 is counted as one for the own key or as one for
/// another's key, and not as both.
#[test]
fn the_cases_of_requests_add_up() {
    for sizes in [BASE, SMALL] {
        let mut met = Met::new(sizes);
        let mut answered_0 = 0;
        for seed in 0..10 {
            met.begin();
            for call in Generator::new(seed, sizes).take(2_000) {
                let answer = met.make(&call);
                answered_0 += usize::from(is_answer_0(&call, &answer));
            }
        }
        let own = met.counts()["request for the own key"];
        let anothers = met.counts()["request answered 0 for another's key"];
        assert_eq!(met.counts()["request answered 0"], answered_0);
        assert_eq!(own + anothers, answered_0);
        assert_eq!(sum(&met, OWN), own);
        assert!(sum(&met, OWN_REPEATED) < own);
    }
}

/// Whether this is a request that was answered 0.
fn is_answer_0(call: &Call, answer: &Result<Accepted, Refusal>) -> bool {
    let (Call::Packet { bytes, .. }, Ok(accepted)) = (call, answer) else {
        return false;
    };
    bytes[0] == 0 && accepted.records[0].packet[1] == 0
}
