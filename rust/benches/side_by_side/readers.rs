//! The readers of both ends.

use crate::harness::{used, Harness};
use crate::packets::{client_packets, relay_packets, Sample};
use crate::table::{Row, Table};
use banavoge::raw::readers::{self, Places};
use reference::packet;
use std::hint::black_box;

/// Reads in a turn.
const READS: usize = 1_024;

/// The library's calls at one end. A key comes by a call of its own.
struct End {
    read: fn(&[u8], &mut Places) -> i32,
    key: fn(&[u8], &mut [u8; 32]) -> i32,
}

const RELAY: End = End {
    read: readers::relay_read,
    key: readers::relay_key,
};

const CLIENT: End = End {
    read: readers::client_read,
    key: readers::client_key,
};

pub fn table(harness: &mut Harness) -> Table {
    let mut rows = Vec::new();
    for sample in client_packets() {
        let end = "relay reads";
        rows.push(row(harness, end, &sample, &RELAY, packet::relay_read));
    }
    for sample in relay_packets() {
        let end = "client reads";
        rows.push(row(harness, end, &sample, &CLIENT, packet::client_read));
    }
    Table {
        title: "Readers",
        words: "One packet read. The second program copies the data of a packet, the library \
                shows where it stands. Where a packet has a key, the library's time is that of two \
                calls: the reader, and the one that gives the key.",
        rows_are: "packet",
        sides: &["library", "second program"],
        same_tests: 1,
        rows,
    }
}

/// One packet, read again and again.
fn row<P>(
    harness: &mut Harness,
    end: &str,
    sample: &Sample<P>,
    library: &End,
    second: fn(&[u8]) -> Result<P, u8>,
) -> Row
where
    P: PartialEq,
{
    let packet = &sample.bytes[..];
    let kind = (library.read)(packet, &mut Places::default());
    assert_eq!(kind, sample.kind());
    assert!(second(packet).as_ref() == Ok(&sample.packet));

    let (mut places, mut key) = (Places::default(), [0; 32]);
    let mut by_library = || {
        for _ in 0..READS {
            (library.read)(black_box(packet), &mut places);
            used(&places);
            if sample.has_key() {
                (library.key)(black_box(packet), &mut key);
                used(&key);
            }
        }
    };
    let mut by_second = || {
        for _ in 0..READS {
            used(&second(black_box(packet)));
        }
    };
    let times = harness.measure(READS, &mut [&mut by_library, &mut by_second]);
    Row::new(format!("{end}: {}", sample.name), times)
}
