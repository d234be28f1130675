//! All the tables.

use crate::harness::Harness;
use crate::table::Table;
use crate::{buckets, changes, frames, lookups, nearest, nodes, packet_calls, readers};
use crate::{reconnects, room_tests, runs, ticks, writers};

/// The tables, in the order in which they are measured and printed.
pub struct Tables {
    pub frames: Table,
    pub readers: Table,
    pub writers: Table,
    pub nodes: Table,
    pub nearest: Table,
    pub buckets: Table,
    pub room_tests: Table,
    pub packet_calls: Table,
    pub runs: Table,
    pub changes: Table,
    pub reconnects: Table,
    pub ticks: Table,
    pub lookups: Table,
}

impl Tables {
    /// All tables, measured so often. The rounds of a row are thus spread over
    /// the whole run, and some seconds in which the machine is slow affect only
    /// a part of them.
    pub fn measured(harness: &mut Harness, times: usize) -> Tables {
        let mut tables = Tables::once(harness);
        for _ in 1..times {
            tables.add(Tables::once(harness));
        }
        tables
    }

    fn once(harness: &mut Harness) -> Tables {
        Tables {
            frames: frames::table(harness),
            readers: readers::table(harness),
            writers: writers::table(harness),
            nodes: nodes::table(harness),
            nearest: nearest::table(harness),
            buckets: buckets::table(harness),
            room_tests: room_tests::table(harness),
            packet_calls: packet_calls::table(harness),
            runs: runs::table(harness),
            changes: changes::table(harness),
            reconnects: reconnects::table(harness),
            ticks: ticks::table(harness),
            lookups: lookups::table(harness),
        }
    }

    fn add(&mut self, other: Tables) {
        self.frames.add(other.frames);
        self.readers.add(other.readers);
        self.writers.add(other.writers);
        self.nodes.add(other.nodes);
        self.nearest.add(other.nearest);
        self.buckets.add(other.buckets);
        self.room_tests.add(other.room_tests);
        self.packet_calls.add(other.packet_calls);
        self.runs.add(other.runs);
        self.changes.add(other.changes);
        self.reconnects.add(other.reconnects);
        self.ticks.add(other.ticks);
        self.lookups.add(other.lookups);
    }

    pub fn all(&self) -> [&Table; 13] {
        [
            &self.frames,
            &self.readers,
            &self.writers,
            &self.nodes,
            &self.nearest,
            &self.buckets,
            &self.room_tests,
            &self.packet_calls,
            &self.runs,
            &self.changes,
            &self.reconnects,
            &self.ticks,
            &self.lookups,
        ]
    }
}
