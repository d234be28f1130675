//! The library beside the second program, on the same input in one run: what a
//! call takes, and the ratio of the two.
//!
//! `tools/bench` runs it. With `--quick` every side takes one turn and one line
//! is printed; with `--markdown` the tables are those of docs/PERFORMANCE.md.

mod aims;
mod buckets;
mod calls;
mod changes;
mod clock;
mod frames;
mod grid;
mod groups;
mod harness;
mod lookups;
mod nearest;
mod nodes;
mod packet_calls;
mod packets;
mod pass;
mod readers;
mod reconnects;
mod room_tests;
mod rooms;
mod runs;
mod stored;
mod table;
mod tables;
mod ticks;
mod traffic;
mod writers;

use grid::Format;
use harness::Harness;
use tables::Tables;

fn main() {
    let given = |option: &str| std::env::args().any(|argument| argument == option);
    if given("--quick") {
        let mut harness = Harness::quick();
        Tables::measured(&mut harness, 1);
        println!("bench: {} measurements made", harness.made());
        return;
    }
    let tables = Tables::measured(&mut Harness::thorough(), 3);
    if given("--markdown") {
        print(&tables, grid::markdown);
    } else {
        print(&tables, grid::text);
    }
}

/// What matters most comes first: the aims, and what stands against one.
fn print(tables: &Tables, format: Format) {
    let words = aims::words(tables);
    println!("{}", format("Aims", &words, &aims::lines(tables)));
    let slower = aims::slower_lines(tables);
    if slower.len() > 1 {
        println!("{}", format("What is slower", aims::SLOWER_WORDS, &slower));
    }
    for table in tables.all() {
        println!("{}", format(table.title, table.words, &table.lines()));
    }
}
