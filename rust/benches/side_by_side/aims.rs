//! What the library is to reach, and whether it does.

use crate::buckets::{ALL, OFFER, QUESTION, SOME};
use crate::frames::{self, COPY, WHOLE};
use crate::room_tests::PASS;
use crate::rooms::{Filling, FULL, THIN};
use crate::runs;
use crate::table::{nanoseconds, thousands, Row, Table};
use crate::tables::Tables;
use crate::ticks::{self, FULL_TEST};

pub const SLOWER_WORDS: &str =
    "The rows in which the library takes longer than the second program with the same tests.";

/// What the figures are, and how far they can be trusted.
pub fn words(tables: &Tables) -> String {
    let spreads: Vec<f64> = tables
        .all()
        .iter()
        .flat_map(|table| table.spreads())
        .collect();
    let mean = spreads.iter().sum::<f64>() / spreads.len() as f64;
    format!(
        "Times are medians. Inside play: in the longest run, where the test of the room counts \
         least. In this run a median was {mean:.2} times the least on average: the nearer to 1, \
         the quieter was the machine."
    )
}

/// The head, and a line for each aim: what was measured, and whether it is met.
pub fn lines(tables: &Tables) -> Vec<Vec<String>> {
    vec![
        ["aim", "measured", "met"].map(String::from).to_vec(),
        single_call(&tables.packet_calls, &THIN, 1_000.0),
        single_call(&tables.packet_calls, &FULL, 6_000.0),
        played(&tables.runs, &THIN, 100.0),
        played(&tables.runs, &FULL, 100.0),
        nothing_slower(tables),
        full_test(&tables.room_tests, 4.0),
        idle_tick(&tables.ticks, 1.2),
        frame_in_piece(&tables.frames, 15.0),
        frames_cut(&tables.frames, 3.0),
        on_buckets(&tables.buckets, OFFER, SOME.held, 3_000.0),
        on_buckets(&tables.buckets, QUESTION, SOME.held, 5_000.0),
        on_buckets(&tables.buckets, OFFER, ALL.held, 60_000.0),
        on_buckets(&tables.buckets, QUESTION, ALL.held, 60_000.0),
        buckets_beside(&tables.buckets, 1.0),
    ]
}

/// The head, and a line for each row in which the library is slower.
pub fn slower_lines(tables: &Tables) -> Vec<Vec<String>> {
    let head = ["row", "ratio"].map(String::from).to_vec();
    let lines = slower(tables).into_iter().map(|(table, row)| {
        let name = format!("{}: {}", table.title, row.name);
        vec![name, format!("{:.2}", row.ratio(table.same_tests))]
    });
    std::iter::once(head).chain(lines).collect()
}

/// The slowest of the packets on a room.
fn single_call(table: &Table, filling: &Filling, limit: f64) -> Vec<String> {
    let room = format!("{}: ", filling.name);
    let rows = table.rows.iter().filter(|row| row.name.starts_with(&room));
    let aim = format!("a single packet call on a {} room", filling.name);
    under(aim, most(rows.map(Row::library)), limit)
}

fn played(table: &Table, filling: &Filling, limit: f64) -> Vec<String> {
    let name = runs::name(filling, 100, 512);
    let rows = table.rows.iter().filter(|row| row.name == name);
    let aim = format!("data of 100 bytes inside play on a {} room", filling.name);
    under(aim, most(rows.map(Row::library)), limit)
}

fn nothing_slower(tables: &Tables) -> Vec<String> {
    let slower = slower(tables).len();
    let rows: usize = tables.all().iter().map(|table| table.rows.len()).sum();
    let aim = "nothing slower than the second program with the same tests";
    let measured = format!("{slower} of {rows} rows are slower");
    line(aim.into(), measured, slower == 0)
}

fn full_test(table: &Table, limit: f64) -> Vec<String> {
    let ratio = most(table.rows.iter().map(|row| row.ratio(PASS)));
    let aim = format!("the full test at most {limit} times one pass, on every room");
    line(aim, format!("{ratio:.2} times"), ratio <= limit)
}

fn idle_tick(table: &Table, limit: f64) -> Vec<String> {
    let name = ticks::idle_name(&FULL);
    let rows = table.rows.iter().filter(|row| row.name == name);
    let ratio = most(rows.map(|row| row.ratio(FULL_TEST)));
    let aim = format!(
        "a tick with nothing to do on a full room: at most {limit} times the full test by itself"
    );
    line(aim, format!("{ratio:.2} times"), ratio <= limit)
}

/// The slowest of the lengths.
fn frame_in_piece(table: &Table, limit: f64) -> Vec<String> {
    let rows = table.rows.iter().filter(|row| row.name.ends_with(WHOLE));
    let aim = "a frame that is whole in the piece, of any length";
    under(aim.into(), most(rows.map(Row::library)), limit)
}

fn frames_cut(table: &Table, limit: f64) -> Vec<String> {
    let name = frames::cut_name();
    let rows = table.rows.iter().filter(|row| row.name == name);
    let ratio = most(rows.map(|row| row.ratio(COPY)));
    let aim = format!("frames of {name}: at most {limit} times a plain copy");
    line(aim, format!("{ratio:.2} times"), ratio <= limit)
}

/// The slowest of the offers, or of the questions, on buckets that hold so much.
fn on_buckets(table: &Table, call: &str, held: &str, limit: f64) -> Vec<String> {
    let name = format!("{held}: {call}");
    let rows = table.rows.iter().filter(|row| row.name.starts_with(&name));
    let aim = format!("{call} on buckets of {held}");
    under(aim, most(rows.map(Row::library)), limit)
}

/// The slowest beside the second program of all calls on buckets.
fn buckets_beside(table: &Table, limit: f64) -> Vec<String> {
    let ratio = most(table.rows.iter().map(|row| row.ratio(table.same_tests)));
    let aim = format!("a call on buckets: at most {limit} times the second program's");
    line(aim, format!("{ratio:.2} times"), ratio <= limit)
}

/// The rows in which the library takes longer than the second program with the
/// same tests, each with its table.
fn slower(tables: &Tables) -> Vec<(&Table, &Row)> {
    let mut slower = Vec::new();
    for table in tables.all() {
        let rows = table.rows.iter();
        let rows = rows.filter(|row| row.ratio(table.same_tests) > 1.0);
        slower.extend(rows.map(|row| (table, row)));
    }
    slower
}

fn under(aim: String, time: f64, limit: f64) -> Vec<String> {
    let aim = format!("{aim}: under {} ns", thousands(limit as usize));
    line(aim, format!("{} ns", nanoseconds(time)), time < limit)
}

fn line(aim: String, measured: String, met: bool) -> Vec<String> {
    let met = if met { "yes" } else { "no" };
    vec![aim, measured, met.into()]
}

fn most(figures: impl Iterator<Item = f64>) -> f64 {
    figures.reduce(f64::max).expect("a row for this aim")
}
