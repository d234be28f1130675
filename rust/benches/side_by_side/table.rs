//! Tables of times and ratios.

use crate::harness::Time;

/// A table: in each row the library's time, then the times that it is held
/// against, each with the ratio of the two.
pub struct Table {
    pub title: &'static str,
    /// What is measured.
    pub words: &'static str,
    /// What a row is.
    pub rows_are: &'static str,
    /// The sides: the library first.
    pub sides: &'static [&'static str],
    /// Which of the sides is the second program with the library's tests.
    pub same_tests: usize,
    pub rows: Vec<Row>,
}

/// A row: what is called, and what a call takes on each side.
pub struct Row {
    pub name: String,
    times: Vec<Time>,
    /// The bytes of data in a call, where their number in a second tells more
    /// than the time does.
    data: Option<usize>,
}

impl Row {
    pub fn new(name: impl Into<String>, times: Vec<Time>) -> Row {
        Row {
            name: name.into(),
            times,
            data: None,
        }
    }

    /// The same row, with the bytes of data in a call.
    pub fn carrying(self, data: usize) -> Row {
        Row {
            data: Some(data),
            ..self
        }
    }

    /// What a call of the library takes: the median.
    pub fn library(&self) -> f64 {
        self.times[0].median()
    }

    /// The library's time as a multiple of a side's: of their medians.
    pub fn ratio(&self, side: usize) -> f64 {
        self.times[0].median() / self.times[side].median()
    }

    /// Millions of bytes of data in a second.
    fn megabytes(&self) -> Option<usize> {
        self.data
            .map(|data| (data as f64 * 1e3 / self.library()).round() as usize)
    }
}

impl Table {
    /// Takes in the rounds of the same table, measured again.
    pub fn add(&mut self, other: Table) {
        for (row, other) in self.rows.iter_mut().zip(other.rows) {
            for (time, other) in row.times.iter_mut().zip(other.times) {
                time.add(other);
            }
        }
    }

    /// How far the median is from the least, in each figure of the table.
    pub fn spreads(&self) -> Vec<f64> {
        let times = self.rows.iter().flat_map(|row| &row.times);
        times.map(|time| time.median() / time.least()).collect()
    }

    /// The head and the rows, a string for each column.
    pub fn lines(&self) -> Vec<Vec<String>> {
        let rows = self.rows.iter().map(|row| self.line(row));
        std::iter::once(self.head()).chain(rows).collect()
    }

    fn head(&self) -> Vec<String> {
        let mut head = vec![self.rows_are.to_string(), self.sides[0].to_string()];
        if self.shows_data() {
            head.push("MB/s".into());
        }
        for side in &self.sides[1..] {
            head.extend([side.to_string(), "ratio".into()]);
        }
        head
    }

    fn line(&self, row: &Row) -> Vec<String> {
        let mut line = vec![row.name.clone(), time(&row.times[0])];
        if self.shows_data() {
            line.push(row.megabytes().map(thousands).unwrap_or_default());
        }
        for side in 1..row.times.len() {
            let ratio = format!("{:.2}", row.ratio(side));
            line.extend([time(&row.times[side]), ratio]);
        }
        line
    }

    fn shows_data(&self) -> bool {
        self.rows.iter().any(|row| row.data.is_some())
    }
}

/// The median, and the least in brackets.
fn time(time: &Time) -> String {
    let (median, least) = (nanoseconds(time.median()), nanoseconds(time.least()));
    format!("{median} ({least})")
}

/// Nanoseconds, with tenths where they are more than noise.
pub fn nanoseconds(time: f64) -> String {
    if time < 100.0 {
        format!("{time:.1}")
    } else {
        thousands(time.round() as usize)
    }
}

/// A number with a comma before each three digits.
pub fn thousands(number: usize) -> String {
    if number < 1_000 {
        return number.to_string();
    }
    format!("{},{:03}", thousands(number / 1_000), number % 1_000)
}
