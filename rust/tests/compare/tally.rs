//! Counts of what was met.

use std::io::Write;

/// How often a call was accepted and how often each refusal was met.
pub struct Tally {
    accepted: u64,
    refused: [u64; 21],
}

impl Tally {
    pub fn new() -> Tally {
        Tally {
            accepted: 0,
            refused: [0; 21],
        }
    }

    pub fn add<T>(&mut self, outcome: &Result<T, u8>) {
        match outcome {
            Ok(_) => self.accepted += 1,
            Err(number) => {
                assert_ne!(*number, 2, "2 is retired");
                self.refused[usize::from(*number)] += 1;
            }
        }
    }

    /// Takes in what another tally counted.
    pub fn join(&mut self, other: &Tally) {
        self.accepted += other.accepted;
        for (count, others) in self.refused.iter_mut().zip(other.refused) {
            *count += others;
        }
    }

    pub fn total(&self) -> u64 {
        self.accepted + self.refused.iter().sum::<u64>()
    }

    /// One line with all the counts that are not 0.
    pub fn line(&self, name: &str) -> String {
        let mut line = format!(
            "  {name}: {} inputs, {} accepted",
            self.total(),
            self.accepted
        );
        for (number, count) in self.refused.iter().enumerate() {
            if *count > 0 {
                line += &format!(", refusal {number}: {count}");
            }
        }
        line + "\n"
    }

    /// Fails unless some calls were accepted and each of these refusals was
    /// met, each at least 100 times.
    pub fn demand(&self, name: &str, refusals: &[usize]) {
        assert!(self.accepted >= 100, "{name}: too few accepted");
        for number in refusals {
            let count = self.refused[*number];
            assert!(count >= 100, "{name}: refusal {number} met {count} times");
        }
    }
}

/// Prints to standard output past the capture of the test runner, which holds
/// back only what `println!` prints, so that a plain `cargo test` shows it.
pub fn say(text: &str) {
    let mut stdout = std::io::stdout().lock();
    // A closed standard output is no fault of the library.
    let _ = stdout.write_all(format!("\n{text}").as_bytes());
}
