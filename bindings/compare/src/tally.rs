//! How much was compared, and what differed.

use std::fmt::Debug;
use std::time::Duration;

/// Differences that are told one by one.
const TOLD: u64 = 20;

#[derive(Clone, Copy, Debug, Default)]
pub struct Tally {
    pub cases: u64,
    /// Cases that number 14 stopped, among them.
    pub stopped: u64,
    pub keys: u64,
    pub numbers: u64,
    pub differ: u64,
}

impl Tally {
    /// Compares one number.
    pub fn same<T: PartialEq + Debug>(&mut self, what: &str, ours: T, rust: T) {
        self.numbers += 1;
        if ours == rust {
            return;
        }
        self.differ += 1;
        if self.differ <= TOLD {
            println!("case {}: {what}: ours {ours:?}, the Rust {rust:?}", self.cases);
        }
    }

    /// Compares number after number, and the lengths.
    pub fn all_same<T: PartialEq + Debug + Copy>(&mut self, what: &str, ours: &[T], rust: &[T]) {
        self.same(&format!("how many {what}"), ours.len(), rust.len());
        // Almost always all are equal, which is seen at once.
        if ours == rust {
            self.numbers += ours.len() as u64;
            return;
        }
        for (i, (&a, &b)) in ours.iter().zip(rust).enumerate() {
            self.same(&format!("{what} {i}"), a, b);
        }
    }

    pub fn since(&self, before: &Tally) -> Tally {
        Tally {
            cases: self.cases - before.cases,
            stopped: self.stopped - before.stopped,
            keys: self.keys - before.keys,
            numbers: self.numbers - before.numbers,
            differ: self.differ - before.differ,
        }
    }

    pub fn say(&self, what: &str, took: Duration) {
        println!(
            "{what}: {} cases ({} stopped by 14), {} keys, {} numbers, {} differ ({:.1} s)",
            self.cases,
            self.stopped,
            self.keys,
            self.numbers,
            self.differ,
            took.as_secs_f64()
        );
    }
}
