//! One number of the Rust's answers made another, to see that the comparison finds it.

use crate::rust::{Level, Wanted};

/// What is to be changed, in the first case that has it.
#[derive(Clone, Copy, Debug, PartialEq, Eq)]
pub enum Change {
    /// Nothing, or nothing more.
    None,
    /// Nothing more: it has been changed.
    Made,
    Seed,
    Bitmap,
    Hole,
    Count,
    Slot,
    Single,
    Bucket,
    /// A bit of a bitmap that is checked.
    Checked,
}

impl Change {
    pub fn of(kind: &str) -> Option<Change> {
        Some(match kind {
            "seed" => Change::Seed,
            "bitmap" => Change::Bitmap,
            "hole" => Change::Hole,
            "count" => Change::Count,
            "slot" => Change::Slot,
            "single" => Change::Single,
            "bucket" => Change::Bucket,
            "checked" => Change::Checked,
            _ => return None,
        })
    }

    pub fn made(self) -> bool {
        self == Change::Made
    }

    /// Adds one to the last number of its kind, if the answer has one.
    pub fn make(&mut self, wanted: &mut Wanted) {
        let done = match wanted {
            Wanted::Stopped(bucket) => *self == Change::Bucket && add_one(bucket),
            Wanted::Done(level) => self.make_in(level),
        };
        if done {
            *self = Change::Made;
        }
    }

    /// The bitmap that is checked: the level's own, but for a bit if that is the change.
    pub fn marked(&mut self, level: &Level) -> Vec<u64> {
        let mut marked = level.bitmap.clone();
        if *self == Change::Checked && marked.last_mut().is_some_and(add_one) {
            *self = Change::Made;
        }
        marked
    }

    fn make_in(self, level: &mut Level) -> bool {
        match self {
            Change::Seed => level.seeds.last_mut().is_some_and(|seed| {
                *seed = seed.wrapping_add(1);
                true
            }),
            Change::Hole => level.holes.last_mut().is_some_and(|hole| {
                *hole += 1;
                true
            }),
            Change::Bitmap => level.bitmap.last_mut().is_some_and(add_one),
            Change::Count => level.counts.last_mut().is_some_and(add_one),
            Change::Slot => level.slots.last_mut().is_some_and(add_one),
            Change::Single => level.singles.last_mut().is_some_and(add_one),
            Change::None | Change::Made | Change::Bucket | Change::Checked => false,
        }
    }
}

fn add_one(number: &mut u64) -> bool {
    *number = number.wrapping_add(1);
    true
}
