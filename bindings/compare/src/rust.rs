//! What PHastR's own sweep answers, in the binding's terms.

use oracle::{Case, Outcome, lookups, outcome};
use phastr::BUMPED;

/// What a case must come to.
#[derive(Clone, Debug)]
pub enum Wanted {
    Done(Level),
    /// Number 14 and its bucket.
    Stopped(u64),
}

#[derive(Clone, Debug)]
pub struct Level {
    pub seeds: Vec<u16>,
    pub bitmap: Vec<u64>,
    pub holes: Vec<u32>,
    /// Keys placed, keys bumped, buckets of seed 0.
    pub counts: [u64; 3],
    /// The slot of each key, or BUMPED, as looked up together and one by one.
    pub slots: Vec<u64>,
    pub singles: Vec<u64>,
}

/// Every so manieth key is looked up by itself too.
pub const SINGLE: usize = 16;

pub fn answer(case: &Case) -> Wanted {
    let answer = match outcome(case) {
        Outcome::Stopped(bucket) => return Wanted::Stopped(bucket as u64),
        Outcome::Done(answer) => answer,
    };
    let mut found = vec![None; case.hashes.len()];
    lookups(&case.settings, &answer.seeds, &case.hashes, &mut found);
    let slots: Vec<u64> = found.iter().map(|slot| slot.map_or(BUMPED, |s| s as u64)).collect();
    Wanted::Done(Level {
        counts: counts(case, &answer.seeds),
        singles: slots.iter().copied().step_by(SINGLE).collect(),
        slots,
        seeds: answer.seeds,
        bitmap: answer.bitmap,
        holes: answer.holes,
    })
}

/// Document 01's counts, from the Rust's seeds.
fn counts(case: &Case, seeds: &[u16]) -> [u64; 3] {
    let sizes = case.begins.windows(2).map(|w| u64::from(w[1] - w[0]));
    let placed: u64 = sizes.zip(seeds).filter(|&(_, &seed)| seed != 0).map(|(size, _)| size).sum();
    let zero = seeds.iter().filter(|&&seed| seed == 0).count() as u64;
    [placed, case.hashes.len() as u64 - placed, zero]
}
