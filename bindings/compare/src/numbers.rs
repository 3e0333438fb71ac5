//! What the binding works out beside sweeps: PHastR's weights, the logarithm table, bucket counts.

use crate::tally::Tally;
use oracle::random::Random;
use phastr::{LOG_ENTRIES, default_weights, lent, log_table};

/// The most keys of a level.
const MOST_KEYS: usize = 67_108_864;

/// How many bucket counts are compared.
const COUNTS: usize = 200_000;

pub fn compare(seed: u64, tally: &mut Tally) {
    for seed_bits in 2..=16 {
        tally.all_same("weights", &default_weights(seed_bits), &oracle::default_weights(seed_bits));
    }
    let table = log_table(LOG_ENTRIES).expect("the longest table is made");
    tally.all_same("table", &table, &oracle::log2_table(LOG_ENTRIES));
    let mut random = Random(seed);
    for _ in 0..COUNTS {
        let limit = limit(&mut random);
        let keys = random.below(limit) + 1;
        let size = size(&mut random, keys);
        let ours = lent::bucket_count(16, keys as u64, size);
        tally.same("bucket count", ours, Ok(oracle::bucket_count(keys, size) as u64));
    }
}

/// Few keys as often as many.
fn limit(random: &mut Random) -> usize {
    MOST_KEYS >> random.below(27)
}

/// A bucket size from 1 to 64: any, or one that puts the quotient on a half or right beside it.
fn size(random: &mut Random, keys: usize) -> f64 {
    let any = 1.0 + 63.0 * random.below(1 << 53) as f64 / (1u64 << 53) as f64;
    let half = keys as f64 / ((keys as f64 / any).floor() + 0.5);
    let near = random.pick(&[any, half, half.next_up(), half.next_down()]);
    near.clamp(1.0, 64.0)
}
