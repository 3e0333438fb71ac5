//! Document 01's checks 1 to 11, which say where the Rust may be asked at all: outside, it promises
//! nothing. (12 and 13 are about lent buffers, which the Rust does not have.)

use crate::{Case, Settings};

/// The least number of 1 to 7 that refuses the settings, if any.
pub fn refused_settings(s: &Settings) -> Option<u32> {
    let tests = [
        (1, !(2..=16).contains(&s.seed_bits)),
        (2, s.log2_layouts >= s.seed_bits),
        (3, !(3..=16).contains(&s.log2_slice_len)),
        (4, s.log2_layouts > 6 || s.log2_slice_len << s.log2_layouts.min(6) > 64),
        (5, !(1..=1 << 27).contains(&s.m)),
        (6, s.buckets.is_multiple_of(2) || s.buckets > 67_108_865),
    ];
    if let Some(&(number, _)) = tests.iter().find(|&&(_, refused)| refused) {
        return Some(number);
    }
    let l = (s.m / 2 + 1).next_power_of_two().min(1 << s.log2_slice_len);
    ((s.m + 1 - l).div_ceil(s.buckets) > 4096).then_some(7)
}

/// The least number of 1 to 11 that refuses the case, if any.
pub fn refused(case: &Case) -> Option<u32> {
    let s = &case.settings;
    if let Some(number) = refused_settings(s) {
        return Some(number);
    }
    if case.weights.iter().any(|w| w.unsigned_abs() > 1 << 32) {
        return Some(8);
    }
    let begins = &case.begins;
    if begins.len() != s.buckets + 1
        || begins[0] != 0
        || begins.windows(2).any(|w| w[1] < w[0])
        || begins[s.buckets] as usize != case.hashes.len()
        || case.hashes.len() > 67_108_864
    {
        return Some(9);
    }
    if case.largest() > 4096 {
        return Some(10);
    }
    let strays =
        |b: usize| case.keys(b).iter().any(|&h| h < low(s.buckets, b) || high(s.buckets, b) < h);
    (0..s.buckets).any(strays).then_some(11)
}

/// The least hash of a bucket.
pub fn low(buckets: usize, b: usize) -> u64 {
    ((b as u128) << 64).div_ceil(buckets as u128) as u64
}

/// The greatest hash of a bucket.
pub fn high(buckets: usize, b: usize) -> u64 {
    (((b as u128 + 1) << 64).div_ceil(buckets as u128) - 1) as u64
}
