//! Settings with what the Rust makes of them, in plain numbers: what crates/compare_geometry reads.

use crate::cases::{Setting, all_settings, any_settings, fewest_buckets, settings};
use crate::domain::{high, low};
use crate::random::Random;
use crate::{Settings, figures, first_slices, place_of, positions};

/// The most slots and buckets that checks 5 and 6 allow.
const MOST: (usize, usize) = (1 << 27, 67_108_865);

/// Each setting at the limits of m and B and where its slices become full, and so many others.
pub fn chosen(seed: u64, count: usize) -> Vec<Settings> {
    let at_limits = |setting: Setting| {
        let full = 1 << setting.0;
        let of = move |m| (m, fewest_buckets(setting, m));
        [(1, 1), (1, MOST.1), of(full - 1), of(full), of(MOST.0), MOST]
            .map(|(m, buckets)| settings(setting, m, buckets))
    };
    all_settings().into_iter().flat_map(at_limits).chain(any_settings(seed, count)).collect()
}

/// One line of numbers: the settings, rule G's numbers, z and W, then buckets with their first
/// slices, and hashes with a seed, the bucket, the slice, the offset and the position.
fn line(random: &mut Random, s: &Settings) -> Vec<u64> {
    let (f, z, b) = (figures(s), random.below(4097), random.below(s.buckets));
    let mut numbers: Vec<u64> = [
        s.m,
        s.log2_slice_len as usize,
        s.log2_layouts as usize,
        s.seed_bits as usize,
        s.buckets,
        f.slice_len,
        f.slices,
        f.scale as usize,
        f.layouts,
        f.log2_stride as usize,
        f.ring_len,
        f.rotations,
        (f.slices_per_bucket >> 64) as usize,
        f.slices_per_bucket as u64 as usize,
        f.per_bucket,
        f.ring_slots,
        f.table_entries,
        z,
        f.work_words(z),
    ]
    .map(|x| x as u64)
    .to_vec();
    let buckets = [0, b, b + 1, s.buckets];
    numbers.push(buckets.len() as u64);
    for (b, first) in buckets.into_iter().zip(first_slices(s, buckets.into_iter())) {
        numbers.extend([b as u64, first as u64]);
    }
    // The ends of a bucket and of all, and any hash; the last seed is any that can be stored.
    let top = (1 << s.seed_bits) - 1;
    let keys = [
        (0, 1),
        (u64::MAX, top),
        (low(s.buckets, b), random.from_to(1, top)),
        (high(s.buckets, b), random.from_to(1, top)),
        (random.word(), random.from_to(1, 65_535)),
    ];
    numbers.push(keys.len() as u64);
    for ((hash, seed), position) in keys.into_iter().zip(positions(s, &keys)) {
        let (bucket, slice, offset) = place_of(s, hash);
        numbers.extend([hash, seed as u64, bucket as u64, slice as u64, offset, position as u64]);
    }
    numbers
}

/// The number of cases and their lines.
pub fn text(seed: u64, count: usize) -> String {
    let (all, mut random) = (chosen(seed, count), Random(seed ^ 3));
    let mut text = format!("{}\n", all.len());
    for s in &all {
        let words: Vec<String> = line(&mut random, s).iter().map(u64::to_string).collect();
        text += &(words.join(" ") + "\n");
    }
    text
}
