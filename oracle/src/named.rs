//! Cases for the shapes that chance meets seldom, each with a name.

use crate::Case;
use crate::cases::{DEFAULT, TOP, family, family_of, fill, settings};
use crate::domain::{high, low};
use crate::random::Random;

type Named = (&'static str, Case);

/// Slices of 4,096 slots, 4,096 seeds: rings of several words, with room for large buckets.
const WIDE: (u32, u32, u32) = (12, 2, 12);

pub fn all(seed: u64) -> Vec<Named> {
    let mut random = Random(seed);
    let mut all = vec![
        ("ties across 1023 and 1024", ties(&mut random)),
        ("large ties across 1023 and 1024", large_ties(&mut random)),
        ("long runs of empty buckets", empty_runs(&mut random)),
    ];
    all.extend(large_buckets(&mut random));
    all.extend(limits(&mut random));
    all.extend(forbidden(&mut random));
    all.extend(families(&mut random));
    all.extend(mixed_large(&mut random));
    all
}

/// Buckets of one and two keys around 1,024, whose weights differ by a bucket's step: 1,023 and 1,024
/// tie.
fn ties(random: &mut Random) -> Case {
    let mut sizes = vec![0; 1501];
    for size in &mut sizes[900..1200] {
        *size = random.from_to(1, 2);
    }
    (sizes[1023], sizes[1024]) = (1, 2);
    let case = fill(random, settings(DEFAULT, 4000, 1501), &sizes);
    Case { weights: [0, 1024, 2048, 3072, 4096, 5120, 6144], bump: true, ..case }
}

/// The same with buckets of 64 keys and more. No hash stands twice, so that there is room for most.
fn large_ties(random: &mut Random) -> Case {
    let size = |b| if (1020..1028).contains(&b) { 64 + b % 3 } else { 0 };
    let mut key = |b| {
        let (least, greatest) = (low(1101, b), high(1101, b));
        least + ((random.word() as u128 * (greatest - least) as u128) >> 64) as u64
    };
    let buckets: Vec<Vec<u64>> =
        (0..1101).map(|b| (0..size(b)).map(|_| key(b)).collect()).collect();
    Case::new(settings(WIDE, 9000, 1101), true, [0, 0, 0, 0, 0, 0, 1024], &buckets)
}

/// Runs longer than the window, and than its cyclic set: first, between and last.
fn empty_runs(random: &mut Random) -> Case {
    let mut sizes = vec![0; 5001];
    for b in [300, 301, 600, 1900, 1901, 2155, 2156, 2157, 3500] {
        sizes[b] = 3;
    }
    fill(random, settings(DEFAULT, 20_000, 5001), &sizes)
}

/// Sizes about 64 in one window, and larger ones whose weight is held, under four kinds of weights.
fn large_buckets(random: &mut Random) -> Vec<Named> {
    let sizes: Vec<usize> = (0..41).map(|b| [62, 63, 64, 65, 140, 3, 0, 64][b % 8]).collect();
    let case = fill(random, settings(WIDE, 9000, 41), &sizes);
    let up = [0, 0, 0, 0, 0, -TOP, TOP];
    let down = [0, 0, 0, 0, 0, TOP, -TOP];
    let under = |weights| ("large buckets", Case { weights, bump: true, ..case.clone() });
    [case.weights, [0; 7], up, down].into_iter().map(under).collect()
}

/// Buckets of 64 to 4,096 keys among small ones, about 1,024: under weights that fall with the size, where large
/// ones wait until they are the oldest, that rise with it, that are held, and that are all the same. The two kinds
/// in steps of a bucket's number tie often, 1,023 and 1,024 among them.
fn mixed_large(random: &mut Random) -> Vec<Named> {
    let down = [0, 0, 0, 0, 0, 0, -1024];
    let up = [0, 0, 0, 0, 0, 0, 1024];
    let kinds = [
        ("large buckets that wait", down, (65, 64)),
        ("large buckets that go ahead", up, (64, 65)),
        ("large buckets of held weight", [0, 0, 0, 0, 0, -TOP, TOP], (64, 4096)),
        ("large buckets held back", [0, 0, 0, 0, 0, TOP, -TOP], (4096, 64)),
        ("large buckets of one weight", [0; 7], (64, 64)),
    ];
    let mut case = |weights, (last, first)| {
        let mut sizes: Vec<usize> = (0..1501).map(|b| mixed_size(random, b)).collect();
        (sizes[1023], sizes[1024]) = (last, first);
        let case = fill(random, settings(WIDE, 60_000, 1501), &sizes);
        Case { weights, bump: true, ..case }
    };
    kinds.map(|(name, weights, pair)| (name, case(weights, pair))).to_vec()
}

/// A size of `mixed_large`: about 1,024 one bucket in four has 64 keys and more.
fn mixed_size(random: &mut Random, b: usize) -> usize {
    if !(700..1400).contains(&b) {
        return random.below(4);
    }
    match random.below(16) {
        0 => random.from_to(60, 68),
        1 | 2 => random.from_to(64, 100),
        3 if random.one_in(20) => random.from_to(2000, 4096),
        3 => random.from_to(64, 400),
        _ => random.below(8),
    }
}

/// The largest bucket that is accepted, and the most slices to a bucket.
fn limits(random: &mut Random) -> [Named; 2] {
    [
        ("a bucket of 4,096 keys", fill(random, settings((16, 0, 16), 65_536, 3), &[1, 4096, 2])),
        (
            "4,096 slices to a bucket",
            fill(random, settings((3, 1, 4), 3 * 4096 + 7, 3), &[9, 9, 9]),
        ),
    ]
}

/// Bumping forbidden: with room for every bucket, and with one key a second time in the middle.
fn forbidden(random: &mut Random) -> [Named; 2] {
    let done = Case { bump: false, ..family_of(random.word(), 3000, 6000, 3.0, DEFAULT) };
    let mut several = (0..done.settings.buckets).filter(|&b| done.keys(b).len() > 1);
    let b = several.nth(400).expect("most buckets have more than one key");
    let at = done.begins[b] as usize;
    let mut stopped = done.clone();
    stopped.hashes[at + 1] = stopped.hashes[at];
    [("forbidden and done", done), ("forbidden and stopped", stopped)]
}

/// 10^5 keys under several settings.
fn families(random: &mut Random) -> [Named; 5] {
    let k = 100_000;
    [
        ("10^5 keys", family(random.word(), k)),
        ("10^5 keys, rings of four words", family_of(random.word(), k, k, 5.75, (11, 2, 10))),
        ("10^5 keys, one layout", family_of(random.word(), k, k, 4.0, (10, 0, 8))),
        ("10^5 keys, short slices", family_of(random.word(), k, k + 1000, 2.0, (6, 3, 8))),
        ("10^5 keys, long slices", family_of(random.word(), k, k, 6.0, (16, 2, 12))),
    ]
}
