//! The case generator. Every case lies in document 01's domain. A seed gives the same cases on
//! every machine; `every_setting`, the module `named` and `small` together meet all of `shapes`.

use crate::domain::{high, low};
use crate::random::Random;
use crate::{Case, Settings, bucket_count, default_weights, figures, named};

/// The greatest weight.
pub const TOP: i64 = 1 << 32;

/// The most buckets that check 6 allows.
const MOST_BUCKETS: usize = 67_108_865;

/// log2_slice_len, ll and sb.
pub type Setting = (u32, u32, u32);

/// The Rust's defaults.
pub const DEFAULT: Setting = (10, 2, 8);

/// All settings that pass checks 1 to 4.
pub fn all_settings() -> Vec<Setting> {
    let mut all = vec![];
    for log2_layouts in 0..=6u32 {
        for seed_bits in 2.max(log2_layouts + 1)..=16 {
            for log2_slice_len in (3..=16).filter(|x| x << log2_layouts <= 64) {
                all.push((log2_slice_len, log2_layouts, seed_bits));
            }
        }
    }
    all
}

/// One case for each of `all_settings`, with slices of full length and a dozen buckets or so.
pub fn every_setting(seed: u64) -> Vec<Case> {
    let mut random = Random(seed);
    let case = |setting: Setting| {
        let l = 1usize << setting.0;
        let m = l + random.below(l.min(4096));
        let buckets = random.from_to(2, 20) | 1;
        let sizes = spread(&mut random, buckets, (m / 2).min(60));
        fill(&mut random, settings(setting, m, buckets), &sizes)
    };
    all_settings().into_iter().map(case).collect()
}

/// So many small random cases. One in eight is long: many buckets over few slots each, so that the
/// ring of used slots goes round more than once.
pub fn small(seed: u64, count: usize) -> impl Iterator<Item = Case> {
    let mut random = Random(seed);
    let all = all_settings();
    (0..count).map(move |_| {
        let mut setting = random.pick(&all);
        if !random.one_in(8) {
            return short(&mut random, setting);
        }
        setting.0 = setting.0.min(random.from_to(3, 6) as u32);
        long(&mut random, setting)
    })
}

pub fn settings(
    (log2_slice_len, log2_layouts, seed_bits): Setting,
    m: usize,
    buckets: usize,
) -> Settings {
    Settings { m, log2_slice_len, log2_layouts, seed_bits, buckets }
}

fn short(random: &mut Random, setting: Setting) -> Case {
    let m = small_m(random);
    let buckets = match random.below(4) {
        0 => 1,
        1 => random.from_to(1, 9) | 1,
        _ => random.from_to(1, (m / 2).clamp(2, 300)) | 1,
    };
    let keys = random.below(m + m / 4 + 2).min(400);
    let sizes = spread(random, buckets, keys);
    fill(random, settings(setting, m, buckets), &sizes)
}

fn long(random: &mut Random, setting: Setting) -> Case {
    let m = random.from_to(2000, 6000);
    let buckets = (m / random.from_to(1, 3)) | 1;
    // At most 4,096 keys in all, as one bucket may get them.
    let keys = random.from_to(m / 4, 2 * m / 3);
    let sizes = spread(random, buckets, keys);
    fill(random, settings(setting, m, buckets), &sizes)
}

fn small_m(random: &mut Random) -> usize {
    match random.below(4) {
        0 => random.pick(&[1, 2, 63, 64, 65]),
        1 => random.from_to(1, 40),
        2 => (1 << random.from_to(1, 12)) + random.below(3) - 1,
        _ => random.from_to(1, 3000),
    }
}

/// Gives the keys to buckets: evenly, or most of them to one, or none from some bucket on or before it.
fn spread(random: &mut Random, buckets: usize, keys: usize) -> Vec<usize> {
    let mut sizes = vec![0; buckets];
    let (from, to) = match random.below(6) {
        0 => (random.below(buckets), buckets),
        1 => (0, random.from_to(1, buckets)),
        _ => (0, buckets),
    };
    let favourite = random.from_to(from, to - 1);
    let favour = random.one_in(6);
    for _ in 0..keys {
        let even = !favour || random.one_in(4);
        sizes[if even { random.from_to(from, to - 1) } else { favourite }] += 1;
    }
    sizes
}

/// A hash of bucket b: anywhere, at an end, or beside one that is there already.
fn hash(random: &mut Random, buckets: usize, b: usize, there: &[u64]) -> u64 {
    let (least, greatest) = (low(buckets, b), high(buckets, b));
    match random.below(40) {
        0 => least,
        1 => greatest,
        2 if !there.is_empty() => random.pick(there),
        3 if !there.is_empty() => random.pick(there).saturating_add(1).min(greatest),
        _ => least + ((random.word() as u128 * ((greatest - least) as u128 + 1)) >> 64) as u64,
    }
}

fn weights(random: &mut Random, seed_bits: u32) -> [i64; 7] {
    match random.below(5) {
        0 => [0; 7],
        1 => default_weights(seed_bits),
        2 => std::array::from_fn(|_| random.pick(&[-TOP, TOP, 0, TOP - 1, 1 - TOP])),
        // Whole steps of a bucket's number, so that priorities tie.
        3 => std::array::from_fn(|_| 1024 * (random.below(9) as i64 - 4)),
        _ => std::array::from_fn(|_| random.below(200_001) as i64 - 100_000),
    }
}

/// A case of buckets of these sizes: the hashes, weights and the bump flag at random.
pub fn fill(random: &mut Random, settings: Settings, sizes: &[usize]) -> Case {
    let mut buckets = vec![];
    for (b, &size) in sizes.iter().enumerate() {
        let mut keys = vec![];
        for _ in 0..size {
            keys.push(hash(random, settings.buckets, b, &keys));
        }
        buckets.push(keys);
    }
    let weights = weights(random, settings.seed_bits);
    Case::new(settings, !random.one_in(4), weights, &buckets)
}

/// k random keys at the Rust's defaults: m = k, 8-bit seeds, four layouts, slices of 1,024, buckets
/// of 4.25 keys.
pub fn family(seed: u64, k: usize) -> Case {
    family_of(seed, k, k, 4.25, DEFAULT)
}

/// k random keys on m slots in buckets of about the given size, with the default weights.
pub fn family_of(seed: u64, k: usize, m: usize, bucket_size: f64, setting: Setting) -> Case {
    let mut random = Random(seed);
    let buckets = bucket_count(k, bucket_size);
    let mut hashes: Vec<u64> = (0..k).map(|_| random.word()).collect();
    hashes.sort_unstable();
    let mut begins = vec![0u32; buckets + 1];
    for &h in &hashes {
        begins[((h as u128 * buckets as u128) >> 64) as usize + 1] += 1;
    }
    for b in 0..buckets {
        begins[b + 1] += begins[b];
    }
    let settings = settings(setting, m, buckets);
    let weights = default_weights(settings.seed_bits);
    Case { settings, bump: true, chunks: 1, weights, begins, hashes }
}

/// The fewest buckets that check 7 allows, made odd.
pub fn fewest_buckets(setting: Setting, m: usize) -> usize {
    figures(&settings(setting, m, MOST_BUCKETS)).slices.div_ceil(4096) | 1
}

/// So many settings of any size in the domain, to ask about rule G alone.
pub fn any_settings(seed: u64, count: usize) -> impl Iterator<Item = Settings> {
    let mut random = Random(seed);
    let all = all_settings();
    (0..count).map(move |_| {
        let setting = random.pick(&all);
        let near = 1usize << random.from_to(0, 27);
        let other = random.below(near);
        let m = random.pick(&[near, near + 1, near - 1, other]).clamp(1, 1 << 27);
        // The fewest buckets that check 7 allows, the most, or any number between.
        let fewest = fewest_buckets(setting, m);
        let any = 1usize << random.from_to(0, 26);
        let other = random.below(any);
        let buckets = random.pick(&[fewest, MOST_BUCKETS, any, other]).max(fewest) | 1;
        settings(setting, m, buckets)
    })
}

/// The fixed seed of a run that is given none.
pub const SEED: u64 = 0x5351_4545_5021;

/// The seed that a word names: a number, or the fixed one by 'fixed' or nothing.
pub fn seed(word: &str) -> Option<u64> {
    match word {
        "" | "fixed" => Some(SEED),
        _ => word.parse().ok(),
    }
}

/// All cases of a seed: one for each setting, the named ones, and so many small ones.
pub fn all(seed: u64, count: usize) -> impl Iterator<Item = Case> {
    every_setting(seed)
        .into_iter()
        .chain(named::all(seed ^ 1).into_iter().map(|(_, case)| case))
        .chain(small(seed ^ 2, count))
}

/// The longest table that a case of these asks for.
pub fn table_entries<'a>(cases: impl Iterator<Item = &'a Case>) -> usize {
    cases.map(|c| figures(&c.settings).table_entries).max().unwrap_or(0)
}
