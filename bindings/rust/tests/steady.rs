//! What a change of the keys leaves as it was, seen on sweeps: early pages stay put, and the order of the
//! keys inside a bucket is free. docs/EARLY-PAGES.md says it in words.

mod common;

use common::{Case, Random, Swept, case, settings};
use phastr::{Builder, Groups, How, Level, Settings, default_weights, lent};

/// What stands in bucket b has no say about the seeds of buckets below b - NEAR.
const NEAR: usize = 255;

/// The least hash of bucket b of so many.
fn least_in(buckets: u64, b: u64) -> u64 {
    ((u128::from(b) << 64).div_ceil(u128::from(buckets))) as u64
}

/// Up to so many keys of bucket b, none among them.
fn keys_in(random: &mut Random, buckets: u64, b: u64, most: u64) -> Vec<u64> {
    let count = random.from_to(0, most);
    (0..count).map(|_| least_in(buckets, b) + random.next() % (u64::MAX / buckets)).collect()
}

/// A family: its case and its buckets' keys.
#[derive(Clone)]
struct Family {
    case: Case,
    keys: Vec<Vec<u64>>,
}

impl Family {
    /// The same settings, weights and table, with other keys, and some words of work to spare.
    fn with(&self, keys: Vec<Vec<u64>>, spare: u64) -> Family {
        let lists: Vec<&[u64]> = keys.iter().map(Vec::as_slice).collect();
        let made = case(self.case.settings, &lists);
        let (weights, how) = (self.case.weights, self.case.how);
        Family { case: Case { weights, how, work: made.work + spare as usize, ..made }, keys }
    }

    /// Each bucket's keys in another order.
    fn shuffled(&self, random: &mut Random) -> Family {
        let mut keys = self.keys.clone();
        keys.iter_mut().for_each(|bucket| random.shuffle(bucket));
        let spare = random.from_to(0, 9);
        self.with(keys, spare)
    }
}

/// 257 to 1,200 buckets of up to three keys, many to a slice, with weights that send late buckets ahead.
fn family(random: &mut Random) -> Family {
    let buckets = random.from_to(128, 600) * 2 + 1;
    let keys: Vec<Vec<u64>> = (0..buckets).map(|b| keys_in(random, buckets, b, 3)).collect();
    let count: usize = keys.iter().map(Vec::len).sum();
    let made = Settings {
        slots: count as u64 * random.from_to(9, 14) / 10,
        log2_slice_len: random.from_to(6, 11) as u32,
        log2_layouts: random.from_to(0, 2) as u32,
        seed_bits: random.from_to(4, 10) as u32,
        buckets,
    };
    let reach = 1 << random.from_to(16, 22);
    let weights = std::array::from_fn(|_| random.from_to(0, reach) as i64);
    let family = Family { case: Case { weights, ..case(made, &[]) }, keys: vec![] };
    family.with(keys, 0)
}

/// The buckets whose seeds differ.
fn moved(one: &[u16], other: &[u16]) -> Vec<usize> {
    assert_eq!(one.len(), other.len());
    (0..one.len()).filter(|&x| one[x] != other[x]).collect()
}

/// Nothing below b - 255 has moved; answers how many did from there on, b aside.
#[track_caller]
fn moved_by(b: usize, one: &[u16], other: &[u16]) -> usize {
    let moved = moved(one, other);
    let early: Vec<_> = moved.iter().filter(|&&x| x + NEAR < b).collect();
    assert!(early.is_empty(), "bucket {b} was changed, and these moved: {early:?}");
    moved.iter().filter(|&&x| x != b).count()
}

#[test]
fn early_pages_stay_put() {
    let mut random = Random(9);
    let (mut changed, mut emptied, mut farthest) = (0, 0, 0);
    for _ in 0..400 {
        let family = family(&mut random);
        let one = family.case.passes();
        let b = random.from_to(0, family.keys.len() as u64 - 1) as usize;
        let mut keys = family.keys.clone();
        keys[b] = keys_in(&mut random, family.keys.len() as u64, b as u64, 7);
        emptied += usize::from(keys[b].is_empty() != family.keys[b].is_empty());
        let spare = random.from_to(0, 9);
        let other = family.with(keys, spare).case.passes();
        changed += usize::from(moved_by(b, &one.seeds, &other.seeds) > 0);
        let first = moved(&one.seeds, &other.seeds).first().copied().unwrap_or(b);
        farthest = farthest.max(b.saturating_sub(first));
    }
    // Much does move, also far before the bucket that was changed; and some were empty on one side.
    assert!(changed > 300 && emptied > 100, "{changed} changed, {emptied} emptied or filled");
    assert!((250..=NEAR).contains(&farthest), "{farthest}");
}

/// Three slots and 257 buckets, a key in bucket 0 and one in bucket 1. Two keys of bucket 256 leave bucket 0
/// its seed and take the slot of bucket 1, which is 256 - 255: the bound is exact.
#[test]
fn the_bound_is_exact() {
    let sweep = |late: &[u64]| {
        let (first, second) = ([0], [least_in(257, 1)]);
        let mut buckets: Vec<&[u64]> = vec![&[]; 257];
        buckets[0] = &first;
        buckets[1] = &second;
        buckets[256] = late;
        let weights = [0, 1 << 20, 0, 0, 0, 0, 0];
        Case { weights, ..case(settings(3, 4, 257), &buckets) }.passes().seeds
    };
    let least = least_in(257, 256);
    let (blank, scanned) = (sweep(&[]), sweep(&[least, least + 1]));
    assert_eq!((blank[0], scanned[0]), (2, 2));
    assert_eq!((blank[1], scanned[1]), (1, 0));
    assert_eq!(moved_by(256, &blank, &scanned), 1);
    // The test of early pages finds it where the bucket is said to be one farther.
    assert!(std::panic::catch_unwind(|| moved_by(257, &blank, &scanned)).is_err());
}

/// PHastR's defaults, a page scanned again in the middle: rows that were printed early are found where they were.
#[test]
fn early_rows_at_the_defaults() {
    let mut random = Random(10);
    let hashes: Vec<u64> = (0..100_000).map(|_| random.next()).collect();
    let made = Builder::new().settings(hashes.len() as u64).unwrap();
    let sweep = |hashes: Vec<u64>| {
        let groups = Groups::new(made.buckets, hashes).unwrap();
        Level::sweep(made, default_weights(8), How::default(), &groups).unwrap()
    };
    let one = sweep(hashes.clone());
    let b = made.buckets / 2;
    let mut late: Vec<u64> = hashes.iter().copied().filter(|&h| made.bucket(h) != b).collect();
    late.extend(keys_in(&mut random, made.buckets, b, 3));
    late.push(least_in(made.buckets, b));
    let other = sweep(late);
    assert!(moved_by(b as usize, one.seeds(), other.seeds()) > 100);
    let mut rows = 0;
    for &hash in hashes.iter().filter(|&&h| made.bucket(h) + (NEAR as u64) < b) {
        assert_eq!(one.lookup(hash), other.lookup(hash));
        rows += 1;
    }
    assert!(rows > 45_000);
}

fn holes_of(case: &Case, swept: &Swept) -> Vec<u32> {
    let mut holes = vec![0; case.settings.slots as usize];
    let count = lent::holes(case.settings.slots, &swept.bitmap, &mut holes).unwrap();
    holes.truncate(count);
    holes
}

#[test]
fn order_inside_buckets_is_free() {
    let mut random = Random(11);
    let (mut reordered, mut stopped) = (0, 0);
    for _ in 0..400 {
        let mut family = family(&mut random);
        family.case.how.bump = random.from_to(0, 1) == 0;
        let shuffled = family.shuffled(&mut random);
        let (one, other) = (family.case.sweep(), shuffled.case.sweep());
        assert_eq!(one.answer, other.answer);
        assert_eq!(one.seeds, other.seeds);
        assert_eq!(one.bitmap, other.bitmap);
        assert_eq!(holes_of(&family.case, &one), holes_of(&shuffled.case, &other));
        reordered += usize::from(family.case.hashes != shuffled.case.hashes);
        stopped += usize::from(one.answer.is_err());
    }
    assert!(reordered > 390 && (20..380).contains(&stopped), "{reordered}, {stopped}");
}

/// The order of the buckets is not: a bucket's keys exchanged with its neighbour's are refused by 11, in both orders.
#[test]
fn a_reordering_is_refused_alike() {
    let mut random = Random(12);
    let mut family = family(&mut random);
    let b = family.keys.windows(2).position(|w| w[0].len() > 1 && w[1].len() > 1).unwrap();
    family.keys.swap(b, b + 1);
    let family = family.with(family.keys.clone(), 0);
    family.case.refused(11);
    family.shuffled(&mut random).case.refused(11);
}
