//! Document 01's listing and its worked sheets P3 to P9, and its figures of P1 and P2.

mod common;

use common::{Case, FORBIDDEN, case, listing, settings};
use phastr::{Builder, Counts, Error, Groups, How, Level, Settings, lent};

/// Holds a sweep to its seeds, marked slots (bits of one word) and counts, and its holes to the rest.
#[track_caller]
fn comes_to(case: &Case, seeds: &[u16], marked: u64, [placed, bumped, zero]: [u64; 3]) {
    let swept = case.passes();
    assert_eq!(swept.answer, Ok(Counts { placed, bumped, zero }));
    assert_eq!(swept.seeds, seeds);
    assert_eq!(swept.bitmap, [marked]);
    let slots = case.settings.slots;
    let expected: Vec<u32> = (0..slots as u32).filter(|i| marked >> i & 1 == 0).collect();
    let mut holes = vec![999; slots as usize];
    assert_eq!(lent::holes(slots, &swept.bitmap, &mut holes), Ok(expected.len()));
    assert_eq!(holes[..expected.len()], expected);
    assert!(holes[expected.len()..].iter().all(|&hole| hole == 999));
}

/// The slots of hashes under the seeds that a case's sweep gives, one by one and together.
fn slots(case: &Case, hashes: &[u64]) -> Vec<Option<u64>> {
    let seeds = case.passes().seeds;
    let one = |&hash: &u64| lent::lookup(&case.settings, &seeds, hash).unwrap();
    let single: Vec<Option<u64>> = hashes.iter().map(one).collect();
    let mut together = vec![0; hashes.len()];
    lent::lookup_all(&case.settings, &seeds, hashes, &mut together).unwrap();
    let together: Vec<Option<u64>> =
        together.into_iter().map(|slot| (slot != phastr::BUMPED).then_some(slot)).collect();
    assert_eq!(single, together);
    single
}

const FAR: u64 = (1 << 62) + 3;

#[test]
fn p1_and_p2_what_is_wanted() {
    for z in [0, 1, 5, 4096] {
        let sizes = lent::sizes(&settings(7, 4, 1), z).unwrap();
        assert_eq!((sizes.work as u64, sizes.table, sizes.bitmap), (2880 + 3 * z, 104, 1));
    }
    let sizes = lent::sizes(&Settings::new(2048, 683), 0).unwrap();
    assert_eq!((sizes.table, sizes.bitmap), (1122, 32));
    // W of z = 0: slots/32 + 3·L·max(n, 64) + 2,560, with 8,192 slots, L = 4 and n = 64.
    assert_eq!(sizes.work, 8192 / 32 + 3 * 4 * 64 + 2560);
}

#[test]
fn p3_one_key() {
    let p3 = case(settings(7, 4, 1), &[&[0]]);
    comes_to(&p3, &[4], 0b1, [1, 0, 0]);
    assert_eq!(slots(&p3, &[0]), [Some(0)]);
}

#[test]
fn p4_the_cheapest_rotation_collides() {
    let p4 = case(settings(7, 4, 1), &[&[0, FAR]]);
    comes_to(&p4, &[4], 0b10001, [2, 0, 0]);
    assert_eq!(slots(&p4, &[0, FAR]), [Some(0), Some(4)]);
}

#[test]
fn p5_equal_hashes() {
    let p5 = case(settings(7, 4, 1), &[&[0, 0]]);
    comes_to(&p5, &[0], 0, [0, 2, 1]);
    assert_eq!(slots(&p5, &[0, 1, u64::MAX]), [None; 3]);
    let forbidden = Case { how: FORBIDDEN, ..p5 }.sweep();
    assert_eq!(forbidden.answer, Err(Error::NoSeed { bucket: 0 }));
}

#[test]
fn p6_few_seeds() {
    let p6 = case(settings(7, 2, 1), &[&[0]]);
    comes_to(&p6, &[1], 0b10, [1, 0, 0]);
    assert_eq!(slots(&p6, &[0]), [Some(1)]);
}

#[test]
fn p7_one_slot() {
    let p7 = case(settings(1, 4, 1), &[&[0]]);
    comes_to(&p7, &[1], 0b1, [1, 0, 0]);
    assert_eq!(slots(&p7, &[0]), [Some(0)]);
}

#[test]
fn p8_zero_weights() {
    let p8 = Case { weights: [0; 7], ..listing() };
    comes_to(&p8, &[4, 1, 0], 0b1110, [3, 0, 1]);
}

#[test]
fn p9_the_listing() {
    comes_to(&listing(), &[3, 4, 0], 0b10110, [3, 0, 1]);
    let keys = listing().hashes;
    let found = slots(&listing(), &[&keys[..], &[u64::MAX]].concat());
    assert_eq!(found[3], None, "the empty bucket counts as bumped");
    let mut found: Vec<u64> = found.into_iter().flatten().collect();
    found.sort_unstable();
    assert_eq!(found, [1, 2, 4]);
}

#[test]
fn the_listing_as_an_owned_level() {
    let Case { settings, weights, hashes, begins, .. } = listing();
    let groups = Groups::new(3, vec![hashes[2], hashes[1], hashes[0]]).unwrap();
    assert_eq!((groups.hashes(), groups.begins()), (&hashes[..], &begins[..]));
    let level = Level::sweep(settings, weights, How::default(), &groups).unwrap();
    assert_eq!(level.seeds(), [3, 4, 0]);
    assert_eq!(level.bitmap(), [0b10110]);
    assert_eq!(level.counts(), Some(Counts { placed: 3, bumped: 0, zero: 1 }));
    assert_eq!(level.holes().collect::<Vec<u64>>(), [0, 3, 5, 6]);
    let built = Builder::new().log2_slice_len(3).log2_layouts(0).seed_bits(4).slots(7).buckets(3);
    assert_eq!(built.weights(weights).sweep(hashes), Ok(level));
}

#[test]
fn no_keys() {
    comes_to(&case(settings(7, 4, 1), &[&[]]), &[0], 0, [0, 0, 1]);
}

#[test]
fn bucket_counts() {
    for (keys, size, count) in [(0, 2.0, 1), (9, 2.0, 5), (10, 4.0, 3), (16, 4.0, 5)] {
        assert_eq!(lent::bucket_count(10, keys, size), Ok(count));
    }
}
