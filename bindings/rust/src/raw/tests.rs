//! The places for counts, bucket, slot and sizes keep what they held where a call has nothing to
//! say there. Callers of the crate do not see them.

use super::*;
use crate::How;

const KEPT: u64 = 77;

const SOUND: Settings =
    Settings { slots: 7, log2_slice_len: 3, log2_layouts: 0, seed_bits: 4, buckets: 1 };

/// Sweeps hashes of one bucket; answers the number, the counts and the bucket.
fn swept(settings: Settings, how: How, hashes: &[u64]) -> (u64, [u64; 3], u64) {
    let mut table = [0; HOUSE_ENTRIES];
    house_table(&mut table);
    let begins = [0, hashes.len() as u32];
    let input = Input { settings, weights: [0; 7], how, hashes, begins: &begins, table: &table };
    let (mut seeds, mut bitmap, mut work) = ([1; 1], [1; 1], [1; 3000]);
    let output = Output { seeds: &mut seeds, bitmap: &mut bitmap, work: &mut work };
    let (mut counts, mut bucket) = ([KEPT; 3], KEPT);
    let number = sweep(&input, output, &mut counts, &mut bucket);
    (number, counts, bucket)
}

#[test]
fn a_sweep_tells_counts_or_a_bucket() {
    let (bumping, forbidden) = (How::default(), How { bump: false, chunks: 1 });
    let unchunked = How { bump: true, chunks: 0 };
    assert_eq!(swept(SOUND, bumping, &[0]), (0, [1, 0, 0], KEPT));
    assert_eq!(swept(SOUND, forbidden, &[0, 0]), (14, [KEPT; 3], 0));
    assert_eq!(swept(SOUND, unchunked, &[0]), (20, [KEPT; 3], KEPT));
    assert_eq!(swept(Settings { slots: 0, ..SOUND }, bumping, &[0]), (5, [KEPT; 3], KEPT));
}

/// Checks one bucket's keys under a seed and a bitmap; answers the number and the bucket.
fn checked(settings: Settings, hashes: &[u64], seed: u16, marked: u64) -> (u64, u64) {
    let (begins, seeds, bitmap) = ([0, hashes.len() as u32], [seed], [marked]);
    let level = Finished { settings, hashes, begins: &begins, seeds: &seeds, bitmap: &bitmap };
    let mut bucket = KEPT;
    (check(&level, &mut [1], &mut bucket), bucket)
}

#[test]
fn a_check_tells_the_bucket_of_29() {
    assert_eq!(checked(SOUND, &[0], 4, 1), (0, KEPT));
    assert_eq!(checked(SOUND, &[0, 0], 4, 1), (29, 0));
    assert_eq!(checked(SOUND, &[0], 16, 1), (28, KEPT));
    assert_eq!(checked(SOUND, &[0], 4, 2), (30, KEPT));
    assert_eq!(checked(Settings { slots: 0, ..SOUND }, &[0], 4, 1), (5, KEPT));
}

#[test]
fn refused_calls_keep_their_places() {
    let wrong = Settings { seed_bits: 1, ..SOUND };
    let mut place = KEPT;
    assert_eq!(lookup(&wrong, &[1], 0, &mut place), 1);
    assert_eq!(lookup(&SOUND, &[], 0, &mut place), 13);
    assert_eq!(holes(0, &[0], &mut [0; 7], &mut place), 5);
    assert_eq!(holes(7, &[0], &mut [0; 6], &mut place), 15);
    assert_eq!(bucket_count(10, 1, 0.0, &mut place), 16);
    assert_eq!(place, KEPT);
    let mut three = [KEPT; 3];
    assert_eq!(sizes(&wrong, 0, &mut three), 1);
    assert_eq!(sizes(&SOUND, 4097, &mut three), 10);
    assert_eq!(three, [KEPT; 3]);
}
