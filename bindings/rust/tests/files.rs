//! Level files: what is written and read back, each number that refuses one, met and just missed, and
//! that a refusal leaves zeros.

mod common;

use common::Random;
use phastr::{Builder, Error, Level, Settings, lent};

const SETTINGS: Settings =
    Settings { slots: 7, log2_slice_len: 3, log2_layouts: 0, seed_bits: 4, buckets: 3 };
const SEEDS: [u16; 3] = [3, 4, 0];
const HOLES: [u32; 4] = [0, 3, 5, 6];
/// Document 01's listing as a file.
const FILE: [u8; 14] = [1, 7, 3, 0, 4, 3, 3, 4, 0, 4, 0, 3, 2, 1];

/// A file with other bytes at a place.
fn with(at: usize, bytes: &[u8]) -> Vec<u8> {
    [&FILE[..at], bytes, &FILE[at + 1..]].concat()
}

/// A number in ten groups.
fn ten_groups(n: u64) -> Vec<u8> {
    (0..10).map(|i| (n >> (7 * i)) as u8 % 128 + if i < 9 { 128 } else { 0 }).collect()
}

/// Reads into so many seeds and holes, which held something before.
fn read(
    bytes: &[u8],
    seeds: usize,
    holes: usize,
) -> (Result<(Settings, usize), Error>, Vec<u16>, Vec<u32>) {
    let (mut seeds, mut holes) = (vec![9; seeds], vec![9; holes]);
    let answer = lent::read_file(bytes, &mut seeds, &mut holes);
    (answer, seeds, holes)
}

fn refused(bytes: &[u8], number: u64) {
    let (answer, seeds, holes) = read(bytes, 3, 4);
    assert_eq!(answer.unwrap_err().number(), number, "{bytes:?}");
    assert_eq!((seeds, holes), (vec![0; 3], vec![0; 4]), "{bytes:?}");
}

fn accepted(bytes: &[u8]) {
    let (answer, ..) = read(bytes, 3, 7);
    assert!(answer.is_ok(), "{bytes:?}: {answer:?}");
}

fn written(
    settings: Settings,
    seeds: &[u16],
    holes: &[u32],
    room: usize,
) -> (Result<usize, Error>, Vec<u8>) {
    let mut out = vec![9; room];
    (lent::write_file(&settings, seeds, holes, &mut out), out)
}

fn not_written(settings: Settings, seeds: &[u16], holes: &[u32], room: usize, number: u64) {
    let (answer, out) = written(settings, seeds, holes, room);
    assert_eq!(answer.unwrap_err().number(), number);
    assert_eq!(out, vec![0; room]);
}

#[test]
fn the_listing() {
    let (length, out) = written(SETTINGS, &SEEDS, &HOLES, 20);
    assert_eq!(length, Ok(14));
    assert_eq!(out, [&FILE[..], &[9; 6]].concat());
    let (answer, seeds, holes) = read(&FILE, 4, 6);
    assert_eq!(answer, Ok((SETTINGS, 4)));
    assert_eq!((seeds, holes), (vec![3, 4, 0, 9], vec![0, 3, 5, 6, 9, 9]));
}

#[test]
fn n22_short_long_and_wide() {
    (0..14).for_each(|cut| refused(&FILE[..cut], 22));
    let largest = [0xff, 0xff, 0xff, 0xff, 0xff, 0xff, 0xff, 0xff, 0xff, 1];
    refused(&with(0, &largest), 23);
    refused(&with(0, &[&largest[..9], &[2]].concat()), 22);
    refused(&with(0, &[&[0x81][..], &[0x80; 9], &[0]].concat()), 22);
    accepted(&with(0, &[&[0x81][..], &[0x80; 8], &[0]].concat()));
}

#[test]
fn n23_version() {
    refused(&with(0, &[0]), 23);
    refused(&with(0, &[2]), 23);
    refused(&[2], 23);
}

#[test]
fn n1_to_7_once_b_is_read() {
    for (at, value, number) in [(4, 1, 1), (3, 4, 2), (2, 2, 3), (1, 0, 5), (5, 4, 6)] {
        refused(&with(at, &[value]), number);
        refused(&with(at, &[value])[..6], number);
        refused(&with(at, &[value])[..5], 22);
    }
    // eight layouts of 16 bits; 2^27 slots in three buckets
    refused(&[1, 7, 16, 3, 4, 3], 4);
    refused(&[1, 0x80, 0x80, 0x80, 0x40, 3, 0, 4, 3], 7);
}

#[test]
fn n24_seeds_and_holes() {
    refused(&with(6, &[16]), 24);
    accepted(&with(6, &[15]));
    refused(&with(9, &[8]), 24);
    refused(&with(11, &[0]), 24);
    accepted(&with(11, &[1]));
    refused(&with(10, &[7]), 24);
    refused(&with(13, &[2]), 24);
    // differences that would come round to a slot below m
    for back in 0..7 {
        refused(&with(13, &ten_groups(u64::MAX - back)), 24);
    }
}

#[test]
fn n25_left_over() {
    refused(&[&FILE[..], &[0]].concat(), 25);
    refused(&[&FILE[..], &[0x80]].concat(), 25);
    // another number comes first
    refused(&[&with(13, &[2])[..], &[0]].concat(), 24);
}

#[test]
fn n26_room() {
    for (seeds, holes) in [(2, 4), (3, 3), (0, 0)] {
        let (answer, seeds, holes) = read(&FILE, seeds, holes);
        assert_eq!(answer, Err(Error::FileRoom));
        assert!(seeds.iter().all(|&s| s == 0) && holes.iter().all(|&h| h == 0));
    }
    // before the first seed, and before the first hole
    assert_eq!(read(&FILE[..6], 2, 4).0, Err(Error::FileRoom));
    assert_eq!(read(&FILE[..10], 3, 3).0, Err(Error::FileRoom));
    assert_eq!(read(&FILE[..6], 3, 4).0, Err(Error::FileShort));
    assert_eq!(read(&with(9, &[8]), 3, 3).0, Err(Error::FileValue));
    not_written(SETTINGS, &SEEDS, &HOLES, 13, 26);
    not_written(SETTINGS, &SEEDS, &HOLES, 0, 26);
    assert_eq!(written(SETTINGS, &SEEDS, &HOLES, 14), (Ok(14), FILE.to_vec()));
}

#[test]
fn the_writer_checks_in_order() {
    not_written(Settings { slots: 0, ..SETTINGS }, &[99], &[9, 9], 3, 5);
    not_written(SETTINGS, &[99], &[9, 9], 3, 13);
    not_written(SETTINGS, &[1; 4], &HOLES, 30, 13);
    not_written(SETTINGS, &[0, 0, 16], &[], 3, 24);
    for holes in [&[0, 0][..], &[3, 1], &[7], &[u32::MAX]] {
        not_written(SETTINGS, &SEEDS, holes, 3, 24);
    }
    assert_eq!(written(SETTINGS, &[0, 0, 15], &[6], 30).0, Ok(11));
    assert_eq!(written(SETTINGS, &SEEDS, &[], 10).0, Ok(10));
}

#[test]
fn levels_handed_round() {
    for (keys, seed_bits) in [(0, 8), (1, 8), (64, 8), (3000, 8), (3000, 12)] {
        let mut random = Random(keys);
        let hashes: Vec<u64> = (0..keys).map(|_| random.next()).collect();
        let level = Builder::new().seed_bits(seed_bits).sweep(hashes.clone()).unwrap();
        let bytes = level.to_bytes();
        assert!(bytes.len() <= lent::file_room(level.seeds().len(), level.holes().len()));
        let read = Level::from_bytes(&bytes).unwrap();
        assert_eq!(read, level);
        assert_eq!(read.counts(), None);
        assert_eq!(read.to_bytes(), bytes);
        assert!(read.holes().eq(level.holes()));
        assert_eq!(read.lookup_all(&hashes), level.lookup_all(&hashes));
        for cut in [0, 1, bytes.len() / 2, bytes.len() - 1] {
            assert_eq!(Level::from_bytes(&bytes[..cut]), Err(Error::FileShort));
        }
        assert_eq!(Level::from_bytes(&[&bytes[..], &[0]].concat()), Err(Error::FileLeftOver));
    }
}

#[test]
fn the_error_says_what_it_is() {
    let error = Level::from_bytes(&with(0, &[2])).unwrap_err();
    assert_eq!(error.to_string(), "the file's version is not 1 (number 23)");
}
