//! The refusals of the calls beside the sweep, each met and just missed, and owned levels.

mod common;

use common::Random;
use phastr::lent;
use phastr::{BUMPED, Builder, Error, Groups, How, Level, Settings, default_weights};

/// Settings that pass, of three buckets.
const SOUND: Settings =
    Settings { slots: 7, log2_slice_len: 3, log2_layouts: 0, seed_bits: 4, buckets: 3 };

/// Settings that 1 to 6 refuse, with their number, and some just beside them that pass.
fn refused_settings() -> Vec<(u64, Settings)> {
    vec![
        (1, Settings { seed_bits: 1, ..SOUND }),
        (0, Settings { seed_bits: 2, ..SOUND }),
        (1, Settings { seed_bits: 17, ..SOUND }),
        (0, Settings { seed_bits: 16, ..SOUND }),
        (2, Settings { log2_layouts: 4, ..SOUND }),
        (0, Settings { log2_layouts: 3, ..SOUND }),
        (3, Settings { log2_slice_len: 2, ..SOUND }),
        (3, Settings { log2_slice_len: 17, ..SOUND }),
        (0, Settings { log2_slice_len: 16, ..SOUND }),
        (4, Settings { seed_bits: 8, log2_layouts: 7, ..SOUND }),
        (4, Settings { seed_bits: 8, log2_slice_len: 5, log2_layouts: 4, ..SOUND }),
        (0, Settings { seed_bits: 8, log2_slice_len: 4, log2_layouts: 4, ..SOUND }),
        (5, Settings { slots: 0, ..SOUND }),
        (0, Settings { slots: 1, ..SOUND }),
        (5, Settings { slots: (1 << 27) + 1, ..SOUND }),
        (6, Settings { buckets: 0, ..SOUND }),
        (6, Settings { buckets: 2, ..SOUND }),
        (6, Settings { buckets: 67_108_867, ..SOUND }),
    ]
}

fn number<T>(answer: Result<T, Error>) -> u64 {
    answer.map_or_else(|e| e.number(), |_| 0)
}

#[test]
fn lookups() {
    for (refused, settings) in refused_settings() {
        let seeds = [1; 3];
        let mut slots = [77; 2];
        assert_eq!(number(lent::lookup(&settings, &seeds, 5)), refused, "{settings:?}");
        assert_eq!(number(lent::lookup_all(&settings, &seeds, &[5, 6], &mut slots)), refused);
        assert_eq!(slots == [77; 2], refused != 0);
    }
    // A lookup does not ask for 7: the most slots over one bucket.
    let wide = Settings { slots: 1 << 27, buckets: 1, ..SOUND };
    assert_eq!(number(lent::lookup(&wide, &[1], u64::MAX)), 0);
    assert_eq!(number(lent::sizes(&wide, 0)), 7);
    let most = Settings { buckets: 67_108_865, ..SOUND };
    assert_eq!(lent::lookup(&most, &vec![0; 67_108_865], u64::MAX), Ok(None));
}

#[test]
fn lookups_of_other_lengths() {
    for seeds in [&[1; 2][..], &[1; 4], &[]] {
        let mut slots = [77; 2];
        assert_eq!(lent::lookup(&SOUND, seeds, 5), Err(Error::Lengths));
        assert_eq!(lent::lookup_all(&SOUND, seeds, &[5, 6], &mut slots), Err(Error::Lengths));
        assert_eq!(slots, [77; 2]);
    }
    for len in [0, 1, 3] {
        let mut slots = vec![77; len];
        assert_eq!(lent::lookup_all(&SOUND, &[1; 3], &[5, 6], &mut slots), Err(Error::Lengths));
        assert_eq!(slots, vec![77; len]);
    }
    assert_eq!(lent::lookup_all(&SOUND, &[1; 3], &[], &mut []), Ok(()));
}

#[test]
fn a_lookup_takes_any_stored_seed() {
    // The seed is used as it stands, of more than sb bits too: it comes round after l = 4.
    let at = |seed: u16| lent::lookup(&SOUND, &[seed; 3], 1 << 62).unwrap();
    assert_eq!(at(0), None);
    assert_eq!(at(65_533), at(1));
    let mut slots = [0; 1];
    lent::lookup_all(&SOUND, &[0; 3], &[1 << 62], &mut slots).unwrap();
    assert_eq!(slots, [BUMPED]);
}

#[test]
fn sizes() {
    for (refused, settings) in refused_settings() {
        assert_eq!(number(lent::sizes(&settings, 1)), refused, "{settings:?}");
    }
    let slots = 3 * 4096 + 7;
    assert_eq!(number(lent::sizes(&Settings { slots, ..SOUND }, 1)), 0);
    assert_eq!(number(lent::sizes(&Settings { slots: slots + 1, ..SOUND }, 1)), 7);
    assert_eq!(number(lent::sizes(&SOUND, 4096)), 0);
    assert_eq!(number(lent::sizes(&SOUND, 4097)), 10);
    assert_eq!(number(lent::sizes(&SOUND, u64::MAX)), 10);
}

#[test]
fn holes() {
    let mut out = [99; 8];
    assert_eq!(lent::holes(0, &[], &mut out), Err(Error::Slots));
    assert_eq!(lent::holes((1 << 27) + 1, &[0], &mut out), Err(Error::Slots));
    assert_eq!(lent::holes(7, &[], &mut out), Err(Error::Lengths));
    assert_eq!(lent::holes(7, &[0, 0], &mut out), Err(Error::Lengths));
    assert_eq!(lent::holes(64, &[0, 0], &mut out), Err(Error::Lengths));
    assert_eq!(lent::holes(7, &[0b10110], &mut out[..3]), Err(Error::HoleBuffer));
    assert_eq!(out, [99; 8]);
    assert_eq!(lent::holes(7, &[0b10110], &mut out[..4]), Ok(4));
    assert_eq!(out, [0, 3, 5, 6, 99, 99, 99, 99]);
    // Bits from m on are no slots, and a full level has no hole to list.
    assert_eq!(lent::holes(7, &[!0b1000], &mut out), Ok(1));
    assert_eq!(lent::holes(7, &[!0], &mut []), Ok(0));
    assert_eq!(lent::holes(1, &[0], &mut []), Err(Error::HoleBuffer));
}

#[test]
fn bucket_counts() {
    for size in [f64::NAN, 0.0, -1.0, 1.0f64.next_down(), 64.0f64.next_up(), f64::INFINITY] {
        assert_eq!(lent::bucket_count(10, 10, size), Err(Error::BucketSize), "{size}");
    }
    assert_eq!(lent::bucket_count(10, 10, 1.0), Ok(11));
    assert_eq!(lent::bucket_count(10, 64, 64.0), Ok(1));
    assert_eq!(lent::bucket_count(8, 10, 32.0f64.next_up()), Err(Error::BucketSize));
    assert_eq!(lent::bucket_count(8, 96, 32.0), Ok(3));
    assert_eq!(lent::bucket_count(3, 10, 1.0f64.next_up()), Err(Error::BucketSize));
    for log2_slice_len in [2, 17] {
        assert_eq!(lent::bucket_count(log2_slice_len, 10, 1.0), Err(Error::SliceLen));
    }
    for log2_slice_len in [3, 16] {
        assert_eq!(lent::bucket_count(log2_slice_len, 10, 1.0), Ok(11));
    }
    assert_eq!(lent::bucket_count(10, 67_108_865, 1.0), Err(Error::Keys));
    assert_eq!(lent::bucket_count(10, 67_108_864, 1.0), Ok(67_108_865));
}

#[test]
fn groups() {
    for buckets in [0, 2, 67_108_867] {
        assert_eq!(Groups::new(buckets, vec![]), Err(Error::Buckets));
    }
    assert_eq!(Groups::new(1, vec![0; 67_108_865]), Err(Error::Keys));
    let none = Groups::new(3, vec![]).unwrap();
    assert_eq!((none.hashes(), none.begins(), none.largest()), (&[][..], &[0; 4][..], 0));
    let some = Groups::new(5, vec![u64::MAX, 0, 1 << 63, 3]).unwrap();
    assert_eq!((some.begins(), some.largest()), (&[0, 2, 2, 3, 3, 4][..], 2));
}

/// So many hashes.
fn hashes(count: u64) -> Vec<u64> {
    let mut random = Random(0);
    (0..count).map(|_| random.next()).collect()
}

/// Each key has a slot of its own or was bumped, and the slots taken and the holes are all there are.
fn hold_together(level: &Level, keys: &[u64]) {
    let found = level.lookup_all(keys);
    let mut marked = vec![false; level.settings().slots as usize];
    for (&key, slot) in keys.iter().zip(&found) {
        assert_eq!(level.lookup(key), *slot);
        let seed = level.seeds()[level.settings().bucket(key) as usize];
        assert_eq!(slot.is_none(), seed == 0);
        if let Some(slot) = slot {
            assert!(level.is_taken(*slot));
            assert!(!std::mem::replace(&mut marked[*slot as usize], true), "a slot taken twice");
        }
    }
    let placed = found.iter().flatten().count() as u64;
    let counts = level.counts().unwrap();
    assert_eq!((counts.placed, counts.bumped), (placed, keys.len() as u64 - placed));
    assert_eq!(counts.zero, level.seeds().iter().filter(|&&seed| seed == 0).count() as u64);
    let free: Vec<u64> = (0..marked.len() as u64).filter(|&i| !marked[i as usize]).collect();
    assert_eq!(level.holes().len(), free.len());
    assert_eq!(level.holes().collect::<Vec<u64>>(), free);
    let bumped: Vec<usize> = (0..keys.len()).filter(|&i| found[i].is_none()).collect();
    assert_eq!(level.bumped(keys), bumped);
    assert!(!level.is_taken(level.settings().slots));
}

#[test]
fn levels() {
    for count in [0, 1, 2, 63, 64, 65, 1000, 20_000] {
        let keys = hashes(count);
        hold_together(&Builder::new().sweep(keys.clone()).unwrap(), &keys);
        let wide = Builder::new().seed_bits(10).log2_slice_len(11).bucket_size(5.75);
        hold_together(&wide.sweep(keys.clone()).unwrap(), &keys);
    }
}

/// So many keys make two chunks at the defaults.
#[test]
fn levels_in_chunks() {
    let keys = hashes(150_000);
    let swept = |chunks| Builder::new().chunks(chunks).sweep(keys.clone()).unwrap();
    let (one, two) = (swept(1), swept(2));
    hold_together(&two, &keys);
    assert!(one.seeds() != two.seeds());
    // The first chunk begins as the level does, until its window would look past its end.
    let end = one.settings().buckets as usize / 2 - 242 - 256;
    assert!(one.seeds()[..end] == two.seeds()[..end]);
    assert!(two == swept(u64::MAX));
}

/// Slices of 2,048 to 65,536 slots, which want a longer table than the house table. No table is given.
#[test]
fn long_slices() {
    for log2_slice_len in 11..=16 {
        let length = 1 << log2_slice_len;
        // As many slots as a slice has, a few around that, and twice as many.
        for count in [length - 1, length, length + 1, 2 * length + 7] {
            let keys = hashes(count);
            let long = Builder::new().log2_slice_len(log2_slice_len);
            let level = long.sweep(keys.clone()).unwrap();
            let sizes = lent::sizes(&level.settings(), 1).unwrap();
            assert_eq!(sizes.table > phastr::HOUSE_ENTRIES, count >= 2 * 1024, "{count}");
            hold_together(&level, &keys);
        }
    }
}

#[test]
fn builders_refuse() {
    let keys = || hashes(100);
    let b = Builder::new;
    assert_eq!(b().seed_bits(1).sweep(keys()), Err(Error::SeedBits));
    assert_eq!(b().seed_bits(2).sweep(keys()), Err(Error::Layouts));
    assert_eq!(b().log2_slice_len(2).sweep(keys()), Err(Error::SliceLen));
    assert_eq!(b().log2_slice_len(2).buckets(25).sweep(keys()), Err(Error::SliceLen));
    assert_eq!(b().log2_layouts(3).sweep(keys()), Err(Error::LayoutBits));
    assert_eq!(b().slots(0).sweep(keys()), Err(Error::Slots));
    assert_eq!(b().buckets(24).sweep(keys()), Err(Error::Buckets));
    assert_eq!(b().buckets(1).slots(1 << 27).sweep(keys()), Err(Error::SlicesPerBucket));
    assert_eq!(b().weights([1 << 33; 7]).sweep(keys()), Err(Error::Weights));
    assert_eq!(b().chunks(0).sweep(keys()), Err(Error::Chunks));
    assert_eq!(b().chunks(u64::MAX).sweep(keys()), b().sweep(keys()));
    assert_eq!(b().buckets(1).sweep(hashes(4097)), Err(Error::LargeBucket));
    assert_eq!(b().bucket_size(0.5).sweep(keys()), Err(Error::BucketSize));
    assert_eq!(b().sweep(vec![0; 67_108_865]), Err(Error::Keys));
    assert_eq!(b().buckets(25).sweep(vec![0; 67_108_865]), Err(Error::Keys));
    assert_eq!(b().bump(false).sweep(vec![0; 2]), Err(Error::NoSeed { bucket: 0 }));
    assert!(b().bump(false).slots(10).sweep(vec![0, 1 << 63]).is_ok());
}

#[test]
fn levels_of_parts_are_checked() {
    let sweep = |hashes: &[u64], begins: &[u32]| {
        let groups = Groups::from_parts(hashes.to_vec(), begins.to_vec());
        Level::sweep(SOUND, default_weights(4), How::default(), &groups)
    };
    assert_eq!(sweep(&[0, 1], &[0, 2]), Err(Error::Begins));
    assert_eq!(sweep(&[0, 1], &[0, 2, 1, 2]), Err(Error::Begins));
    assert_eq!(sweep(&[0, u64::MAX], &[0, 2, 2, 2]), Err(Error::StrayHash));
    assert!(sweep(&[0, u64::MAX], &[0, 1, 1, 2]).is_ok());
    // The order of the numbers is the sweep's: 8 comes before 10.
    let large = Groups::new(3, vec![0; 4097]).unwrap();
    assert_eq!(Level::sweep(SOUND, [i64::MAX; 7], How::default(), &large), Err(Error::Weights));
    assert_eq!(Level::sweep(SOUND, [0; 7], How::default(), &large), Err(Error::LargeBucket));
}

#[test]
fn phastrs_weights() {
    assert_eq!(default_weights(8)[..2], [-52000, 53315]);
    assert_eq!(default_weights(9)[..2], [46000, 55041]);
}

#[test]
fn errors_say_words_and_number() {
    let error: Box<dyn std::error::Error> = Box::new(Error::NoSeed { bucket: 7 });
    assert_eq!(
        error.to_string(),
        "bumping is forbidden and no seed fits a bucket, bucket 7 (number 14)"
    );
    assert_eq!(Error::SeedBits.to_string(), "seed_bits is not from 2 to 16 (number 1)");
    assert_eq!(Error::Keys.words(), "there are more than 67,108,864 keys");
    assert_eq!(
        Error::TableLength.to_string(),
        "a table has no entries, or more than 131,072 (number 21)"
    );
}
