//! Each number that a check of a level can be refused with: met, and just missed. One of 1 to 13 writes nothing; every
//! other call leaves the scratch zero.

mod common;

use common::{Case, WORD, case, listing, settings};
use phastr::lent::{self, Finished};
use phastr::{Builder, Error, Groups, Level, Settings, check_level};

/// A level, its keys, and how much scratch is lent.
#[derive(Clone, Debug)]
struct Check {
    settings: Settings,
    hashes: Vec<u64>,
    begins: Vec<u32>,
    seeds: Vec<u16>,
    bitmap: Vec<u64>,
    scratch: usize,
}

impl Check {
    /// The level that a sweep makes.
    fn of(case: &Case) -> Check {
        let swept = case.passes();
        Check {
            settings: case.settings,
            hashes: case.hashes.clone(),
            begins: case.begins.clone(),
            seeds: swept.seeds,
            scratch: swept.bitmap.len(),
            bitmap: swept.bitmap,
        }
    }

    /// The answer, and the scratch, which was dirty.
    fn answer(&self) -> (Result<(), Error>, Vec<u64>) {
        let mut scratch = vec![WORD; self.scratch];
        let level = Finished {
            settings: self.settings,
            hashes: &self.hashes,
            begins: &self.begins,
            seeds: &self.seeds,
            bitmap: &self.bitmap,
        };
        (lent::check(&level, &mut scratch), scratch)
    }

    /// One of the first checks refuses, and nothing is written.
    #[track_caller]
    fn refused(&self, number: u64) {
        let (answer, scratch) = self.answer();
        assert_eq!(answer.map_err(|e| e.number()), Err(number), "{:?}", self.settings);
        assert!(scratch.iter().all(|&w| w == WORD), "the scratch was written");
    }

    /// The level itself comes to this, and the scratch is zero.
    #[track_caller]
    fn comes_to(&self, wanted: Result<(), Error>) {
        let (answer, scratch) = self.answer();
        assert_eq!(answer, wanted, "{self:?}");
        assert!(scratch.iter().all(|&w| w == 0), "the scratch is not zero");
    }

    #[track_caller]
    fn passes(&self) {
        self.comes_to(Ok(()));
    }

    fn seed(mut self, bucket: usize, seed: u16) -> Check {
        self.seeds[bucket] = seed;
        self
    }

    fn flip(mut self, bit: usize) -> Check {
        self.bitmap[bit / 64] ^= 1 << (bit % 64);
        self
    }
}

/// Document 01's listing, swept: seeds 3, 4, 0 and slots 1, 2, 4.
fn sound() -> Check {
    Check::of(&listing())
}

/// The listing's level under settings that are not its own.
fn under(settings: Settings) -> Check {
    Check { settings, ..sound() }
}

/// The listing's keys, swept under other settings.
fn swept(log2_slice_len: u32, log2_layouts: u32, seed_bits: u32) -> Check {
    let s = listing().settings;
    Check::of(&listing().with(Settings { log2_slice_len, log2_layouts, seed_bits, ..s }))
}

/// No keys in so many slots and buckets.
fn empty(slots: u64, buckets: u64) -> Check {
    Check {
        settings: settings(slots, 4, buckets),
        hashes: vec![],
        begins: vec![0; buckets as usize + 1],
        seeds: vec![0; buckets as usize],
        bitmap: vec![0; slots.div_ceil(64) as usize],
        scratch: slots.div_ceil(64) as usize,
    }
}

#[test]
fn n1_to_n4_settings() {
    let s = listing().settings;
    for seed_bits in [0, 1, 17, u32::MAX] {
        under(Settings { seed_bits, ..s }).refused(1);
    }
    for seed_bits in [2, 16] {
        swept(3, 0, seed_bits).passes();
    }
    for log2_layouts in [4, u32::MAX] {
        under(Settings { log2_layouts, ..s }).refused(2);
    }
    swept(3, 3, 4).passes();
    for log2_slice_len in [0, 2, 17, u32::MAX] {
        under(Settings { log2_slice_len, ..s }).refused(3);
    }
    swept(16, 0, 4).passes();
    for (log2_slice_len, log2_layouts) in [(3, 7), (3, 5), (5, 4)] {
        under(Settings { log2_slice_len, log2_layouts, seed_bits: 8, ..s }).refused(4);
    }
    swept(4, 4, 8).passes();
}

#[test]
fn n5_to_n7_slots_and_buckets() {
    for slots in [0, (1 << 27) + 1, u64::MAX] {
        under(settings(slots, 4, 3)).refused(5);
    }
    empty(1, 1).passes();
    empty(1 << 27, 32_769).passes();
    for buckets in [0, 2, 67_108_864, 67_108_866, 67_108_867, u64::MAX] {
        under(settings(7, 4, buckets)).refused(6);
    }
    empty(7, 67_108_865).passes();
    empty(3 * 4096 + 8, 3).refused(7);
    empty(3 * 4096 + 7, 3).passes();
}

#[test]
fn n9_begins() {
    let wrong: [&[u32]; 8] = [
        &[],
        &[0, 2, 3],
        &[0, 2, 3, 3, 3],
        &[1, 2, 3, 3],
        &[0, 2, 1, 3],
        &[0, 4, 3, 3],
        &[0, 2, 3, 2],
        &[0, 2, 3, 4],
    ];
    for begins in wrong {
        Check { begins: begins.to_vec(), ..sound() }.refused(9);
    }
    sound().passes();
}

#[test]
fn n9_and_n10_many_hashes() {
    let with = |count: u32| Check {
        hashes: vec![0; count as usize],
        begins: vec![0, count],
        ..empty(7, 1)
    };
    with(67_108_865).refused(9);
    with(67_108_864).refused(10);
    with(4097).refused(10);
    with(4096).passes();
}

#[test]
fn n11_stray_hash() {
    // Of three buckets, the first ends with this hash.
    const LAST: u64 = u64::MAX / 3;
    let with =
        |a: u64, b: u64| Check { hashes: vec![a, b], begins: vec![0, 1, 2, 2], ..empty(7, 3) };
    with(LAST, LAST).refused(11);
    with(LAST + 1, LAST + 1).refused(11);
    with(LAST, u64::MAX).refused(11);
    with(LAST, LAST + 1).passes();
}

#[test]
fn n13_lengths() {
    for seeds in [0, 2, 4] {
        Check { seeds: vec![0; seeds], ..sound() }.refused(13);
    }
    for words in [0, 2] {
        Check { bitmap: vec![0; words], ..sound() }.refused(13);
        Check { scratch: words, ..sound() }.refused(13);
        Check { bitmap: vec![0; words], scratch: words, ..sound() }.refused(13);
    }
    for (slots, words) in [(64, 1), (65, 2)] {
        empty(slots, 3).passes();
        Check { bitmap: vec![0; 3 - words], ..empty(slots, 3) }.refused(13);
        Check { scratch: 3 - words, ..empty(slots, 3) }.refused(13);
    }
}

#[test]
fn n28_seeds() {
    // Four bits of a seed. Slot 2 of bucket 1's key comes round after l = 4.
    sound().seed(1, 16).comes_to(Err(Error::BadSeed));
    sound().seed(1, u16::MAX).comes_to(Err(Error::BadSeed));
    sound().seed(1, 12).passes();
    sound().seed(1, 8).passes();
    // The last bucket is empty.
    sound().seed(2, 1).comes_to(Err(Error::BadSeed));
    sound().seed(2, 16).comes_to(Err(Error::BadSeed));
    // With 16 bits no seed is too large, but an empty bucket's is still 0.
    let wide = swept(3, 0, 16);
    wide.clone().seed(1, 0xFFFC | wide.seeds[1] % 4).passes();
    wide.seed(2, u16::MAX).comes_to(Err(Error::BadSeed));
}

/// One key to each of seven buckets, all over the same 64 slots: each bucket on the slot said, or bumped.
fn on(slots: [Option<u64>; 7]) -> Check {
    let settings =
        Settings { slots: 64, log2_slice_len: 6, log2_layouts: 0, seed_bits: 8, buckets: 7 };
    let hashes: Vec<u64> = (0..7).map(|b| u64::MAX / 7 * b + 12_345).collect();
    let seed_at = |b: usize, slot: u64| {
        let at = |seed: &u16| {
            let mut seeds = [0; 7];
            seeds[b] = *seed;
            lent::lookup(&settings, &seeds, hashes[b]) == Ok(Some(slot))
        };
        (1..=255).find(at).expect("a seed to each slot")
    };
    let seeds = (0..7).map(|b| slots[b].map_or(0, |slot| seed_at(b, slot))).collect();
    let bitmap = vec![slots.iter().flatten().fold(0, |word, slot| word | 1 << slot)];
    Check { settings, begins: (0..=7).collect(), seeds, bitmap, scratch: 1, hashes }
}

#[test]
fn n29_names_the_lowest_bucket() {
    let twice = |bucket| Err(Error::SlotTwice { bucket });
    let apart = [0, 9, 20, 31, 42, 53, 63].map(Some);
    on(apart).passes();
    let with = |changes: &[(usize, Option<u64>)]| {
        let mut slots = apart;
        changes.iter().for_each(|&(b, slot)| slots[b] = slot);
        on(slots)
    };
    with(&[(6, Some(0))]).comes_to(twice(6));
    with(&[(1, Some(0))]).comes_to(twice(1));
    // 2 meets 5 and 3 meets 4: 4 is the lowest at which a slot is met again.
    with(&[(5, Some(20)), (4, Some(31))]).comes_to(twice(4));
    with(&[(5, Some(20)), (6, Some(20))]).comes_to(twice(5));
    with(&[(1, Some(0)), (6, Some(20))]).comes_to(twice(1));
    // A bumped bucket meets nothing.
    with(&[(0, None), (6, Some(0))]).passes();
    with(&[(6, None), (5, None)]).passes();
}

#[test]
fn n29_inside_a_bucket() {
    // Two keys that differ in the low bits of the offset stand on slots of one slice.
    let keys = |a: u64, b: u64, seed: u16| {
        let one = case(settings(7, 4, 1), &[&[a, b]]);
        Check { hashes: vec![a, b], seeds: vec![seed], ..Check::of(&one) }
    };
    keys(0, 4, 1).comes_to(Err(Error::SlotTwice { bucket: 0 }));
    keys(5, 5, 1).comes_to(Err(Error::SlotTwice { bucket: 0 }));
    Check { bitmap: vec![0], ..keys(5, 5, 0) }.passes();
    Check { bitmap: vec![0b110], ..keys(0, 1, 1) }.passes();
}

#[test]
fn n30_bitmap() {
    // Seven slots in a word: a mark too few, one too many, and bits that are no slots.
    for bit in [1, 0, 6, 7, 63] {
        sound().flip(bit).comes_to(Err(Error::Bitmap));
    }
    sound().flip(4).flip(5).comes_to(Err(Error::Bitmap));
    empty(65, 3).flip(65).comes_to(Err(Error::Bitmap));
    empty(65, 3).flip(64).comes_to(Err(Error::Bitmap));
    sound().flip(3).flip(3).passes();
    // No spare bits where the slots fill the words.
    empty(128, 3).flip(127).comes_to(Err(Error::Bitmap));
    empty(128, 3).passes();
}

#[test]
fn the_first_number_counts() {
    // Everything is wrong, and is put right one thing after the other.
    let s = Settings { slots: 0, log2_slice_len: 2, log2_layouts: 9, seed_bits: 1, buckets: 2 };
    let mut level = Check {
        settings: s,
        hashes: vec![u64::MAX; 4097],
        begins: vec![],
        seeds: vec![],
        bitmap: vec![],
        scratch: 2,
    };
    level.refused(1);
    level.settings.seed_bits = 4;
    level.refused(2);
    level.settings.seed_bits = 16;
    level.refused(3);
    level.settings.log2_slice_len = 3;
    level.refused(4);
    level.settings.log2_layouts = 0;
    level.refused(5);
    level.settings.slots = 1 << 27;
    level.refused(6);
    level.settings.buckets = 3;
    level.refused(7);
    level.settings.slots = 7;
    level.refused(9);
    level.begins = vec![0, 4097, 4097, 4097];
    level.refused(10);
    level.begins = vec![0, 1000, 2000, 4097];
    level.refused(11);
    level.hashes = vec![0, 4, 1 << 63];
    level.begins = vec![0, 2, 3, 3];
    level.settings.seed_bits = 4;
    level.refused(13);
    level.scratch = 1;
    level.bitmap = vec![1 << 9];
    level.refused(13);
    // The bad seed comes last and is still looked for before the slot met twice at the first bucket.
    level.seeds = vec![1, 4, 1];
    level.comes_to(Err(Error::BadSeed));
    level.seeds[2] = 0;
    level.comes_to(Err(Error::SlotTwice { bucket: 0 }));
    level.seeds[0] = 0;
    level.comes_to(Err(Error::Bitmap));
    level.bitmap = vec![0b100];
    level.passes();
}

#[test]
fn nothing_lent() {
    let none = Check { hashes: vec![], begins: vec![], seeds: vec![], bitmap: vec![], ..sound() };
    none.refused(9);
    Check { scratch: 0, ..none }.refused(9);
}

#[test]
fn owned_levels() {
    let hashes: Vec<u64> = (1..=5000u64).map(|i| i.wrapping_mul(0x9E37_79B9_7F4A_7C15)).collect();
    let level = Builder::new().sweep(hashes.clone()).unwrap();
    let groups = Groups::new(level.settings().buckets, hashes).unwrap();
    assert_eq!(level.check(&groups), Ok(()));
    let (seeds, bitmap) = level.clone().into_parts();
    assert_eq!(check_level(level.settings(), &groups, &seeds, &bitmap), Ok(()));
    let parts = Level::from_parts(level.settings(), &groups, seeds.clone(), bitmap.clone());
    assert_eq!(parts, Ok(level.clone()));
    let other = Groups::new(level.settings().buckets, vec![]).unwrap();
    assert_eq!(level.check(&other), Err(Error::BadSeed));
    let short = Level::from_parts(level.settings(), &groups, seeds, bitmap[1..].to_vec());
    assert_eq!(short, Err(Error::Lengths));
}
