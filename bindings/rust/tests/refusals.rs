//! Each number that a sweep can be refused with: met, and just missed. A refused sweep writes
//! nothing but for 14, which leaves zeros.

mod common;

use common::{Case, FORBIDDEN, WORD, case, listing, settings};
use phastr::{Error, How, Settings};

/// The listing's keys under other settings.
fn under(log2_slice_len: u32, log2_layouts: u32, seed_bits: u32) -> Case {
    let sound = listing().settings;
    listing().with(Settings { log2_slice_len, log2_layouts, seed_bits, ..sound })
}

/// No keys in so many slots and buckets.
fn empty(slots: u64, buckets: u64) -> Case {
    Case {
        hashes: vec![],
        begins: vec![0; buckets as usize + 1],
        ..listing().with(settings(slots, 4, buckets))
    }
}

#[test]
fn n1_seed_bits() {
    for seed_bits in [0, 1, 17, u32::MAX] {
        under(3, 0, seed_bits).refused(1);
    }
    for seed_bits in [2, 16] {
        under(3, 0, seed_bits).passes();
    }
}

#[test]
fn n2_layouts() {
    under(3, 4, 4).refused(2);
    under(3, u32::MAX, 4).refused(2);
    under(3, 3, 4).passes();
}

#[test]
fn n3_slice_len() {
    for log2_slice_len in [0, 2, 17, u32::MAX] {
        under(log2_slice_len, 0, 4).refused(3);
    }
    for log2_slice_len in [3, 16] {
        under(log2_slice_len, 0, 4).passes();
    }
}

#[test]
fn n4_layout_bits() {
    under(3, 7, 8).refused(4);
    under(3, 5, 8).refused(4);
    under(5, 4, 8).refused(4);
    under(4, 4, 8).passes();
    under(16, 2, 8).passes();
}

#[test]
fn n5_slots() {
    for slots in [0, (1 << 27) + 1, u64::MAX] {
        listing().with(settings(slots, 4, 3)).refused(5);
    }
    empty(1, 1).passes();
    empty(1 << 27, 32_769).passes();
}

#[test]
fn n6_buckets() {
    for buckets in [0, 2, 67_108_864, 67_108_866, 67_108_867, u64::MAX] {
        listing().with(settings(7, 4, buckets)).refused(6);
    }
    empty(7, 1).passes();
    empty(7, 67_108_865).passes();
}

#[test]
fn n7_slices_to_a_bucket() {
    // Slices of 8 slots: 7 fewer of them than there are slots.
    empty(3 * 4096 + 8, 3).refused(7);
    empty(3 * 4096 + 7, 3).passes();
}

#[test]
fn n8_weights() {
    for at in 0..7 {
        let weighed = |weight| {
            let mut case = listing();
            case.weights[at] = weight;
            case
        };
        for weight in [(1 << 32) + 1, -(1 << 32) - 1, i64::MIN, i64::MAX] {
            weighed(weight).refused(8);
        }
        for weight in [1 << 32, -(1 << 32)] {
            weighed(weight).passes();
        }
    }
}

#[test]
fn n20_chunks() {
    let within = |chunks| Case { how: How { bump: true, chunks }, ..listing() };
    within(0).refused(20);
    let one = within(1).passes();
    for chunks in [2, 64, u64::MAX] {
        let more = within(chunks).passes();
        assert_eq!((more.answer, more.seeds), (one.answer, one.seeds.clone()));
    }
}

#[test]
fn n9_begins() {
    let sound = listing().begins;
    let wrong: [&[u32]; 8] = [
        &[],
        &sound[..3],
        &[0, 2, 3, 3, 3],
        &[1, 2, 3, 3],
        &[0, 2, 1, 3],
        &[0, 4, 3, 3],
        &[0, 2, 3, 2],
        &[0, 2, 3, 4],
    ];
    for begins in wrong {
        Case { begins: begins.to_vec(), ..listing() }.refused(9);
    }
    Case { begins: sound, ..listing() }.passes();
}

#[test]
fn n9_too_many_hashes() {
    // One more than are taken; with exactly as many, the check after it is met.
    let with = |count: u32| Case {
        hashes: vec![0; count as usize],
        begins: vec![0, count],
        ..case(settings(7, 4, 1), &[&[]])
    };
    with(67_108_865).refused(9);
    with(67_108_864).refused(10);
}

#[test]
fn n10_large_bucket() {
    let with = |count: usize| case(settings(7, 4, 1), &[&vec![0; count]]);
    with(4097).refused(10);
    let swept = with(4096).passes();
    assert_eq!(swept.answer.unwrap().bumped, 4096);
}

#[test]
fn n11_stray_hash() {
    // Of three buckets, the first ends with this hash.
    const LAST: u64 = u64::MAX / 3;
    let with = |a: u64, b: u64| case(settings(7, 4, 3), &[&[a], &[b], &[]]);
    with(LAST, LAST).refused(11);
    with(LAST + 1, LAST + 1).refused(11);
    with(LAST, u64::MAX).refused(11);
    with(LAST, LAST + 1).passes();
}

#[test]
fn n12_table() {
    // P1: 104 entries.
    let lending =
        |table: &[u32]| Case { table: table.to_vec(), ..case(settings(7, 4, 1), &[&[0]]) };
    let house = phastr::house_table();
    lending(&[]).refused(12);
    lending(&house[..103]).refused(12);
    lending(&house[..104]).passes();
    let fallen = |at: usize| {
        let mut table = house[..110].to_vec();
        table[at] = table[at - 1] - 1;
        table
    };
    lending(&fallen(50)).refused(12);
    lending(&fallen(103)).refused(12);
    lending(&fallen(104)).passes();
    lending(&[7; 104]).passes();
}

#[test]
fn n13_lengths() {
    let sound = listing();
    for seeds in [0, 2, 4] {
        Case { seeds, ..sound.clone() }.refused(13);
    }
    for bitmap in [0, 2] {
        Case { bitmap, ..sound.clone() }.refused(13);
    }
    for work in [0, sound.work - 1] {
        Case { work, ..sound.clone() }.refused(13);
    }
    for work in [sound.work, sound.work + 9] {
        Case { work, ..sound.clone() }.passes();
    }
    for (slots, bitmap) in [(64, 1), (65, 2)] {
        let level = empty(slots, 3);
        assert_eq!(level.bitmap, bitmap);
        level.passes();
        Case { bitmap: 3 - bitmap, ..level }.refused(13);
    }
}

#[test]
fn n14_no_seed() {
    // Both the first and the last bucket have a key twice; at equal weights the first is taken first.
    let twice: [&[u64]; 3] = [&[5, 5], &[1 << 63], &[u64::MAX, u64::MAX]];
    let one = case(settings(7, 4, 3), &twice);
    let stopped = Case { how: FORBIDDEN, work: one.work + 5, ..one.clone() };
    let swept = stopped.sweep();
    assert_eq!(swept.answer, Err(Error::NoSeed { bucket: 0 }));
    assert_eq!(swept.seeds, [0; 3]);
    assert_eq!(swept.bitmap, [0]);
    stopped.work_is_zero(&swept);
    assert_eq!(swept.work[one.work..], [WORD; 5]);
    let bumped = one.passes();
    assert_eq!(bumped.answer.unwrap().bumped, 4);
    let apart: [&[u64]; 3] = [&[5, 6], &[1 << 63], &[u64::MAX]];
    Case { how: FORBIDDEN, ..case(settings(7, 4, 3), &apart) }.passes();
}

#[test]
fn nothing_lent() {
    let none = Case { hashes: vec![], begins: vec![], table: vec![], ..listing() };
    Case { seeds: 0, bitmap: 0, work: 0, ..none }.refused(9);
}

#[test]
fn the_first_number_counts() {
    // Everything is wrong, and is put right one thing after the other.
    let mut s = Settings { slots: 0, log2_slice_len: 2, log2_layouts: 9, seed_bits: 1, buckets: 2 };
    let how = How { bump: true, chunks: 0 };
    let weights = [i64::MAX; 7];
    let wrong = |settings| Case { weights, how, begins: vec![], ..listing().with(settings) };
    wrong(s).refused(1);
    s.seed_bits = 4;
    wrong(s).refused(2);
    s.seed_bits = 16;
    wrong(s).refused(3);
    s.log2_slice_len = 3;
    wrong(s).refused(4);
    s.log2_layouts = 0;
    wrong(s).refused(5);
    s.slots = 1 << 27;
    wrong(s).refused(6);
    s.buckets = 3;
    wrong(s).refused(7);
    s.slots = 7;
    let mut case = Case { hashes: vec![u64::MAX; 4097], seeds: 0, table: vec![], ..wrong(s) };
    case.refused(8);
    case.weights = [0; 7];
    case.refused(20);
    case.how.chunks = 1;
    case.refused(9);
    case.begins = vec![0, 4097, 4097, 4097];
    case.refused(10);
    case.begins = vec![0, 1000, 2000, 4097];
    case.refused(11);
    case.hashes = vec![];
    case.begins = vec![0; 4];
    case.refused(12);
    case.table = phastr::house_table().to_vec();
    case.refused(13);
    case.seeds = 3;
    case.passes();
}
