//! Document 01's worked sheets P1 to P12, held to the Rust.

use crate::*;

/// The listing's buckets: 2^62 and 2^62+3, then 2^63, then none.
pub fn listing(weights: [i64; 7]) -> Case {
    let settings = Settings { m: 7, log2_slice_len: 3, log2_layouts: 0, seed_bits: 4, buckets: 3 };
    Case::new(settings, true, weights, &[vec![1 << 62, (1 << 62) + 3], vec![1 << 63], vec![]])
}

/// A case of the sheets: slice 3, ll 0, one bucket, zero weights.
fn one_bucket(m: usize, seed_bits: u32, bump: bool, keys: &[u64]) -> Case {
    let settings = Settings { m, log2_slice_len: 3, log2_layouts: 0, seed_bits, buckets: 1 };
    Case::new(settings, bump, [0; 7], &[keys.to_vec()])
}

fn done(seeds: &[u16], bitmap: u64, holes: &[u32]) -> Outcome {
    Outcome::Done(Answer { seeds: seeds.to_vec(), bitmap: vec![bitmap], holes: holes.to_vec() })
}

/// Collects the sheets that came out otherwise than the document says.
#[derive(Default)]
pub struct Sheets {
    pub right: usize,
    pub wrong: Vec<String>,
}

impl Sheets {
    fn same<T: PartialEq + std::fmt::Debug>(&mut self, sheet: &str, got: T, wanted: T) {
        if got == wanted {
            self.right += 1;
        } else {
            self.wrong.push(format!("{sheet}: the Rust gives {got:?}, the document {wanted:?}"));
        }
    }
}

pub fn all() -> Sheets {
    let mut sheets = Sheets::default();
    geometry(&mut sheets);
    sweeps(&mut sheets);
    weights(&mut sheets);
    bucket_counts(&mut sheets);
    sheets
}

fn geometry(sheets: &mut Sheets) {
    let f = figures(&one_bucket(7, 4, true, &[]).settings);
    sheets.same("P1 l, ns, n, R", [f.slice_len, f.slices, f.ring_len, f.rotations], [4, 4, 4, 16]);
    sheets.same(
        "P1 entries, W with z = 0 and 5",
        [f.table_entries, f.work_words(0), f.work_words(5)],
        [104, 2880, 2895],
    );
    let f = figures(&Settings {
        m: 2048,
        log2_slice_len: 10,
        log2_layouts: 2,
        seed_bits: 8,
        buckets: 683,
    });
    sheets.same("P2 ns, n, R", [f.slices, f.ring_len, f.rotations], [1025, 64, 64]);
    sheets.same("P2 scale, t", [f.scale, f.log2_stride], [2, 4]);
    sheets.same("P2 slots, entries", [f.ring_slots, f.table_entries], [8192, 1122]);
}

fn sweeps(sheets: &mut Sheets) {
    let far = (1 << 62) + 3;
    sheets.same("P3", outcome(&one_bucket(7, 4, true, &[0])), done(&[4], 0b1, &[1, 2, 3, 4, 5, 6]));
    sheets.same(
        "P4",
        outcome(&one_bucket(7, 4, true, &[0, far])),
        done(&[4], 0b10001, &[1, 2, 3, 5, 6]),
    );
    sheets.same(
        "P5",
        outcome(&one_bucket(7, 4, true, &[0, 0])),
        done(&[0], 0, &[0, 1, 2, 3, 4, 5, 6]),
    );
    sheets.same("P5 forbidden", outcome(&one_bucket(7, 4, false, &[0, 0])), Outcome::Stopped(0));
    sheets.same(
        "P6",
        outcome(&one_bucket(7, 2, true, &[0])),
        done(&[1], 0b10, &[0, 2, 3, 4, 5, 6]),
    );
    sheets.same("P7", outcome(&one_bucket(1, 4, true, &[0])), done(&[1], 0b1, &[]));
    sheets.same("P8", outcome(&listing([0; 7])), done(&[4, 1, 0], 0b1110, &[0, 4, 5, 6]));
    sheets.same(
        "P9",
        outcome(&listing([2048, 0, 0, 0, 0, 0, 0])),
        done(&[3, 4, 0], 0b10110, &[0, 3, 5, 6]),
    );
    sheets.same(
        "no keys",
        outcome(&one_bucket(7, 4, true, &[])),
        done(&[0], 0, &[0, 1, 2, 3, 4, 5, 6]),
    );
}

fn weights(sheets: &mut Sheets) {
    let w = [0, 0, 0, 0, 0, 10, 30];
    sheets.same("P10 sizes 7 and 9", [weight(&w, 7), weight(&w, 9)], [30, 70]);
    let w = [0, 0, 0, 0, 0, -(1 << 32), 1 << 32];
    sheets.same(
        "P11 sizes 134 and 135",
        [weight(&w, 134), weight(&w, 135)],
        [(1 << 40) - (1 << 32), 1 << 40],
    );
    sheets.same("P12 at 1023 and 1024", key(1024, 1024) > key(0, 1023), true);
    sheets.same("P12 at 5 and 6", key(0, 5) > key(1024, 6), true);
}

fn bucket_counts(sheets: &mut Sheets) {
    for (k, size, count) in [(0, 2.0, 1), (9, 2.0, 5), (10, 4.0, 3), (16, 4.0, 5)] {
        sheets.same(&format!("bucket count of {k} by {size:?}"), bucket_count(k, size), count);
    }
}
