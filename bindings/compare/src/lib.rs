//! The oracle's cases in the binding's terms, for what runs both sides.

use oracle::Case;
use phastr::lent::Input;
use phastr::{How, Settings};

/// The settings of a case.
pub fn settings(case: &Case) -> Settings {
    let s = &case.settings;
    Settings {
        slots: s.m as u64,
        log2_slice_len: s.log2_slice_len,
        log2_layouts: s.log2_layouts,
        seed_bits: s.seed_bits,
        buckets: s.buckets as u64,
    }
}

/// What a sweep of a case reads, with a logarithm table.
pub fn input<'a>(case: &'a Case, table: &'a [u32]) -> Input<'a> {
    Input {
        settings: settings(case),
        weights: case.weights,
        how: How { bump: case.bump, chunks: case.chunks as u64 },
        hashes: &case.hashes,
        begins: &case.begins,
        table,
    }
}
