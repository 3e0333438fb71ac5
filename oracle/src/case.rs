//! A sweep's inputs and answers, in document 01's terms.

use crate::{order, sweep};

#[derive(Clone, Copy, Debug, PartialEq, Eq)]
pub struct Settings {
    pub m: usize,
    pub log2_slice_len: u32,
    pub log2_layouts: u32,
    pub seed_bits: u32,
    pub buckets: usize,
}

/// The inputs of one sweep. The hashes stand bucket after bucket; `begins` has one entry more than
/// there are buckets.
#[derive(Clone, Debug, PartialEq, Eq)]
pub struct Case {
    pub settings: Settings,
    pub bump: bool,
    /// The sweep is split into at most so many chunks.
    pub chunks: usize,
    pub weights: [i64; 7],
    pub begins: Vec<u32>,
    pub hashes: Vec<u64>,
}

#[derive(Clone, Debug, PartialEq, Eq)]
pub struct Answer {
    pub seeds: Vec<u16>,
    pub bitmap: Vec<u64>,
    pub holes: Vec<u32>,
}

/// What a sweep comes back with: its answer, or the bucket at which number 14 stops it.
#[derive(Clone, Debug, PartialEq, Eq)]
pub enum Outcome {
    Done(Answer),
    Stopped(usize),
}

/// Rule G's figures of some settings.
#[derive(Clone, Copy, Debug, PartialEq, Eq)]
pub struct Figures {
    pub slice_len: usize,
    pub slices: usize,
    pub scale: u32,
    pub layouts: usize,
    pub slices_per_bucket: u128,
    pub log2_stride: u32,
    pub ring_len: usize,
    pub rotations: usize,
    pub per_bucket: usize,
    pub ring_slots: usize,
    pub table_entries: usize,
}

impl Figures {
    /// W, the work words needed when the largest bucket has z keys.
    pub fn work_words(&self, z: usize) -> usize {
        self.ring_slots / 32
            + z * (self.layouts + 2)
            + 3 * self.layouts * self.ring_len.max(64)
            + 2560
    }
}

impl Case {
    /// A case of these buckets' hashes, in one chunk.
    pub fn new(settings: Settings, bump: bool, weights: [i64; 7], buckets: &[Vec<u64>]) -> Case {
        let mut begins = vec![0];
        let mut hashes = vec![];
        for bucket in buckets {
            hashes.extend_from_slice(bucket);
            begins.push(hashes.len() as u32);
        }
        Case { settings, bump, chunks: 1, weights, begins, hashes }
    }

    pub fn keys(&self, bucket: usize) -> &[u64] {
        &self.hashes[self.begins[bucket] as usize..self.begins[bucket + 1] as usize]
    }

    pub fn sizes(&self) -> Vec<usize> {
        self.begins.windows(2).map(|w| (w[1] - w[0]) as usize).collect()
    }

    pub fn largest(&self) -> usize {
        self.sizes().into_iter().max().unwrap_or(0)
    }
}

/// The Rust's outcome. The Rust does not say at which bucket it stopped: up to there the sweep is the
/// same as one that may bump, so it is the first bucket of the order that then has seed 0.
pub fn outcome(case: &Case) -> Outcome {
    if let Some(answer) = sweep(case) {
        return Outcome::Done(answer);
    }
    let bumping = sweep(&Case { bump: true, ..case.clone() }).expect("a bumping sweep ends");
    let stopped = order(case).into_iter().find(|&b| bumping.seeds[b] == 0);
    Outcome::Stopped(stopped.expect("a sweep that stopped has a bucket without a seed"))
}
