//! The Rust itself: sweep.rs as it stands, over parts of builder.rs and mod.rs that build.rs took
//! out as text, and silent stand-ins for what they import from elsewhere.

#![allow(dead_code, clippy::let_and_return)]

use crate::case::{Answer, Case, Figures, Settings};
use builder::Geometry;
use dsi_progress_logger::ProgressLog;
use std::ops::{Deref, Range};
use sweep::{Level, PartSource};

/// Stand-ins for the two traits of the progress logger: they say nothing.
mod dsi_progress_logger {
    pub trait ProgressLog {
        fn concurrent(&self) -> Silent {
            Silent
        }
        fn item_name(&mut self, _: &str) {}
        fn expected_updates(&mut self, _: usize) {}
        fn start(&mut self, _: String) {}
        fn update_with_count(&mut self, _: usize) {}
        fn done(&mut self) {}
    }

    pub trait ConcurrentProgressLog: ProgressLog + Clone + Send + Sync {}

    #[derive(Clone)]
    pub struct Silent;
    impl ProgressLog for Silent {}
    impl ConcurrentProgressLog for Silent {}
}

include!(concat!(env!("OUT_DIR"), "/from_mod.rs"));

/// The fields of the Rust's builder that its `geometry` reads.
struct PHastRBuilder {
    seed_bits: u32,
    log2_layouts: u32,
    log2_slice_len: u32,
    sweep_chunks: usize,
}

mod builder {
    use super::*;

    impl PHastRBuilder {
        fn max_sweep_chunks(&self) -> usize {
            self.sweep_chunks
        }
    }

    pub(super) fn weights(seed_bits: u32) -> [i64; 7] {
        default_weights(seed_bits)
    }

    include!(concat!(env!("OUT_DIR"), "/from_builder.rs"));
}

mod pieces {
    use super::builder::Geometry;
    use super::*;
    use std::collections::BinaryHeap;

    include!(concat!(env!("OUT_DIR"), "/from_sweep.rs"));

    pub(super) fn figures(g: &Geometry) -> Figures {
        let rings = Rings::new(g);
        Figures {
            slice_len: g.l_mask as usize + 1,
            slices: g.num_slices as usize,
            scale: g.scale,
            layouts: rings.layouts,
            slices_per_bucket: g.slices_per_bucket,
            log2_stride: rings.log2_stride,
            ring_len: rings.len,
            rotations: rings.rotations,
            per_bucket: (g.num_slices as usize).div_ceil(g.buckets),
            ring_slots: (rings.word_mask + 1) * 64,
            table_entries: max_distance(g) + 1,
        }
    }

    pub(super) fn weight(weights: &[i64; 7], size: usize) -> i64 {
        Window::weight(weights, size)
    }

    pub(super) fn key(weight: i64, bucket: usize) -> i64 {
        Window::key(weight, bucket)
    }

    /// The order in which the Rust's window gives the buckets of a range: the loop of
    /// `Sweep::sweep` around it, with nothing placed.
    pub(super) fn order(sizes: &[usize], weights: &[i64; 7], range: Range<usize>) -> Vec<usize> {
        let mut window = Window::new(weights);
        let mut taken = vec![];
        let (mut oldest, mut next) = (range.start, range.start);
        loop {
            if window.is_empty() {
                let Some(ahead) = sizes[next..range.end].iter().position(|&size| size != 0) else {
                    return taken;
                };
                oldest = next + ahead;
                next = oldest;
            }
            let end = (oldest + WINDOW).min(range.end);
            for (b, &size) in sizes.iter().enumerate().take(end).skip(next) {
                if size != 0 {
                    window.push(b, size, weights);
                }
            }
            next = end;
            loop {
                let b = window.pop(oldest).expect("the oldest bucket is in the window");
                taken.push(b);
                if b == oldest {
                    break;
                }
            }
            if let Some(b) = window.first_in(oldest + 1, next) {
                oldest = b;
            }
        }
    }
}

include!(concat!(env!("OUT_DIR"), "/sweep_mod.rs"));

/// The hashes of a case, as one part of all its buckets.
struct Handed<'a> {
    hashes: &'a [u64],
    begins: &'a [u32],
}

impl PartSource for Handed<'_> {
    type Loader = ();

    fn log2_min_buckets(&self) -> u32 {
        // There is one part only, so any bound is met.
        sweep::WINDOW.ilog2()
    }

    fn part(&self, _: usize) -> usize {
        0
    }

    fn first_bucket(&self, _: usize) -> usize {
        0
    }

    fn buckets(&self, _: usize, g: &Geometry) -> usize {
        g.buckets
    }

    fn load(
        &self,
        _: &mut (),
        _: usize,
        _: &Geometry,
        range: Range<usize>,
        sigs: &mut Vec<u64>,
        begin: &mut Vec<usize>,
        _: &mut Vec<u64>,
    ) {
        let begins = &self.begins[range.start..=range.end];
        let (from, to) = (begins[0] as usize, begins[begins.len() - 1] as usize);
        sigs.clear();
        sigs.extend_from_slice(&self.hashes[from..to]);
        begin.clear();
        begin.extend(begins.iter().map(|&b| b as usize - from));
    }
}

/// The Rust's geometry of the settings. It counts buckets from keys and a bucket size: as many keys
/// as buckets, and size 1, give the wanted odd number.
fn geometry(s: &Settings, chunks: usize) -> Geometry {
    let builder = PHastRBuilder {
        seed_bits: s.seed_bits,
        log2_layouts: s.log2_layouts,
        log2_slice_len: s.log2_slice_len,
        sweep_chunks: chunks,
    };
    let g = builder.geometry(s.buckets, s.m, 1.0);
    assert!(g.buckets == s.buckets && g.m == s.m, "settings outside the domain");
    g
}

/// The sweep alone: seeds and bitmap. None: bumping is forbidden and some bucket got 0.
pub fn swept(case: &Case) -> Option<(Vec<u16>, impl Deref<Target = [u64]> + use<>)> {
    let g = geometry(&case.settings, case.chunks);
    let source = Handed { hashes: &case.hashes, begins: &case.begins };
    let mut log = dsi_progress_logger::Silent;
    let level: Level<u16> = sweep::sweep_level(&source, &g, &case.weights, case.bump, &mut log)?;
    Some((level.seeds, level.occupied))
}

/// The unmarked slots below m.
pub fn holes(bitmap: &[u64], m: usize) -> Vec<usize> {
    sweep::holes(bitmap, m)
}

/// Sweeps a case and lists its holes.
pub fn sweep(case: &Case) -> Option<Answer> {
    let (seeds, bitmap) = swept(case)?;
    let holes = holes(&bitmap, case.settings.m);
    Some(Answer {
        seeds,
        bitmap: bitmap.to_vec(),
        holes: holes.into_iter().map(|p| p as u32).collect(),
    })
}

/// Looks hashes up in a level's seeds: None where the bucket was bumped.
pub fn lookups(s: &Settings, seeds: &[u16], hashes: &[u64], found: &mut [Option<usize>]) {
    let g = geometry(s, 1);
    for (place, &hash) in found.iter_mut().zip(hashes) {
        let seed = seeds[g.bucket(hash)] as usize;
        *place = if seed == 0 { None } else { Some(g.pos(hash, seed)) };
    }
}

/// How many chunks a sweep of at most `chunks` makes.
pub fn chunks(s: &Settings, chunks: usize) -> usize {
    geometry(s, chunks).sweep_chunks()
}

/// The buckets between two chunks.
pub fn chunk_gap(s: &Settings) -> usize {
    geometry(s, 1).chunk_gap() as usize
}

/// The ranges of buckets that a sweep of at most `chunks` chunks takes one after another: its chunks, each
/// but the last a gap short, then the gaps. `sweep_level` keeps them to itself; the numbers are its own.
pub fn ranges(s: &Settings, chunks: usize) -> Vec<Range<usize>> {
    let g = geometry(s, chunks);
    let (count, gap) = (g.sweep_chunks(), g.chunk_gap() as usize);
    let bound = |i: usize| (i as u64 * s.buckets as u64 / count as u64) as usize;
    let short = (1..count).map(|i| bound(i - 1)..bound(i) - gap);
    let last = std::iter::once(bound(count - 1)..s.buckets);
    let gaps = (1..count).map(|i| bound(i) - gap..bound(i));
    short.chain(last).chain(gaps).collect()
}

pub fn figures(s: &Settings) -> Figures {
    pieces::figures(&geometry(s, 1))
}

/// The bucket, the slice and the offsets' value of a hash.
pub fn place_of(s: &Settings, hash: u64) -> (usize, usize, u64) {
    let g = geometry(s, 1);
    (g.bucket(hash), g.slice_begin(hash), g.offsets(hash))
}

/// The positions of hashes, each under its seed.
pub fn positions(s: &Settings, keys: &[(u64, usize)]) -> Vec<usize> {
    let g = geometry(s, 1);
    keys.iter().map(|&(hash, seed)| g.pos(hash, seed)).collect()
}

/// The first slice of each of the buckets.
pub fn first_slices(s: &Settings, buckets: impl Iterator<Item = usize>) -> Vec<usize> {
    let g = geometry(s, 1);
    buckets.map(|b| g.first_slice(b)).collect()
}

/// The logarithm table of the given length, entry 0 included, as `Sweep::new` fills it.
pub fn log2_table(entries: usize) -> Vec<u32> {
    if entries == 0 { vec![] } else { pieces::log2_table(entries - 1) }
}

/// The bucket count for k keys and an f64 bucket size.
pub fn bucket_count(k: usize, bucket_size: f64) -> usize {
    let builder =
        PHastRBuilder { seed_bits: 8, log2_layouts: 2, log2_slice_len: 10, sweep_chunks: 1 };
    builder.geometry(k, 1, bucket_size).buckets
}

/// The order in which buckets are taken.
pub fn order(case: &Case) -> Vec<usize> {
    let sizes = case.sizes();
    let ranges = ranges(&case.settings, case.chunks).into_iter();
    ranges.flat_map(|range| pieces::order(&sizes, &case.weights, range)).collect()
}

pub fn weight(weights: &[i64; 7], size: usize) -> i64 {
    pieces::weight(weights, size)
}

pub fn key(weight: i64, bucket: usize) -> i64 {
    pieces::key(weight, bucket)
}

pub fn default_weights(seed_bits: u32) -> [i64; 7] {
    builder::weights(seed_bits)
}
