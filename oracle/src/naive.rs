//! Rules G, W and S of document 01 and document 02's chunks, word by word and without any of the Rust's shortcuts: every
//! candidate of a bucket is tried. It is slow. The tests hold it to the Rust, so that what the
//! document says and what the Rust does are known to be the same, and the shapes are read off it.

use crate::{Case, Figures, Settings, log2_table};
use std::ops::Range;

/// Rule G's figures.
pub fn figures(s: &Settings) -> Figures {
    let slice_len = (s.m / 2 + 1).next_power_of_two().min(1 << s.log2_slice_len);
    let slices = s.m + 1 - slice_len;
    let scale = slice_len.ilog2().saturating_sub(s.seed_bits);
    let layouts = 1 << s.log2_layouts;
    let log2_stride = (s.log2_layouts + scale).min(slice_len.ilog2());
    let per_bucket = slices.div_ceil(s.buckets);
    let slots = 4 * (slice_len + 1) + 512 * per_bucket + 64 * (1 << log2_stride);
    Figures {
        slice_len,
        slices,
        scale,
        layouts,
        slices_per_bucket: ((slices as u128) << 64) / s.buckets as u128,
        log2_stride,
        ring_len: slice_len >> log2_stride,
        rotations: (1 << s.seed_bits) / layouts,
        per_bucket,
        ring_slots: slots.next_power_of_two(),
        table_entries: 95 + (per_bucket + 1) + slice_len,
    }
}

/// One bucket's turn: which bucket, and what its search met.
pub struct Turn {
    pub bucket: usize,
    pub seed: usize,
    /// Unbarred candidates whose positions are all free.
    pub free: usize,
    /// The cheapest of them puts two keys on one slot.
    pub collides: bool,
    /// The same hash stands in the bucket twice.
    pub equal_hashes: bool,
}

/// The ranges of buckets that are swept one after another, by document 02's first request: each chunk but
/// the last stops a gap early, and the gaps follow.
pub fn ranges(s: &Settings, chunks: usize) -> Vec<Range<usize>> {
    let f = figures(s);
    let gap = f.slice_len * s.buckets / f.slices + 1;
    let count = chunks.min(s.buckets / 4096.max(64 * gap)).max(1);
    let bounds: Vec<usize> = (0..=count).map(|i| i * s.buckets / count).collect();
    let end = |i: usize| if i + 1 < count { bounds[i + 1] - gap } else { s.buckets };
    let mut all: Vec<Range<usize>> = (0..count).map(|i| bounds[i]..end(i)).collect();
    all.extend((1..count).map(|i| bounds[i] - gap..bounds[i]));
    all
}

/// The order, by rule W within each range.
pub fn order(case: &Case) -> Vec<usize> {
    ranges(&case.settings, case.chunks)
        .into_iter()
        .flat_map(|range| order_in(case, range))
        .collect()
}

/// Rule W in a range, with the next bucket looked for among the 256 from the oldest on.
fn order_in(case: &Case, range: Range<usize>) -> Vec<usize> {
    let sizes = case.sizes();
    let mut left: Vec<usize> = range.filter(|&b| sizes[b] != 0).collect();
    let mut taken = vec![];
    while let Some(&oldest) = left.first() {
        let near = left.iter().take_while(|&&b| b <= oldest + 255).enumerate();
        let priority = |b: usize| weight(&case.weights, sizes[b]) - 1024 * b as i64;
        let (at, _) = near
            .max_by_key(|&(_, &b)| (priority(b), std::cmp::Reverse(b % 1024)))
            .expect("the oldest bucket is near");
        taken.push(left.remove(at));
    }
    taken
}

pub fn weight(w: &[i64; 7], size: usize) -> i64 {
    if size <= 7 {
        return w[size - 1];
    }
    ((w[6] - w[5]) * (size as i64 - 7) + w[6]).clamp(-(1 << 40), 1 << 40)
}

/// The position of a hash under a seed, by rule G.
pub fn position(s: &Settings, f: &Figures, hash: u64, seed: usize) -> usize {
    let product = hash as u128 * s.buckets as u128;
    let slice = (hash as u128 * f.slices as u128) >> 64;
    let r = seed % f.layouts;
    let offset = (product as u64 as u128) >> (r * (64 / f.layouts));
    let shift = (seed as u128) << f.scale;
    (slice + (offset + shift) % f.slice_len as u128) as usize
}

/// first(b). No product overflows: b < 2^27 and Q < 2^92.
pub fn first(f: &Figures, b: usize) -> usize {
    ((b as u128 * f.slices_per_bucket) >> 64) as usize
}

/// Rule S for one bucket over the slots marked so far; its slots are marked.
fn serve(case: &Case, f: &Figures, table: &[u32], marked: &mut [bool], b: usize) -> Turn {
    let keys = case.keys(b);
    let origin = first(f, b);
    let mut sorted = keys.to_vec();
    sorted.sort_unstable();
    let equal_hashes = sorted.windows(2).any(|w| w[0] == w[1]);

    let (mut free, mut best, mut cheapest) = (0, None, (u64::MAX, false));
    for r in 0..f.layouts {
        for j in 0..f.ring_len {
            let zero = (r, j) == (0, 0);
            if zero && f.ring_len == f.rotations {
                continue;
            }
            let seed = if zero { f.ring_len * f.layouts } else { j * f.layouts + r };
            let mut slots: Vec<usize> =
                keys.iter().map(|&h| position(&case.settings, f, h, seed)).collect();
            if slots.iter().any(|&p| marked[p]) {
                continue;
            }
            free += 1;
            let cost: u64 = slots.iter().map(|&p| table[p - origin + 95] as u64).sum();
            slots.sort_unstable();
            let fits = slots.windows(2).all(|w| w[0] != w[1]);
            if cost < cheapest.0 {
                cheapest = (cost, !fits);
            }
            if fits && best.is_none_or(|(least, _)| cost < least) {
                best = Some((cost, seed));
            }
        }
    }
    let seed = best.map_or(0, |(_, seed)| seed);
    if seed != 0 {
        for &h in keys {
            marked[position(&case.settings, f, h, seed)] = true;
        }
    }
    Turn { bucket: b, seed, free, collides: free > 0 && cheapest.1, equal_hashes }
}

/// The turns of a sweep, to the bucket that stops it where bumping is forbidden.
pub fn turns(case: &Case) -> Vec<Turn> {
    let f = figures(&case.settings);
    let table = log2_table(f.table_entries);
    let mut marked = vec![false; case.settings.m];
    let mut turns = vec![];
    for b in order(case) {
        let turn = serve(case, &f, &table, &mut marked, b);
        let stops = turn.seed == 0 && !case.bump;
        turns.push(turn);
        if stops {
            break;
        }
    }
    turns
}

/// Whether a naive sweep of the case is quick enough for a test, by the positions it looks at.
pub fn is_small(case: &Case) -> bool {
    let f = figures(&case.settings);
    case.hashes.len() * f.layouts * f.ring_len <= 15_000_000
}
