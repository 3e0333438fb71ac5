//! The library's functions, and all of this crate's unsafe code. No compiler sees both sides of these
//! declarations; bindings/test-declarations holds them, as text, to those of crates/exports.
//!
//! None of the library's functions has a `requires`: each is proved to return for every argument of
//! these types, to keep to the slices and to write only where a `*mut` or `&mut` allows it. What a
//! caller owes is what the types say, and a Rust slice or reference has all of it: pointers that
//! are not null, aligned and good for the length given, for an empty slice too; nothing lent for
//! writing is lent twice.

use crate::Settings;
use crate::lent::{Finished, Input, Output};
use crate::table::HOUSE_ENTRIES;

// Lengths are passed as size_t, which stands for Rattle's 64-bit usize.
const _: () = assert!(size_of::<usize>() == 8);

// build.rs links the library.
unsafe extern "C" {
    fn phastr_sweep(
        m: u64,
        log2_slice_len: u64,
        ll: u64,
        sb: u64,
        buckets: u64,
        weights: &[i64; 7],
        bump: bool,
        chunks: u64,
        hashes: *const u64,
        hashes_len: usize,
        begins: *const u32,
        begins_len: usize,
        table: *const u32,
        table_len: usize,
        seeds: *mut u16,
        seeds_len: usize,
        bitmap: *mut u64,
        bitmap_len: usize,
        work: *mut u64,
        work_len: usize,
        counts: &mut [u64; 3],
        bucket: &mut u64,
    ) -> u64;

    fn phastr_holes(
        m: u64,
        bitmap: *const u64,
        bitmap_len: usize,
        out: *mut u32,
        out_len: usize,
        count: &mut u64,
    ) -> u64;

    fn phastr_lookup(
        m: u64,
        log2_slice_len: u64,
        ll: u64,
        sb: u64,
        buckets: u64,
        seeds: *const u16,
        seeds_len: usize,
        hash: u64,
        slot: &mut u64,
    ) -> u64;

    fn phastr_positions(
        m: u64,
        log2_slice_len: u64,
        ll: u64,
        sb: u64,
        buckets: u64,
        seeds: *const u16,
        seeds_len: usize,
        hashes: *const u64,
        hashes_len: usize,
        slots: *mut u64,
        slots_len: usize,
    ) -> u64;

    fn phastr_check_level(
        m: u64,
        log2_slice_len: u64,
        ll: u64,
        sb: u64,
        buckets: u64,
        hashes: *const u64,
        hashes_len: usize,
        begins: *const u32,
        begins_len: usize,
        seeds: *const u16,
        seeds_len: usize,
        bitmap: *const u64,
        bitmap_len: usize,
        scratch: *mut u64,
        scratch_len: usize,
        bucket: &mut u64,
    ) -> u64;

    fn phastr_bucket_count(log2_slice_len: u64, keys: u64, size: f64, count: &mut u64) -> u64;

    fn phastr_sizes(
        m: u64,
        log2_slice_len: u64,
        ll: u64,
        sb: u64,
        buckets: u64,
        z: u64,
        sizes: &mut [u64; 3],
    ) -> u64;

    fn phastr_house_table(table: &mut [u32; HOUSE_ENTRIES]);

    fn phastr_log_table(table: *mut u32, table_len: usize) -> u64;

    fn phastr_level_write(
        m: u64,
        log2_slice_len: u64,
        ll: u64,
        sb: u64,
        buckets: u64,
        seeds: *const u16,
        seeds_len: usize,
        holes: *const u32,
        holes_len: usize,
        out: *mut u8,
        out_len: usize,
        written: &mut u64,
    ) -> u64;

    fn phastr_level_read(
        bytes: *const u8,
        bytes_len: usize,
        seeds: *mut u16,
        seeds_len: usize,
        holes: *mut u32,
        holes_len: usize,
        level: &mut [u64; 6],
    ) -> u64;
}

/// m, log2_slice_len, ll, sb and B, as every call takes them.
fn numbers(s: &Settings) -> [u64; 5] {
    [
        s.slots,
        u64::from(s.log2_slice_len),
        u64::from(s.log2_layouts),
        u64::from(s.seed_bits),
        s.buckets,
    ]
}

/// Answers the number; counts is written at 0, bucket at 14.
pub(crate) fn sweep(input: &Input, output: Output, counts: &mut [u64; 3], bucket: &mut u64) -> u64 {
    let [m, log2_slice_len, ll, sb, buckets] = numbers(&input.settings);
    // SAFETY: each pointer and length is that of one slice, and the three written to are borrowed
    // for writing, so that nothing else reaches them.
    unsafe {
        phastr_sweep(
            m,
            log2_slice_len,
            ll,
            sb,
            buckets,
            &input.weights,
            input.how.bump,
            input.how.chunks,
            input.hashes.as_ptr(),
            input.hashes.len(),
            input.begins.as_ptr(),
            input.begins.len(),
            input.table.as_ptr(),
            input.table.len(),
            output.seeds.as_mut_ptr(),
            output.seeds.len(),
            output.bitmap.as_mut_ptr(),
            output.bitmap.len(),
            output.work.as_mut_ptr(),
            output.work.len(),
            counts,
            bucket,
        )
    }
}

/// Answers the number; count is written at 0.
pub(crate) fn holes(m: u64, bitmap: &[u64], out: &mut [u32], count: &mut u64) -> u64 {
    // SAFETY: each pointer and length is that of one slice; out is borrowed for writing.
    unsafe { phastr_holes(m, bitmap.as_ptr(), bitmap.len(), out.as_mut_ptr(), out.len(), count) }
}

/// Answers the number; slot is written at 0.
pub(crate) fn lookup(s: &Settings, seeds: &[u16], hash: u64, slot: &mut u64) -> u64 {
    let [m, log2_slice_len, ll, sb, buckets] = numbers(s);
    // SAFETY: the pointer and length are those of one slice.
    unsafe {
        phastr_lookup(m, log2_slice_len, ll, sb, buckets, seeds.as_ptr(), seeds.len(), hash, slot)
    }
}

/// Answers the number; slots are written at 0.
pub(crate) fn positions(s: &Settings, seeds: &[u16], hashes: &[u64], slots: &mut [u64]) -> u64 {
    let [m, log2_slice_len, ll, sb, buckets] = numbers(s);
    // SAFETY: each pointer and length is that of one slice; slots are borrowed for writing.
    unsafe {
        phastr_positions(
            m,
            log2_slice_len,
            ll,
            sb,
            buckets,
            seeds.as_ptr(),
            seeds.len(),
            hashes.as_ptr(),
            hashes.len(),
            slots.as_mut_ptr(),
            slots.len(),
        )
    }
}

/// Answers the number; bucket is written at 29.
pub(crate) fn check(level: &Finished, scratch: &mut [u64], bucket: &mut u64) -> u64 {
    let [m, log2_slice_len, ll, sb, buckets] = numbers(&level.settings);
    // SAFETY: each pointer and length is that of one slice; scratch is borrowed for writing.
    unsafe {
        phastr_check_level(
            m,
            log2_slice_len,
            ll,
            sb,
            buckets,
            level.hashes.as_ptr(),
            level.hashes.len(),
            level.begins.as_ptr(),
            level.begins.len(),
            level.seeds.as_ptr(),
            level.seeds.len(),
            level.bitmap.as_ptr(),
            level.bitmap.len(),
            scratch.as_mut_ptr(),
            scratch.len(),
            bucket,
        )
    }
}

/// Answers the number; count is written at 0.
pub(crate) fn bucket_count(log2_slice_len: u32, keys: u64, size: f64, count: &mut u64) -> u64 {
    // SAFETY: numbers, and a reference for writing.
    unsafe { phastr_bucket_count(u64::from(log2_slice_len), keys, size, count) }
}

/// Answers the number; sizes are written at 0.
pub(crate) fn sizes(s: &Settings, largest: u64, sizes: &mut [u64; 3]) -> u64 {
    let [m, log2_slice_len, ll, sb, buckets] = numbers(s);
    // SAFETY: numbers, and a reference for writing.
    unsafe { phastr_sizes(m, log2_slice_len, ll, sb, buckets, largest, sizes) }
}

/// Writes the house table.
pub(crate) fn house_table(table: &mut [u32; HOUSE_ENTRIES]) {
    // SAFETY: a reference for writing, to as many entries as the library writes.
    unsafe { phastr_house_table(table) }
}

/// Answers the number; the table is written at 0.
pub(crate) fn log_table(table: &mut [u32]) -> u64 {
    // SAFETY: the pointer and length are those of one slice, borrowed for writing.
    unsafe { phastr_log_table(table.as_mut_ptr(), table.len()) }
}

/// Answers the number; out and written are zero where it is not 0.
pub(crate) fn level_write(
    s: &Settings,
    seeds: &[u16],
    holes: &[u32],
    out: &mut [u8],
    written: &mut u64,
) -> u64 {
    let [m, log2_slice_len, ll, sb, buckets] = numbers(s);
    // SAFETY: each pointer and length is that of one slice; out is borrowed for writing.
    unsafe {
        phastr_level_write(
            m,
            log2_slice_len,
            ll,
            sb,
            buckets,
            seeds.as_ptr(),
            seeds.len(),
            holes.as_ptr(),
            holes.len(),
            out.as_mut_ptr(),
            out.len(),
            written,
        )
    }
}

/// Answers the number; seeds, holes and level are zero where it is not 0.
pub(crate) fn level_read(
    bytes: &[u8],
    seeds: &mut [u16],
    holes: &mut [u32],
    level: &mut [u64; 6],
) -> u64 {
    // SAFETY: each pointer and length is that of one slice, and the two written to are borrowed for
    // writing, so that nothing else reaches them.
    unsafe {
        phastr_level_read(
            bytes.as_ptr(),
            bytes.len(),
            seeds.as_mut_ptr(),
            seeds.len(),
            holes.as_mut_ptr(),
            holes.len(),
            level,
        )
    }
}

#[cfg(test)]
mod tests;
