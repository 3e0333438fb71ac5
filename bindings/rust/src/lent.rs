//! The library's calls over memory that the caller lends, so that it can be used again.
//!
//! A call that is refused has written nothing, but for [`Error::NoSeed`], which leaves seeds, bitmap and
//! work zero, what [`check`] finds wrong with a level, which leaves its scratch zero, and the calls on
//! level files, which leave all that they were lent for writing zero.
//!
//! ```
//! use phastr::{Groups, How, Settings, lent};
//!
//! let settings = Settings { slots: 7, log2_slice_len: 3, log2_layouts: 0, seed_bits: 4, buckets: 3 };
//! let groups = Groups::new(3, vec![1 << 62, (1 << 62) + 3, 1 << 63])?;
//! let sizes = lent::sizes(&settings, groups.largest())?;
//! let table = phastr::log_table(sizes.table)?;
//! let (mut seeds, mut bitmap, mut work) = (vec![0; 3], vec![0; sizes.bitmap], vec![0; sizes.work]);
//!
//! let input = lent::Input {
//!     settings,
//!     weights: [2048, 0, 0, 0, 0, 0, 0],
//!     how: How::default(),
//!     hashes: groups.hashes(),
//!     begins: groups.begins(),
//!     table: &table,
//! };
//! let output = lent::Output { seeds: &mut seeds, bitmap: &mut bitmap, work: &mut work };
//! let counts = lent::sweep(&input, output)?;
//! assert_eq!((counts.placed, counts.bumped, counts.zero), (3, 0, 1));
//! assert_eq!(seeds, [3, 4, 0]);
//!
//! let mut holes = [0; 7];
//! assert_eq!(lent::holes(7, &bitmap, &mut holes)?, 4);
//! assert_eq!(holes[..4], [0, 3, 5, 6]);
//! assert_eq!(lent::lookup(&settings, &seeds, 1 << 63)?, Some(2));
//!
//! let (hashes, begins) = (groups.hashes(), groups.begins());
//! let level = lent::Finished { settings, hashes, begins, seeds: &seeds, bitmap: &bitmap };
//! let mut scratch = vec![0; sizes.bitmap];
//! assert_eq!(lent::check(&level, &mut scratch), Ok(()));
//! # Ok::<(), phastr::Error>(())
//! ```

use crate::{BUMPED, Counts, Error, How, Settings, raw};

/// What a sweep reads.
#[derive(Clone, Copy, Debug)]
pub struct Input<'a> {
    /// The level's settings.
    pub settings: Settings,
    /// The weights of buckets of one to seven keys, each within ±2^32
    /// ([`default_weights`](crate::default_weights) has PHastR's).
    pub weights: [i64; 7],
    /// How to sweep: whether a bucket that no seed fits is bumped, and in how many chunks.
    pub how: How,
    /// The hashes, bucket after bucket ([`Groups`](crate::Groups) brings them into that order).
    pub hashes: &'a [u64],
    /// Where each bucket begins among the hashes, and at last how many there are: B + 1 numbers.
    pub begins: &'a [u32],
    /// A logarithm table ([`house_table`](crate::house_table), [`log_table`](crate::log_table)), of
    /// at least as many entries as [`sizes`] says.
    pub table: &'a [u32],
}

/// What a sweep writes. What was there before does not matter.
#[derive(Debug)]
pub struct Output<'a> {
    /// One seed to a bucket; 0 where the bucket is empty or was bumped.
    pub seeds: &'a mut [u16],
    /// Slot i is bit i mod 64 of word i / 64, set where a key took the slot.
    pub bitmap: &'a mut [u64],
    /// Room to work in, at least as many words as [`sizes`] says. That many are zero afterwards,
    /// and those beyond are kept.
    pub work: &'a mut [u64],
}

/// A finished level, and the keys that it was made from: what a check reads.
#[derive(Clone, Copy, Debug)]
pub struct Finished<'a> {
    /// The level's settings.
    pub settings: Settings,
    /// The hashes, bucket after bucket.
    pub hashes: &'a [u64],
    /// Where each bucket begins among the hashes, and at last how many there are: B + 1 numbers.
    pub begins: &'a [u32],
    /// One seed to a bucket.
    pub seeds: &'a [u16],
    /// Slot i is bit i mod 64 of word i / 64.
    pub bitmap: &'a [u64],
}

/// What a sweep wants lent.
#[derive(Clone, Copy, Debug, PartialEq, Eq, Hash)]
pub struct Sizes {
    /// The least number of words of work (W).
    pub work: usize,
    /// The least number of entries of the logarithm table.
    pub table: usize,
    /// The words of the bitmap, no more and no less.
    pub bitmap: usize,
}

fn answer<T>(number: u64, value: T) -> Result<T, Error> {
    if number == 0 { Ok(value) } else { Err(Error::of(number, 0)) }
}

/// What a sweep wants lent if its largest bucket has so many keys.
///
/// # Errors
///
/// Those of the settings: [`Error::SeedBits`], [`Error::Layouts`], [`Error::SliceLen`],
/// [`Error::LayoutBits`], [`Error::Slots`], [`Error::Buckets`], [`Error::SlicesPerBucket`]; and
/// [`Error::LargeBucket`] above 4,096 keys.
pub fn sizes(settings: &Settings, largest: u64) -> Result<Sizes, Error> {
    let mut sizes = [0; 3];
    let number = raw::sizes(settings, largest, &mut sizes);
    let [work, table, bitmap] = sizes.map(|n| n as usize);
    answer(number, Sizes { work, table, bitmap })
}

/// Sweeps a level.
///
/// # Errors
///
/// Those of the settings as for [`sizes`], then [`Error::Weights`], [`Error::Chunks`],
/// [`Error::Begins`], [`Error::LargeBucket`], [`Error::StrayHash`], [`Error::Table`] and
/// [`Error::Lengths`]: the first that applies in this order, and nothing is written.
/// [`Error::NoSeed`] where bumping is forbidden.
pub fn sweep(input: &Input, output: Output) -> Result<Counts, Error> {
    let (mut counts, mut bucket) = ([0; 3], 0);
    match raw::sweep(input, output, &mut counts, &mut bucket) {
        0 => {
            let [placed, bumped, zero] = counts;
            Ok(Counts { placed, bumped, zero })
        }
        number => Err(Error::of(number, bucket)),
    }
}

/// Writes the unmarked ones of so many slots, ascending, to the front of `out` and answers how many
/// there are. A slot takes 32 bits there, to save room.
///
/// # Errors
///
/// [`Error::Slots`]; [`Error::Lengths`] where the bitmap has not a word for each 64 slots;
/// [`Error::HoleBuffer`].
pub fn holes(slots: u64, bitmap: &[u64], out: &mut [u32]) -> Result<usize, Error> {
    let mut count = 0;
    let number = raw::holes(slots, bitmap, out, &mut count);
    answer(number, count as usize)
}

/// The slot of a hash, or none where its bucket was bumped. A hash that was no key gets some slot
/// too.
///
/// # Errors
///
/// Those of the settings as for [`sizes`], but not [`Error::SlicesPerBucket`]; [`Error::Lengths`]
/// where there is not one seed to a bucket.
pub fn lookup(settings: &Settings, seeds: &[u16], hash: u64) -> Result<Option<u64>, Error> {
    let mut slot = 0;
    let number = raw::lookup(settings, seeds, hash, &mut slot);
    answer(number, (slot != BUMPED).then_some(slot))
}

/// Writes the slot of each hash, or [`BUMPED`], to its place in `slots`.
///
/// # Errors
///
/// Those of [`lookup`], and [`Error::Lengths`] also where there are not as many slots as hashes.
pub fn lookup_all(
    settings: &Settings,
    seeds: &[u16],
    hashes: &[u64],
    slots: &mut [u64],
) -> Result<(), Error> {
    answer(raw::positions(settings, seeds, hashes, slots), ())
}

/// Checks a finished level, whoever made it. It is accepted exactly when every seed is below 2^sb,
/// every empty bucket has seed 0, no two keys with a nonzero seed share a slot, and the bitmap marks
/// just their slots. That its seeds are the cheapest is not asked.
///
/// The scratch is as long as the bitmap. What it holds before does not matter, and unless one of the
/// first group below refuses it is zero afterwards.
///
/// # Errors
///
/// Those of the settings as for [`sizes`], then [`Error::Begins`], [`Error::LargeBucket`],
/// [`Error::StrayHash`] and [`Error::Lengths`]. Then, of the level itself, [`Error::BadSeed`],
/// [`Error::SlotTwice`] with the lowest bucket at which a slot is met twice, and [`Error::Bitmap`].
pub fn check(level: &Finished, scratch: &mut [u64]) -> Result<(), Error> {
    let mut bucket = 0;
    match raw::check(level, scratch, &mut bucket) {
        0 => Ok(()),
        number => Err(Error::of(number, bucket)),
    }
}

/// How many buckets so many keys get at an expected bucket size.
///
/// # Errors
///
/// [`Error::SliceLen`], [`Error::BucketSize`] and [`Error::Keys`].
///
/// # Examples
///
/// ```
/// assert_eq!(phastr::lent::bucket_count(10, 1000, 4.25), Ok(235));
/// ```
pub fn bucket_count(log2_slice_len: u32, keys: u64, size: f64) -> Result<u64, Error> {
    let mut count = 0;
    let number = raw::bucket_count(log2_slice_len, keys, size, &mut count);
    answer(number, count)
}

/// Fills a table of logarithms, of the length lent: entry d is 2^24·log2 d, rounded to nearest, and
/// entry 0 is 0.
///
/// # Errors
///
/// [`Error::TableLength`] where it has no entries or more than [`LOG_ENTRIES`](crate::LOG_ENTRIES).
///
/// # Examples
///
/// ```
/// let mut table = [7; 9];
/// phastr::lent::log_table(&mut table)?;
/// assert_eq!([table[0], table[1], table[4], table[8]], [0, 0, 2 << 24, 3 << 24]);
/// # Ok::<(), phastr::Error>(())
/// ```
pub fn log_table(table: &mut [u32]) -> Result<(), Error> {
    answer(raw::log_table(table), ())
}

/// How many bytes are room enough for a level file of so many seeds and holes, whatever they are.
pub fn file_room(seeds: usize, holes: usize) -> usize {
    16 + 3 * seeds + 4 * holes
}

/// Writes a level file (docs/LEVEL-FILE.md of the project) to the front of `out` and answers its
/// length. What lies beyond is kept. [`file_room`] says how many bytes are room enough.
///
/// # Errors
///
/// Those of the settings as for [`sizes`], then [`Error::Lengths`] where there is not one seed to a
/// bucket, [`Error::FileValue`] and [`Error::FileRoom`]. All of `out` is then zero.
///
/// # Examples
///
/// ```
/// use phastr::{Settings, lent};
///
/// let settings = Settings { slots: 7, log2_slice_len: 3, log2_layouts: 0, seed_bits: 4, buckets: 3 };
/// let mut out = [9; 20];
/// let length = lent::write_file(&settings, &[3, 4, 0], &[0, 3, 5, 6], &mut out)?;
/// assert_eq!(out[..length], [1, 7, 3, 0, 4, 3, 3, 4, 0, 4, 0, 3, 2, 1]);
/// assert_eq!(out[length..], [9; 6]);
///
/// let (mut seeds, mut holes) = ([0; 3], [0; 4]);
/// assert_eq!(lent::read_file(&out[..length], &mut seeds, &mut holes)?, (settings, 4));
/// assert_eq!((seeds, holes), ([3, 4, 0], [0, 3, 5, 6]));
/// # Ok::<(), phastr::Error>(())
/// ```
pub fn write_file(
    settings: &Settings,
    seeds: &[u16],
    holes: &[u32],
    out: &mut [u8],
) -> Result<usize, Error> {
    let mut written = 0;
    let number = raw::level_write(settings, seeds, holes, out, &mut written);
    answer(number, written as usize)
}

/// Reads a level file into the front of `seeds` and `holes` and answers its settings and how many
/// holes there are. What lies beyond is kept. As many of each as there are bytes are room enough for
/// any whole file. A hole takes 32 bits, as in [`holes`].
///
/// # Errors
///
/// As each number is read: [`Error::FileShort`], [`Error::FileVersion`], those of the settings as for
/// [`sizes`] once all five are read, [`Error::FileValue`], and [`Error::FileRoom`] where there are more
/// seeds or holes than were lent room for; [`Error::FileLeftOver`] where all else is well. All of `seeds`
/// and `holes` are then zero.
pub fn read_file(
    bytes: &[u8],
    seeds: &mut [u16],
    holes: &mut [u32],
) -> Result<(Settings, usize), Error> {
    let mut level = [0; 6];
    let number = raw::level_read(bytes, seeds, holes, &mut level);
    let [slots, log2_slice_len, log2_layouts, seed_bits, buckets, count] = level;
    // Settings that pass 1 to 7 are small.
    let settings = Settings {
        slots,
        log2_slice_len: log2_slice_len as u32,
        log2_layouts: log2_layouts as u32,
        seed_bits: seed_bits as u32,
        buckets,
    };
    answer(number, (settings, count as usize))
}
