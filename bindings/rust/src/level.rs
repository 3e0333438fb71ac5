//! A level that owns its memory.

use crate::lent::{self, Finished, Input, Output};
use crate::table::HOUSE_ENTRIES;
use crate::{BUMPED, Counts, Error, Groups, How, Settings, house_table, log_table};

/// The keys of the largest bucket that a sweep takes.
const LARGEST_BUCKET: u64 = 4096;

/// A finished level, swept or read from a level file: a seed for each bucket, and which slots are
/// taken. Two are equal where these and the settings are.
#[derive(Clone, Debug)]
pub struct Level {
    settings: Settings,
    seeds: Vec<u16>,
    bitmap: Vec<u64>,
    counts: Option<Counts>,
}

impl PartialEq for Level {
    fn eq(&self, other: &Level) -> bool {
        (self.settings, &self.seeds, &self.bitmap) == (other.settings, &other.seeds, &other.bitmap)
    }
}

impl Eq for Level {}

impl Level {
    /// Sweeps grouped hashes.
    ///
    /// # Errors
    ///
    /// Those of the settings as for [`lent::sizes`], then [`Error::Weights`], [`Error::Chunks`], and of
    /// the groups [`Error::Begins`], [`Error::LargeBucket`] and [`Error::StrayHash`];
    /// [`Error::NoSeed`] where bumping is forbidden.
    ///
    /// # Examples
    ///
    /// ```
    /// use phastr::{Groups, How, Level, Settings, default_weights};
    ///
    /// let groups = Groups::new(5, (0..20).map(|i| i << 59).collect())?;
    /// let level = Level::sweep(Settings::new(24, 5), default_weights(8), How::default(), &groups)?;
    /// assert_eq!(level.seeds().len(), 5);
    /// # Ok::<(), phastr::Error>(())
    /// ```
    pub fn sweep(
        settings: Settings,
        weights: [i64; 7],
        how: How,
        groups: &Groups,
    ) -> Result<Level, Error> {
        // A larger bucket is the sweep's to refuse, once it has come to check 10.
        let sizes = lent::sizes(&settings, groups.largest().min(LARGEST_BUCKET))?;
        let table = if sizes.table <= HOUSE_ENTRIES {
            house_table().to_vec()
        } else {
            log_table(sizes.table)?
        };
        let mut seeds = vec![0; settings.buckets as usize];
        let mut bitmap = vec![0; sizes.bitmap];
        let mut work = vec![0; sizes.work];
        let (hashes, begins) = (groups.hashes(), groups.begins());
        let input = Input { settings, weights, how, hashes, begins, table: &table };
        let output = Output { seeds: &mut seeds, bitmap: &mut bitmap, work: &mut work };
        let counts = lent::sweep(&input, output)?;
        Ok(Level { settings, seeds, bitmap, counts: Some(counts) })
    }

    /// Reads a level file (docs/LEVEL-FILE.md of the project). What is read has its settings, seeds and
    /// holes; its keys are not in the file, so that it has no [`counts`](Level::counts).
    ///
    /// # Errors
    ///
    /// Those of [`lent::read_file`], but that a file which announces more seeds or holes than it has
    /// bytes is [`Error::FileShort`]: there is room for any whole file.
    ///
    /// # Examples
    ///
    /// ```
    /// use phastr::{Builder, Level};
    ///
    /// let hashes: Vec<u64> = (1..=1000u64).map(|i| i.wrapping_mul(0x9E37_79B9_7F4A_7C15)).collect();
    /// let level = Builder::new().sweep(hashes.clone())?;
    /// let read = Level::from_bytes(&level.to_bytes())?;
    /// assert_eq!(read, level);
    /// assert_eq!(read.lookup_all(&hashes), level.lookup_all(&hashes));
    /// assert!(read.holes().eq(level.holes()));
    /// # Ok::<(), phastr::Error>(())
    /// ```
    pub fn from_bytes(bytes: &[u8]) -> Result<Level, Error> {
        // Each number has at least one byte, so there is room for all that a whole file has.
        let (mut seeds, mut holes) = (vec![0; bytes.len()], vec![0; bytes.len()]);
        let (settings, count) = match lent::read_file(bytes, &mut seeds, &mut holes) {
            Err(Error::FileRoom) => return Err(Error::FileShort),
            read => read?,
        };
        seeds.truncate(settings.buckets as usize);
        seeds.shrink_to_fit();
        let mut bitmap = full_bitmap(settings.slots);
        for &hole in &holes[..count] {
            bitmap[hole as usize / 64] ^= 1 << (hole % 64);
        }
        Ok(Level { settings, seeds, bitmap, counts: None })
    }

    /// The level as a file (docs/LEVEL-FILE.md of the project), for [`Level::from_bytes`] here or
    /// elsewhere.
    pub fn to_bytes(&self) -> Vec<u8> {
        let holes = self.hole_list();
        let mut bytes = vec![0; lent::file_room(self.seeds.len(), holes.len())];
        let length = lent::write_file(&self.settings, &self.seeds, &holes, &mut bytes)
            .expect("a finished level is sound");
        bytes.truncate(length);
        bytes
    }

    /// Takes over a level that another has made, PHastR's own Rust for one, once it is found sound
    /// ([`check_level`]).
    ///
    /// # Errors
    ///
    /// Those of [`lent::check`].
    ///
    /// # Examples
    ///
    /// ```
    /// use phastr::{Error, Groups, Level, Settings};
    ///
    /// let settings = Settings { slots: 7, log2_slice_len: 3, log2_layouts: 0, seed_bits: 4, buckets: 3 };
    /// let groups = Groups::new(3, vec![1 << 62, (1 << 62) + 3, 1 << 63])?;
    /// let level = Level::from_parts(settings, &groups, vec![3, 4, 0], vec![0b10110])?;
    /// assert_eq!((level.lookup(1 << 63), level.counts().unwrap().placed), (Some(2), 3));
    ///
    /// let spoilt = Level::from_parts(settings, &groups, vec![3, 4, 0], vec![0b10111]);
    /// assert_eq!(spoilt, Err(Error::Bitmap));
    /// # Ok::<(), Error>(())
    /// ```
    pub fn from_parts(
        settings: Settings,
        groups: &Groups,
        seeds: Vec<u16>,
        bitmap: Vec<u64>,
    ) -> Result<Level, Error> {
        check_level(settings, groups, &seeds, &bitmap)?;
        let counts = Some(counts(groups, &seeds));
        Ok(Level { settings, seeds, bitmap, counts })
    }

    /// Checks the level against the keys it should be made from.
    ///
    /// # Errors
    ///
    /// Those of [`lent::check`].
    pub fn check(&self, groups: &Groups) -> Result<(), Error> {
        check_level(self.settings, groups, &self.seeds, &self.bitmap)
    }

    /// The slot of a hash, or none where its bucket was bumped. A hash that was no key gets some
    /// slot too.
    pub fn lookup(&self, hash: u64) -> Option<u64> {
        lent::lookup(&self.settings, &self.seeds, hash).expect("a finished level is sound")
    }

    /// The slot of each hash, or none where its bucket was bumped.
    pub fn lookup_all(&self, hashes: &[u64]) -> Vec<Option<u64>> {
        let mut slots = vec![0; hashes.len()];
        self.lookup_into(hashes, &mut slots).expect("there are as many slots as hashes");
        slots.into_iter().map(|slot| (slot != BUMPED).then_some(slot)).collect()
    }

    /// Writes the slot of each hash, or [`BUMPED`], to its place in `slots`.
    ///
    /// # Errors
    ///
    /// [`Error::Lengths`] where there are not as many slots as hashes.
    pub fn lookup_into(&self, hashes: &[u64], slots: &mut [u64]) -> Result<(), Error> {
        lent::lookup_all(&self.settings, &self.seeds, hashes, slots)
    }

    /// Which of the hashes were bumped, by their place among those given: the keys of the next level.
    /// Hash these keys anew there, with another salt; under the same hashes they fall together again.
    ///
    /// ```
    /// let hashes = vec![1 << 63, 0, 1 << 62, 0];
    /// let level = phastr::Builder::new().bucket_size(1.0).sweep(hashes.clone())?;
    /// assert_eq!(level.bumped(&hashes), [1, 3]); // the same hash twice fits nowhere
    /// # Ok::<(), phastr::Error>(())
    /// ```
    pub fn bumped(&self, hashes: &[u64]) -> Vec<usize> {
        let slots = self.lookup_all(hashes);
        (0..hashes.len()).filter(|&i| slots[i].is_none()).collect()
    }

    /// The slots that no key took, ascending.
    pub fn holes(&self) -> Holes {
        Holes(self.hole_list().into_iter())
    }

    fn hole_list(&self) -> Vec<u32> {
        let taken: u64 = self.bitmap.iter().map(|word| u64::from(word.count_ones())).sum();
        let mut list = vec![0; (self.settings.slots - taken) as usize];
        let count = lent::holes(self.settings.slots, &self.bitmap, &mut list);
        assert_eq!(count, Ok(list.len()), "a finished level is sound");
        list
    }

    /// Whether a key took the slot. No key takes a slot that the level has not.
    pub fn is_taken(&self, slot: u64) -> bool {
        let word = self.bitmap.get((slot / 64) as usize);
        word.is_some_and(|word| word >> (slot % 64) & 1 == 1)
    }

    /// How many keys were placed and bumped, and how many seeds are 0; none of a level that was read
    /// from a file, which does not have its keys.
    pub fn counts(&self) -> Option<Counts> {
        self.counts
    }

    /// The settings that the level was made with.
    pub fn settings(&self) -> Settings {
        self.settings
    }

    /// One seed to a bucket; 0 where the bucket is empty or was bumped.
    pub fn seeds(&self) -> &[u16] {
        &self.seeds
    }

    /// Slot i is bit i mod 64 of word i / 64, set where a key took the slot. Other bits are 0.
    pub fn bitmap(&self) -> &[u64] {
        &self.bitmap
    }

    /// The seeds and the bitmap. The settings and the seeds are all that
    /// [`lent::lookup`] asks for.
    pub fn into_parts(self) -> (Vec<u16>, Vec<u64>) {
        (self.seeds, self.bitmap)
    }
}

/// A bitmap in which every one of so many slots is taken.
fn full_bitmap(slots: u64) -> Vec<u64> {
    let mut bitmap = vec![u64::MAX; slots.div_ceil(64) as usize];
    if let Some(last) = bitmap.last_mut().filter(|_| slots % 64 != 0) {
        *last = (1 << (slots % 64)) - 1;
    }
    bitmap
}

/// Checks a finished level, whoever made it, against the keys it was made from. It accepts what
/// [`lent::check`] does.
///
/// # Errors
///
/// Those of [`lent::check`].
///
/// # Examples
///
/// ```
/// use phastr::{Error, Groups, Settings, check_level};
///
/// // Two keys in one bucket: seed 1 puts both on slot 1.
/// let settings = Settings { slots: 7, log2_slice_len: 3, log2_layouts: 0, seed_bits: 4, buckets: 1 };
/// let groups = Groups::new(1, vec![0, 4])?;
/// let refused = check_level(settings, &groups, &[1], &[0b10]).unwrap_err();
/// assert_eq!(refused, Error::SlotTwice { bucket: 0 });
/// assert_eq!(refused.to_string(), "two keys share a slot, bucket 0 (number 29)");
/// # Ok::<(), Error>(())
/// ```
pub fn check_level(
    settings: Settings,
    groups: &Groups,
    seeds: &[u16],
    bitmap: &[u64],
) -> Result<(), Error> {
    let (hashes, begins) = (groups.hashes(), groups.begins());
    let mut scratch = vec![0; bitmap.len()];
    lent::check(&Finished { settings, hashes, begins, seeds, bitmap }, &mut scratch)
}

/// The counts of a level that has been checked.
fn counts(groups: &Groups, seeds: &[u16]) -> Counts {
    let sizes = groups.begins().windows(2).map(|w| u64::from(w[1] - w[0]));
    let placed = sizes.zip(seeds).filter(|&(_, &seed)| seed != 0).map(|(size, _)| size).sum();
    let zero = seeds.iter().filter(|&&seed| seed == 0).count() as u64;
    Counts { placed, bumped: groups.hashes().len() as u64 - placed, zero }
}

/// The slots that no key took, ascending ([`Level::holes`]).
#[derive(Clone, Debug)]
pub struct Holes(std::vec::IntoIter<u32>);

impl Iterator for Holes {
    type Item = u64;

    fn next(&mut self) -> Option<u64> {
        self.0.next().map(u64::from)
    }

    fn size_hint(&self) -> (usize, Option<usize>) {
        self.0.size_hint()
    }
}

impl DoubleEndedIterator for Holes {
    fn next_back(&mut self) -> Option<u64> {
        self.0.next_back().map(u64::from)
    }
}

impl ExactSizeIterator for Holes {}

impl std::iter::FusedIterator for Holes {}
