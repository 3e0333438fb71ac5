//! The numbers that a level is made of.

/// The settings of a level, under document 01's names in brackets. They are checked by the calls
/// that take them.
#[derive(Clone, Copy, Debug, PartialEq, Eq, Hash)]
pub struct Settings {
    /// How many slots the level has (m): 1 to 2^27.
    pub slots: u64,
    /// The base-2 logarithm of the slice length: 3 to 16. Small levels have shorter slices.
    pub log2_slice_len: u32,
    /// The base-2 logarithm of the number of layouts (ll): at most 6, and below `seed_bits`.
    pub log2_layouts: u32,
    /// The bits of a seed (sb): 2 to 16.
    pub seed_bits: u32,
    /// How many buckets there are (B): odd, at most 67,108,865.
    pub buckets: u64,
}

impl Settings {
    /// PHastR's defaults for so many slots and buckets: slices of 1,024 slots, four layouts, 8-bit seeds.
    pub fn new(slots: u64, buckets: u64) -> Settings {
        Settings { slots, log2_slice_len: 10, log2_layouts: 2, seed_bits: 8, buckets }
    }

    /// The bucket that a hash falls into.
    ///
    /// ```
    /// let settings = phastr::Settings::new(7, 3);
    /// assert_eq!([0, 1 << 62, 1 << 63, u64::MAX].map(|h| settings.bucket(h)), [0, 0, 1, 2]);
    /// ```
    pub fn bucket(&self, hash: u64) -> u64 {
        bucket_of(self.buckets, hash)
    }

    /// How many words a bitmap of the slots has.
    pub fn bitmap_words(&self) -> u64 {
        self.slots.div_ceil(64)
    }
}

/// How to sweep.
#[derive(Clone, Copy, Debug, PartialEq, Eq, Hash)]
pub struct How {
    /// Whether a bucket that no seed fits is bumped. If not, it ends the sweep
    /// ([`Error::NoSeed`](crate::Error::NoSeed)).
    pub bump: bool,
    /// Into how many chunks the buckets may be split, at least one; what is too many is cut.
    pub chunks: u64,
}

impl Default for How {
    /// With bumping, in one chunk.
    fn default() -> How {
        How { bump: true, chunks: 1 }
    }
}

/// The bucket, of so many, that a hash falls into. It rises with the hash.
pub(crate) fn bucket_of(buckets: u64, hash: u64) -> u64 {
    ((hash as u128 * buckets as u128) >> 64) as u64
}

/// PHastR's weights for buckets of one to seven keys, which depend on the bits of a seed alone.
pub const fn default_weights(seed_bits: u32) -> [i64; 7] {
    if seed_bits <= 8 {
        [-52000, 53315, 105861, 138629, 156944, 175176, 186591]
    } else {
        [46000, 55041, 137806, 184081, 217321, 241846, 256427]
    }
}
