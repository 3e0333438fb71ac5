//! Settings by name, and the way from hashes to a level.

use crate::{Error, Groups, How, Level, Settings, default_weights, lent};

/// Makes levels. It starts from PHastR's defaults: 8-bit seeds, four layouts, slices of 1,024
/// slots, buckets of 4.25 keys, as many slots as keys, the weights that go with the seeds, bumping
/// allowed, and one chunk.
///
/// ```
/// use phastr::{Builder, Error};
///
/// let hashes: Vec<u64> = (0..500u64).map(|i| i.wrapping_mul(0xD134_2543_DE82_EF95)).collect();
/// let level = Builder::new().seed_bits(10).log2_slice_len(11).slots(600).sweep(hashes.clone())?;
/// assert_eq!(level.settings().slots, 600);
///
/// // The same key twice fits no seed, and must be bumped.
/// let twice = [hashes, vec![0]].concat();
/// assert!(matches!(Builder::new().bump(false).sweep(twice), Err(Error::NoSeed { .. })));
/// # Ok::<(), Error>(())
/// ```
#[derive(Clone, Copy, Debug, PartialEq)]
#[must_use]
pub struct Builder {
    seed_bits: u32,
    log2_layouts: u32,
    log2_slice_len: u32,
    bucket_size: f64,
    slots: Option<u64>,
    buckets: Option<u64>,
    weights: Option<[i64; 7]>,
    bump: bool,
    chunks: u64,
}

impl Default for Builder {
    fn default() -> Builder {
        Builder {
            seed_bits: 8,
            log2_layouts: 2,
            log2_slice_len: 10,
            bucket_size: 4.25,
            slots: None,
            buckets: None,
            weights: None,
            bump: true,
            chunks: 1,
        }
    }
}

impl Builder {
    /// PHastR's defaults.
    pub fn new() -> Builder {
        Builder::default()
    }

    /// The bits of a seed: 2 to 16, and more than `log2_layouts`. The default is 8.
    pub fn seed_bits(self, seed_bits: u32) -> Builder {
        Builder { seed_bits, ..self }
    }

    /// The base-2 logarithm of the number of layouts, at most 6. The layouts take
    /// `log2_slice_len` bits each, in all at most 64. The default is 2.
    pub fn log2_layouts(self, log2_layouts: u32) -> Builder {
        Builder { log2_layouts, ..self }
    }

    /// The base-2 logarithm of the slice length: 3 to 16. The default is 10.
    pub fn log2_slice_len(self, log2_slice_len: u32) -> Builder {
        Builder { log2_slice_len, ..self }
    }

    /// The expected number of keys of a bucket: 1 to 64, and at most an eighth of the slice length.
    /// The default is 4.25.
    pub fn bucket_size(self, bucket_size: f64) -> Builder {
        Builder { bucket_size, ..self }
    }

    /// How many slots there are. The default is as many as keys, and at least one.
    pub fn slots(self, slots: u64) -> Builder {
        Builder { slots: Some(slots), ..self }
    }

    /// How many buckets there are, an odd number. The default is worked out from the keys and the
    /// bucket size, which this replaces.
    pub fn buckets(self, buckets: u64) -> Builder {
        Builder { buckets: Some(buckets), ..self }
    }

    /// The weights of buckets of one to seven keys, each within ±2^32. The default depends on the
    /// bits of a seed ([`default_weights`]).
    pub fn weights(self, weights: [i64; 7]) -> Builder {
        Builder { weights: Some(weights), ..self }
    }

    /// Whether a bucket that no seed fits is bumped. If not, it ends the sweep. The default is yes.
    pub fn bump(self, bump: bool) -> Builder {
        Builder { bump, ..self }
    }

    /// Into how many chunks the sweep is split: at least one, and what is too many is cut. The buckets
    /// of each chunk are swept by themselves, and those of the gaps between two after them, as PHastR
    /// does with several threads. Two chunks need at least 8,193 buckets, and at the other defaults some
    /// 131,000 keys. The default is one.
    ///
    /// ```
    /// use phastr::{Builder, Error};
    ///
    /// let hashes: Vec<u64> = (0..150_000u64).map(|i| i.wrapping_mul(0xD134_2543_DE82_EF95)).collect();
    /// let one = Builder::new().sweep(hashes.clone())?;
    /// let two = Builder::new().chunks(2).sweep(hashes.clone())?;
    /// assert!(one.seeds() != two.seeds());
    /// assert!(two == Builder::new().chunks(u64::MAX).sweep(hashes.clone())?);
    ///
    /// assert_eq!(Builder::new().chunks(0).sweep(hashes), Err(Error::Chunks));
    /// # Ok::<(), Error>(())
    /// ```
    pub fn chunks(self, chunks: u64) -> Builder {
        Builder { chunks, ..self }
    }

    /// The settings of a level of so many keys.
    ///
    /// # Errors
    ///
    /// [`Error::SliceLen`], [`Error::BucketSize`] and [`Error::Keys`], where no number of buckets was
    /// given. All else is left to the sweep.
    ///
    /// # Examples
    ///
    /// ```
    /// let settings = phastr::Builder::new().settings(1000)?;
    /// assert_eq!(settings, phastr::Settings::new(1000, 235));
    /// # Ok::<(), phastr::Error>(())
    /// ```
    pub fn settings(&self, keys: u64) -> Result<Settings, Error> {
        let buckets = match self.buckets {
            Some(buckets) => buckets,
            None => lent::bucket_count(self.log2_slice_len, keys, self.bucket_size)?,
        };
        Ok(Settings {
            slots: self.slots.unwrap_or(keys.max(1)),
            log2_slice_len: self.log2_slice_len,
            log2_layouts: self.log2_layouts,
            seed_bits: self.seed_bits,
            buckets,
        })
    }

    /// Sweeps hashes that stand in any order.
    ///
    /// # Errors
    ///
    /// Those of [`Builder::settings`], then those of [`Groups::new`], then those of [`Level::sweep`].
    pub fn sweep(&self, hashes: Vec<u64>) -> Result<Level, Error> {
        let settings = self.settings(hashes.len() as u64)?;
        let groups = Groups::new(settings.buckets, hashes)?;
        let weights = self.weights.unwrap_or(default_weights(self.seed_bits));
        let how = How { bump: self.bump, chunks: self.chunks };
        Level::sweep(settings, weights, how, &groups)
    }
}
