//! Hashes grouped by bucket.

use crate::Error;
use crate::settings::bucket_of;

/// The most buckets that a level has.
const MOST_BUCKETS: u64 = 67_108_865;

/// The most keys that a level takes.
const MOST_KEYS: usize = 67_108_864;

/// Hashes, bucket after bucket, and where each bucket begins.
#[derive(Clone, Debug, Default, PartialEq, Eq)]
pub struct Groups {
    hashes: Vec<u64>,
    begins: Vec<u32>,
}

impl Groups {
    /// Groups hashes that stand in any order by their buckets, so many in all. They are sorted in
    /// place: a hash's bucket rises with the hash.
    ///
    /// # Errors
    ///
    /// [`Error::Buckets`] and [`Error::Keys`].
    ///
    /// # Examples
    ///
    /// ```
    /// let groups = phastr::Groups::new(3, vec![1 << 63, 1, u64::MAX, 0])?;
    /// assert_eq!(groups.hashes(), [0, 1, 1 << 63, u64::MAX]);
    /// assert_eq!(groups.begins(), [0, 2, 3, 4]);
    /// # Ok::<(), phastr::Error>(())
    /// ```
    pub fn new(buckets: u64, mut hashes: Vec<u64>) -> Result<Groups, Error> {
        if buckets.is_multiple_of(2) || buckets > MOST_BUCKETS {
            return Err(Error::Buckets);
        }
        if hashes.len() > MOST_KEYS {
            return Err(Error::Keys);
        }
        hashes.sort_unstable();
        let mut begins = vec![0; buckets as usize + 1];
        for &hash in &hashes {
            begins[bucket_of(buckets, hash) as usize + 1] += 1;
        }
        for b in 0..buckets as usize {
            begins[b + 1] += begins[b];
        }
        Ok(Groups { hashes, begins })
    }

    /// Takes hashes that are grouped already. Bucket b's are those from `begins[b]` to
    /// `begins[b + 1]`; nothing is checked here, as each sweep checks ([`Error::Begins`],
    /// [`Error::LargeBucket`] and [`Error::StrayHash`]).
    pub fn from_parts(hashes: Vec<u64>, begins: Vec<u32>) -> Groups {
        Groups { hashes, begins }
    }

    /// The hashes, bucket after bucket.
    pub fn hashes(&self) -> &[u64] {
        &self.hashes
    }

    /// Where each bucket begins among the hashes, and at last how many there are.
    pub fn begins(&self) -> &[u32] {
        &self.begins
    }

    /// The size of the largest bucket.
    pub fn largest(&self) -> u64 {
        largest(&self.begins)
    }

    /// The hashes and the begins.
    pub fn into_parts(self) -> (Vec<u64>, Vec<u32>) {
        (self.hashes, self.begins)
    }
}

/// The size of the largest bucket. Begins that fall, which a sweep refuses, count as empty.
pub(crate) fn largest(begins: &[u32]) -> u64 {
    begins.windows(2).map(|w| u64::from(w[1].saturating_sub(w[0]))).max().unwrap_or(0)
}
