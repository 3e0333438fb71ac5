//! Why a call is refused.

use std::fmt;

/// Why a call was refused. Its text says it in the words of this crate's own settings, with the number that
/// C and the project's documents know it by behind; docs/RULES.md of the project says of each number what
/// to do about it. Of several that apply a call answers the first by number, unless it says otherwise.
///
/// ```
/// let error = phastr::lent::bucket_count(10, 100, 0.5).unwrap_err();
/// assert_eq!(error, phastr::Error::BucketSize);
/// assert_eq!(error.number(), 16);
/// assert_eq!(
///     error.to_string(),
///     "bucket_size is not from 1 to 64, or above an eighth of the slice length (number 16)"
/// );
/// ```
#[derive(Clone, Copy, Debug, PartialEq, Eq, Hash)]
#[non_exhaustive]
pub enum Error {
    /// 1: `seed_bits` is not from 2 to 16.
    SeedBits,
    /// 2: `log2_layouts` is not below `seed_bits`.
    Layouts,
    /// 3: `log2_slice_len` is not from 3 to 16.
    SliceLen,
    /// 4: the layouts want more than the 64 bits of a hash: `log2_slice_len` times 2^`log2_layouts`.
    LayoutBits,
    /// 5: `slots` is not from 1 to 134,217,728.
    Slots,
    /// 6: `buckets` is even, or above 67,108,865.
    Buckets,
    /// 7: the buckets are too few for the slots: one would span more than 4,096 slices.
    SlicesPerBucket,
    /// 8: a weight is beyond ±2^32.
    Weights,
    /// 9: the begins do not fit the buckets and hashes, or there are more than 67,108,864 hashes.
    Begins,
    /// 10: a bucket has more than 4,096 keys. Hashes that are spread over all 64 bits have none.
    LargeBucket,
    /// 11: a hash stands in a bucket that is not its own.
    StrayHash,
    /// 12: the logarithm table is too short, or falls.
    Table,
    /// 13: seeds, bitmap, work, slots or scratch have not the length that is wanted.
    Lengths,
    /// 14: bumping is forbidden and no seed fits this bucket.
    NoSeed {
        /// The first bucket, in the order of the sweep, that no seed fits.
        bucket: u64,
    },
    /// 15: there are more holes than the buffer takes.
    HoleBuffer,
    /// 16: `bucket_size` is not from 1 to 64, or above an eighth of the slice length.
    BucketSize,
    /// 17: there are more than 67,108,864 keys.
    Keys,
    /// 20: `chunks` is 0.
    Chunks,
    /// 21: a table to be filled has no entries, or more than 131,072.
    TableLength,
    /// 22: a level file ends too early, or has a number of over 64 bits or ten groups.
    FileShort,
    /// 23: a level file's version is not 1.
    FileVersion,
    /// 24: a seed of a level file has more than `seed_bits` bits, there are more holes than slots, or a
    /// hole does not rise or is no slot.
    FileValue,
    /// 25: bytes are left over after a level file's last hole.
    FileLeftOver,
    /// 26: the bytes lent have no room for a level file, or the seeds or holes lent for what one has.
    FileRoom,
    /// 28: a seed has more than sb bits, or an empty bucket has one that is not 0.
    BadSeed,
    /// 29: two keys share a slot.
    SlotTwice {
        /// The lowest bucket at which a slot is met that an earlier key has taken.
        bucket: u64,
    },
    /// 30: the bitmap does not mark just the keys' slots.
    Bitmap,
}

impl Error {
    /// The error of a number that the library came back with; 14 and 29 have a bucket.
    pub(crate) fn of(number: u64, bucket: u64) -> Error {
        match number {
            1 => Error::SeedBits,
            2 => Error::Layouts,
            3 => Error::SliceLen,
            4 => Error::LayoutBits,
            5 => Error::Slots,
            6 => Error::Buckets,
            7 => Error::SlicesPerBucket,
            8 => Error::Weights,
            9 => Error::Begins,
            10 => Error::LargeBucket,
            11 => Error::StrayHash,
            12 => Error::Table,
            13 => Error::Lengths,
            14 => Error::NoSeed { bucket },
            15 => Error::HoleBuffer,
            16 => Error::BucketSize,
            17 => Error::Keys,
            20 => Error::Chunks,
            21 => Error::TableLength,
            22 => Error::FileShort,
            23 => Error::FileVersion,
            24 => Error::FileValue,
            25 => Error::FileLeftOver,
            26 => Error::FileRoom,
            28 => Error::BadSeed,
            29 => Error::SlotTwice { bucket },
            30 => Error::Bitmap,
            _ => unreachable!("the library answered {number}, which none of its calls does"),
        }
    }

    /// The number that C and the project's documents know it by.
    pub fn number(&self) -> u64 {
        self.said().0
    }

    /// What was wrong, without the number.
    pub fn words(&self) -> &'static str {
        self.said().1
    }

    fn said(&self) -> (u64, &'static str) {
        match self {
            Error::SeedBits => (1, "seed_bits is not from 2 to 16"),
            Error::Layouts => (2, "log2_layouts is not below seed_bits"),
            Error::SliceLen => (3, "log2_slice_len is not from 3 to 16"),
            Error::LayoutBits => {
                (4, "log2_slice_len times 2^log2_layouts is above 64, or log2_layouts above 6")
            }
            Error::Slots => (5, "slots is not from 1 to 134,217,728"),
            Error::Buckets => (6, "buckets is even, or above 67,108,865"),
            Error::SlicesPerBucket => {
                (7, "buckets are too few for the slots: one spans over 4,096 slices")
            }
            Error::Weights => (8, "a weight is beyond ±2^32"),
            Error::Begins => (
                9,
                "begins are not buckets + 1 numbers from 0 up to the hashes' count, or that is above 67,108,864",
            ),
            Error::LargeBucket => (10, "a bucket has more than 4,096 keys"),
            Error::StrayHash => (11, "a hash stands in a bucket that is not its own"),
            Error::Table => (12, "the logarithm table is too short, or falls"),
            Error::Lengths => {
                (13, "seeds, bitmap, work or slots have not the length that is wanted")
            }
            Error::NoSeed { .. } => (14, "bumping is forbidden and no seed fits a bucket"),
            Error::HoleBuffer => (15, "there are more holes than the buffer takes"),
            Error::BucketSize => {
                (16, "bucket_size is not from 1 to 64, or above an eighth of the slice length")
            }
            Error::Keys => (17, "there are more than 67,108,864 keys"),
            Error::Chunks => (20, "chunks is 0"),
            Error::TableLength => (21, "a table has no entries, or more than 131,072"),
            Error::FileShort => {
                (22, "the file ends too early, or has a number of over 64 bits or ten groups")
            }
            Error::FileVersion => (23, "the file's version is not 1"),
            Error::FileValue => (
                24,
                "a seed has more than seed_bits bits, there are more holes than slots, or a hole does not rise or is no slot",
            ),
            Error::FileLeftOver => (25, "bytes are left over after the file's last hole"),
            Error::FileRoom => (26, "what is lent has no room for the file, or for what it has"),
            Error::BadSeed => (
                28,
                "a seed has more than seed_bits bits, or an empty bucket has one that is not 0",
            ),
            Error::SlotTwice { .. } => (29, "two keys share a slot"),
            Error::Bitmap => (30, "the bitmap does not mark just the keys' slots"),
        }
    }
}

impl fmt::Display for Error {
    fn fmt(&self, f: &mut fmt::Formatter<'_>) -> fmt::Result {
        f.write_str(self.words())?;
        if let Error::NoSeed { bucket } | Error::SlotTwice { bucket } = self {
            write!(f, ", bucket {bucket}")?;
        }
        write!(f, " (number {})", self.number())
    }
}

impl std::error::Error for Error {}
