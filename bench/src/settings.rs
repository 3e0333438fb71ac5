//! The settings that are measured.

use oracle::cases::{self, Setting};
use oracle::{Case, figures};

/// A name, the settings (log2_slice_len, ll, sb), the expected bucket size and the chunks asked for.
pub struct Named {
    pub name: &'static str,
    pub setting: Setting,
    pub bucket_size: f64,
    pub chunks: usize,
}

/// The defaults first; then one layout over a ring of a word, rings of more words, one layout over the
/// default slices, many layouts, the shortest slices, the defaults in chunks, and large buckets:
/// a few of 64 keys and more among the others, half of them, all of them.
pub const ALL: [Named; 11] = [
    Named { name: "default", setting: cases::DEFAULT, bucket_size: 4.25, chunks: 1 },
    Named { name: "word-ring", setting: (6, 0, 8), bucket_size: 4.25, chunks: 1 },
    Named { name: "sb-10", setting: (11, 2, 10), bucket_size: 5.75, chunks: 1 },
    Named { name: "sb-12", setting: (12, 2, 12), bucket_size: 6.0, chunks: 1 },
    Named { name: "ll-0", setting: (10, 0, 8), bucket_size: 4.25, chunks: 1 },
    Named { name: "ll-4", setting: (4, 4, 8), bucket_size: 2.0, chunks: 1 },
    Named { name: "tiny", setting: (3, 0, 4), bucket_size: 1.0, chunks: 1 },
    Named { name: "chunks-16", setting: cases::DEFAULT, bucket_size: 4.25, chunks: 16 },
    Named { name: "large-45", setting: cases::DEFAULT, bucket_size: 45.0, chunks: 1 },
    Named { name: "large-64", setting: cases::DEFAULT, bucket_size: 64.0, chunks: 1 },
    Named { name: "large-200", setting: cases::DEFAULT, bucket_size: 200.0, chunks: 1 },
];

impl Named {
    /// The settings of that name.
    pub fn find(name: &str) -> Option<&'static Named> {
        ALL.iter().find(|named| named.name == name)
    }

    /// So many random keys on as many slots.
    pub fn family(&self, keys: usize) -> Case {
        let family = cases::family_of(cases::SEED, keys, keys, self.bucket_size, self.setting);
        Case { chunks: self.chunks, ..family }
    }

    /// What rule G makes of the settings, in a few words.
    pub fn words(&self) -> String {
        let f = figures(&self.family(10_000).settings);
        let (slice, layouts, bits) = (f.slice_len, f.layouts, self.setting.2);
        let chunks = if self.chunks == 1 { "" } else { ", in chunks" };
        format!(
            "slices of {slice}, {layouts} layouts, {bits}-bit seeds: rings of {}{chunks}",
            f.ring_len
        )
    }
}
