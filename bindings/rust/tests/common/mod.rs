//! A sweep whose every part a test can change, and what it left behind; and numbers at random.
#![allow(dead_code)]

use phastr::lent::{self, Input, Output};
use phastr::{Counts, Error, How, Settings, log_table};

/// What stands in lent memory before a call.
pub const SEED: u16 = 0xA5A5;
pub const WORD: u64 = 0xA5A5_A5A5_A5A5_A5A5;

/// No bumping, one chunk.
pub const FORBIDDEN: How = How { bump: false, chunks: 1 };

/// The inputs of a sweep and the lengths of what is lent.
#[derive(Clone, Debug)]
pub struct Case {
    pub settings: Settings,
    pub weights: [i64; 7],
    pub how: How,
    pub hashes: Vec<u64>,
    pub begins: Vec<u32>,
    pub table: Vec<u32>,
    pub seeds: usize,
    pub bitmap: usize,
    pub work: usize,
}

/// What came back, and the lent memory afterwards.
#[derive(Clone, Debug)]
pub struct Swept {
    pub answer: Result<Counts, Error>,
    pub seeds: Vec<u16>,
    pub bitmap: Vec<u64>,
    pub work: Vec<u64>,
}

/// A case of these buckets, with zero weights and a table that is long enough. Where the settings are sound it
/// is lent exactly what it wants.
pub fn case(settings: Settings, buckets: &[&[u64]]) -> Case {
    let hashes = buckets.concat();
    let mut begins = vec![0];
    for bucket in buckets {
        begins.push(begins[begins.len() - 1] + bucket.len() as u32);
    }
    let table = log_table(4300).unwrap();
    let case = Case {
        settings,
        weights: [0; 7],
        how: How::default(),
        hashes,
        begins,
        table,
        seeds: 0,
        bitmap: 0,
        work: 0,
    };
    case.lent()
}

/// The sheets' settings: slices of 2^3, one layout.
pub fn settings(slots: u64, seed_bits: u32, buckets: u64) -> Settings {
    Settings { slots, log2_slice_len: 3, log2_layouts: 0, seed_bits, buckets }
}

/// Document 01's listing: m 7, three buckets, one of them empty.
pub fn listing() -> Case {
    let buckets: [&[u64]; 3] = [&[1 << 62, (1 << 62) + 3], &[1 << 63], &[]];
    Case { weights: [2048, 0, 0, 0, 0, 0, 0], ..case(settings(7, 4, 3), &buckets) }
}

impl Case {
    /// The same under other settings, lent what these want.
    pub fn with(&self, settings: Settings) -> Case {
        Case { settings, ..self.clone() }.lent()
    }

    fn lent(self) -> Case {
        let largest = self.begins.windows(2).map(|w| w[1] - w[0]).max().unwrap_or(0);
        match lent::sizes(&self.settings, u64::from(largest).min(4096)) {
            Ok(s) => Case {
                seeds: self.settings.buckets as usize,
                bitmap: s.bitmap,
                work: s.work,
                ..self
            },
            Err(_) => Case { seeds: 3, bitmap: 1, work: 4000, ..self },
        }
    }

    pub fn sweep(&self) -> Swept {
        let mut seeds = vec![SEED; self.seeds];
        let mut bitmap = vec![WORD; self.bitmap];
        let mut work = vec![WORD; self.work];
        let input = Input {
            settings: self.settings,
            weights: self.weights,
            how: self.how,
            hashes: &self.hashes,
            begins: &self.begins,
            table: &self.table,
        };
        let output = Output { seeds: &mut seeds, bitmap: &mut bitmap, work: &mut work };
        let answer = lent::sweep(&input, output);
        Swept { answer, seeds, bitmap, work }
    }

    /// The sweep is refused with the number and has written nothing.
    #[track_caller]
    pub fn refused(&self, number: u64) {
        let swept = self.sweep();
        assert_eq!(swept.answer.map_err(|e| e.number()), Err(number), "{:?}", self.settings);
        assert!(swept.seeds.iter().all(|&s| s == SEED), "seeds were written");
        assert!(swept.bitmap.iter().all(|&w| w == WORD), "the bitmap was written");
        assert!(swept.work.iter().all(|&w| w == WORD), "work was written");
    }

    /// The sweep passes; its work is zero as far as it was wanted, and as it was beyond.
    #[track_caller]
    pub fn passes(&self) -> Swept {
        let swept = self.sweep();
        assert!(swept.answer.is_ok(), "{:?}: {:?}", self.settings, swept.answer);
        self.work_is_zero(&swept);
        swept
    }

    #[track_caller]
    pub fn work_is_zero(&self, swept: &Swept) {
        let largest = self.begins.windows(2).map(|w| w[1] - w[0]).max().unwrap_or(0);
        let wanted = lent::sizes(&self.settings, u64::from(largest)).unwrap().work;
        assert!(swept.work[..wanted].iter().all(|&w| w == 0), "work is not zero");
        assert!(swept.work[wanted..].iter().all(|&w| w == WORD), "work beyond W was written");
    }
}

/// Numbers that are spread like hashes (splitmix64).
pub struct Random(pub u64);

impl Random {
    pub fn next(&mut self) -> u64 {
        self.0 = self.0.wrapping_add(0x9E37_79B9_7F4A_7C15);
        let mut z = self.0;
        z = (z ^ (z >> 30)).wrapping_mul(0xBF58_476D_1CE4_E5B9);
        z = (z ^ (z >> 27)).wrapping_mul(0x94D0_49BB_1331_11EB);
        z ^ (z >> 31)
    }

    pub fn from_to(&mut self, least: u64, most: u64) -> u64 {
        least + self.next() % (most - least + 1)
    }

    pub fn shuffle<T>(&mut self, list: &mut [T]) {
        for i in (1..list.len()).rev() {
            list.swap(i, self.from_to(0, i as u64) as usize);
        }
    }
}
