//! A case through the binding, and its comparison.

use crate::rust::{Level, SINGLE, Wanted};
use crate::tally::Tally;
use compare::{input, settings};
use oracle::{Case, log2_table};
use phastr::lent::{self, Finished, Output};
use phastr::{BUMPED, Builder, Counts, Error};

/// The entries of the longest table that any settings ask for.
const LONGEST_TABLE: usize = 95 + 4097 + 65_536;

/// What stands in lent memory where the last case has left nothing.
const RUBBISH: u64 = 0xA5A5_A5A5_A5A5_A5A5;

/// Lent memory, used again from case to case.
pub struct Ours {
    /// The Rust's own logarithm table.
    table: Vec<u32>,
    seeds: Vec<u16>,
    bitmap: Vec<u64>,
    work: Vec<u64>,
    holes: Vec<u32>,
    slots: Vec<u64>,
    scratch: Vec<u64>,
}

impl Ours {
    pub fn new() -> Ours {
        Ours {
            table: log2_table(LONGEST_TABLE),
            seeds: vec![],
            bitmap: vec![],
            work: vec![],
            holes: vec![],
            slots: vec![],
            scratch: vec![],
        }
    }

    /// Sweeps a case and holds all that comes out to the Rust's.
    pub fn compare(&mut self, case: &Case, wanted: &Wanted, tally: &mut Tally) {
        tally.cases += 1;
        tally.keys += case.hashes.len() as u64;
        match (self.sweep(case), wanted) {
            (Ok(counts), Wanted::Done(level)) => self.compare_level(case, counts, level, tally),
            (Err(Error::NoSeed { bucket }), &Wanted::Stopped(wanted)) => {
                tally.stopped += 1;
                tally.same("the bucket of 14", bucket, wanted);
                let zero =
                    self.seeds.iter().all(|&s| s == 0) && self.bitmap.iter().all(|&w| w == 0);
                tally.same("zeros after 14", zero, true);
            }
            (ours, rust) => {
                let stopped = match rust {
                    Wanted::Stopped(bucket) => Err(Error::NoSeed { bucket: *bucket }),
                    Wanted::Done(level) => Ok(counts_of(level)),
                };
                tally.same("outcome", ours, stopped);
            }
        }
        tally.same("zeros in work", self.work.iter().all(|&w| w == 0), true);
    }

    /// Checks the Rust's level of a case, which must be accepted.
    pub fn check(&mut self, case: &Case, seeds: &[u16], bitmap: &[u64], tally: &mut Tally) {
        self.scratch.resize(bitmap.len(), RUBBISH);
        let (hashes, begins) = (&case.hashes[..], &case.begins[..]);
        let level = Finished { settings: settings(case), hashes, begins, seeds, bitmap };
        let answer = lent::check(&level, &mut self.scratch);
        tally.same("check of the Rust's level", answer, Ok(()));
        tally.same("zeros in scratch", self.scratch.iter().all(|&w| w == 0), true);
    }

    fn sweep(&mut self, case: &Case) -> Result<Counts, Error> {
        let settings = settings(case);
        let sizes = lent::sizes(&settings, case.largest() as u64)?;
        self.seeds.resize(case.settings.buckets, RUBBISH as u16);
        self.bitmap.resize(sizes.bitmap, RUBBISH);
        self.work.clear();
        self.work.resize(sizes.work, RUBBISH);
        let input = input(case, &self.table);
        let output =
            Output { seeds: &mut self.seeds, bitmap: &mut self.bitmap, work: &mut self.work };
        lent::sweep(&input, output)
    }

    fn compare_level(&mut self, case: &Case, counts: Counts, wanted: &Level, tally: &mut Tally) {
        tally.all_same("counts", &counts_in(counts), &wanted.counts);
        tally.all_same("seeds", &self.seeds, &wanted.seeds);
        tally.all_same("bitmap", &self.bitmap, &wanted.bitmap);
        self.holes.resize(case.settings.m, 0);
        let count = lent::holes(case.settings.m as u64, &self.bitmap, &mut self.holes);
        tally.all_same("holes", &self.holes[..count.unwrap_or(0)], &wanted.holes);
        let settings = settings(case);
        self.slots.resize(case.hashes.len(), 0);
        let looked = lent::lookup_all(&settings, &self.seeds, &case.hashes, &mut self.slots);
        tally.same("lookup of all", looked, Ok(()));
        tally.all_same("slots", &self.slots, &wanted.slots);
        let single = |&hash: &u64| lent::lookup(&settings, &self.seeds, hash);
        let singles: Result<Vec<Option<u64>>, Error> =
            case.hashes.iter().step_by(SINGLE).map(single).collect();
        let singles: Vec<u64> =
            singles.unwrap_or_default().into_iter().map(|slot| slot.unwrap_or(BUMPED)).collect();
        tally.all_same("single slots", &singles, &wanted.singles);
    }
}

/// A family at the default weights, from its hashes out of order, through the calls that own their memory.
pub fn compare_owned(case: &Case, bucket_size: f64, wanted: &Wanted, tally: &mut Tally) {
    let Wanted::Done(wanted) = wanted else { unreachable!("a family may bump") };
    let s = &case.settings;
    let builder = Builder::new()
        .seed_bits(s.seed_bits)
        .log2_layouts(s.log2_layouts)
        .log2_slice_len(s.log2_slice_len)
        .bucket_size(bucket_size)
        .slots(s.m as u64)
        .chunks(case.chunks as u64);
    let backwards = case.hashes.iter().rev().copied().collect();
    let level = builder.sweep(backwards).expect("a family lies in the domain");
    tally.cases += 1;
    tally.keys += case.hashes.len() as u64;
    tally.same("settings", level.settings(), settings(case));
    tally.all_same(
        "counts",
        &counts_in(level.counts().expect("the level was swept")),
        &wanted.counts,
    );
    tally.all_same("seeds", level.seeds(), &wanted.seeds);
    tally.all_same("bitmap", level.bitmap(), &wanted.bitmap);
    let holes: Vec<u32> = level.holes().map(|hole| u32::try_from(hole).expect("below m")).collect();
    tally.all_same("holes", &holes, &wanted.holes);
    let slots: Vec<u64> =
        level.lookup_all(&case.hashes).into_iter().map(|slot| slot.unwrap_or(BUMPED)).collect();
    tally.all_same("slots", &slots, &wanted.slots);
}

fn counts_in(counts: Counts) -> [u64; 3] {
    [counts.placed, counts.bumped, counts.zero]
}

fn counts_of(level: &Level) -> Counts {
    let [placed, bumped, zero] = level.counts;
    Counts { placed, bumped, zero }
}
