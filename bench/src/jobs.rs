//! What is measured: a job of ours and the same job of the Rust, on one family of keys.

use compare::{input, settings};
use oracle::{Case, log2_table, lookups};
use phastr::lent::{self, Finished, Output};
use phastr::{BUMPED, Counts, Error};
use std::hint::black_box;

#[derive(Clone, Copy, Debug, PartialEq, Eq)]
pub enum Job {
    /// One sweep, checks included.
    Sweep,
    /// The checks of a sweep alone: work is a word short, so 13 refuses it once all others have passed.
    Checks,
    /// All holes of the swept level.
    Holes,
    /// All keys looked up, in one call.
    Lookups,
    /// All keys looked up, a call for each.
    Single,
    /// The swept level checked.
    Check,
}

impl Job {
    /// Whether the Rust has this job to itself.
    pub fn of_both(self) -> bool {
        !matches!(self, Job::Checks | Job::Check)
    }
}

pub const JOBS: [(&str, Job); 6] = [
    ("sweep", Job::Sweep),
    ("checks", Job::Checks),
    ("holes", Job::Holes),
    ("lookups", Job::Lookups),
    ("single", Job::Single),
    ("check", Job::Check),
];

/// A family of keys and all that both sides need. Our buffers hold what the last job left in them; the
/// Rust makes its own in each sweep.
pub struct Bench {
    case: Case,
    table: Vec<u32>,
    seeds: Vec<u16>,
    bitmap: Vec<u64>,
    work: Vec<u64>,
    holes: Vec<u32>,
    slots: Vec<u64>,
    scratch: Vec<u64>,
    found: Vec<Option<usize>>,
}

impl Bench {
    /// The buffers, and the level that all but sweeps are about.
    pub fn new(case: Case, job: Job) -> Bench {
        let sizes = lent::sizes(&settings(&case), case.largest() as u64).expect("good settings");
        let keys = case.hashes.len();
        let mut bench = Bench {
            table: log2_table(sizes.table),
            seeds: vec![0; case.settings.buckets],
            bitmap: vec![0; sizes.bitmap],
            work: vec![0; sizes.work],
            holes: vec![0; case.settings.m],
            slots: vec![0; keys],
            scratch: vec![0; sizes.bitmap],
            found: vec![None; keys],
            case,
        };
        if !matches!(job, Job::Sweep | Job::Checks) {
            bench.sweep(sizes.work).expect("a sweep that may bump");
        }
        bench
    }

    fn sweep(&mut self, words: usize) -> Result<Counts, Error> {
        let input = input(&self.case, &self.table);
        let (seeds, bitmap) = (&mut self.seeds[..], &mut self.bitmap[..]);
        lent::sweep(&input, Output { seeds, bitmap, work: &mut self.work[..words] })
    }

    fn check(&mut self) -> Result<(), Error> {
        let (hashes, begins) = (&self.case.hashes[..], &self.case.begins[..]);
        let (seeds, bitmap) = (&self.seeds[..], &self.bitmap[..]);
        let level = Finished { settings: settings(&self.case), hashes, begins, seeds, bitmap };
        lent::check(&level, &mut self.scratch)
    }

    /// Our side of a job.
    pub fn ours(&mut self, job: Job) {
        let words = self.work.len();
        let s = settings(&self.case);
        match job {
            Job::Sweep => assert!(black_box(self.sweep(words)).is_ok()),
            Job::Checks => assert_eq!(self.sweep(words - 1).unwrap_err().number(), 13),
            Job::Holes => {
                black_box(lent::holes(s.slots, &self.bitmap, &mut self.holes)).unwrap();
            }
            Job::Lookups => {
                lent::lookup_all(&s, &self.seeds, &self.case.hashes, &mut self.slots).unwrap();
            }
            Job::Check => black_box(self.check()).unwrap(),
            Job::Single => {
                for (slot, &hash) in self.slots.iter_mut().zip(&self.case.hashes) {
                    *slot = lent::lookup(&s, &self.seeds, hash).unwrap().unwrap_or(BUMPED);
                }
            }
        }
    }

    /// The Rust's side of a job, where it has one.
    pub fn rust(&mut self, job: Job) {
        let s = &self.case.settings;
        match job {
            Job::Sweep => assert!(black_box(oracle::swept(&self.case)).is_some()),
            Job::Checks | Job::Check => {}
            Job::Holes => {
                black_box(oracle::holes(&self.bitmap, s.m));
            }
            Job::Lookups | Job::Single => {
                lookups(s, &self.seeds, &self.case.hashes, &mut self.found);
            }
        }
    }

    /// Whether both sides of all jobs give the same.
    pub fn same(&mut self) -> bool {
        self.ours(Job::Sweep);
        self.ours(Job::Holes);
        self.rust(Job::Lookups);
        let (seeds, bitmap) = oracle::swept(&self.case).expect("a sweep that may bump");
        let holes = oracle::holes(&bitmap, self.case.settings.m);
        let listed = self.holes[..holes.len()].iter().map(|&hole| hole as usize);
        let level = seeds == self.seeds && *bitmap == self.bitmap[..] && listed.eq(holes);
        let looked = |bench: &Bench| {
            let rust = bench.found.iter().map(|slot| slot.map_or(BUMPED, |slot| slot as u64));
            rust.eq(bench.slots.iter().copied())
        };
        level
            && [Job::Lookups, Job::Single].into_iter().all(|job| {
                self.slots.fill(0);
                self.ours(job);
                looked(self)
            })
    }
}
