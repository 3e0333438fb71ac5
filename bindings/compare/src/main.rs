//! Sweeps through the Rust binding, held to PHastR's own sweep on the same cases, whose levels are checked too.
//!
//!     compare [SEED]             every setting, the named cases, 20,000 small ones, families of 10^5 and 10^6 keys and of
//!                                long slices, and some sweeps in chunks
//!     compare chunks [SEED]      sweeps in 2 to 64 chunks: each limit of the chunk count, 200 families, 10^6 keys
//!     compare long [SEED]        10^6 small cases and a family of 10^7 keys
//!     compare changed KIND       every setting, with one number of the Rust's changed: one difference must be found
//!
//! A SEED of the cases is a number, or 'fixed'. The last line is 'N compared, M differ', and the
//! exit status is 0 only if nothing differs.

mod change;
mod numbers;
mod ours;
mod rust;
mod tally;

use change::Change;
use oracle::{Case, cases, chunked};
use ours::Ours;
use rust::Wanted;
use std::process::ExitCode;
use std::time::Instant;
use tally::Tally;

/// How many small cases a short and a long run take.
const SMALL: usize = 20_000;
const SMALL_LONG: usize = 1_000_000;

/// PHastR's defaults, and seeds of 10 bits on slices of 2,048 with the bucket size they are tuned for.
const FAMILIES: [(cases::Setting, f64); 2] = [(cases::DEFAULT, 4.25), ((11, 2, 10), 5.75)];

/// The slices that want a longer table than the house table, by their logarithm, and a family's keys for them: more than
/// the longest slice has slots.
const LONG_SLICES: std::ops::RangeInclusive<u32> = 11..=16;
const LONG_SLICES_KEYS: usize = 150_000;

/// A run: the seed of its cases, the memory it lends, what it found, what is still to be changed.
struct Run {
    seed: u64,
    ours: Ours,
    tally: Tally,
    change: Change,
}

impl Run {
    fn new(seed: u64, change: Change) -> Run {
        Run { seed, ours: Ours::new(), tally: Tally::default(), change }
    }

    /// Compares some cases and says how many there were.
    fn compare(&mut self, what: &str, cases: impl Iterator<Item = Case>) {
        let (began, before) = (Instant::now(), self.tally);
        for case in cases {
            let mut wanted = rust::answer(&case);
            if let Wanted::Done(level) = &wanted {
                let marked = self.change.marked(level);
                self.ours.check(&case, &level.seeds, &marked, &mut self.tally);
            }
            self.change.make(&mut wanted);
            self.ours.compare(&case, &wanted, &mut self.tally);
        }
        self.tally.since(&before).say(what, began.elapsed());
    }

    /// A family of so many keys.
    fn family(&mut self, keys: usize, (setting, size): (cases::Setting, f64)) {
        let case = cases::family_of(self.seed, keys, keys, size, setting);
        let what = format!("family of {keys} keys, slices of 2^{}, sb {}", setting.0, setting.2);
        self.owned(&what, case, size);
    }

    /// A family, once more through the calls that own their memory.
    fn owned(&mut self, what: &str, case: Case, size: f64) {
        self.compare(what, std::iter::once(case.clone()));
        let (began, before) = (Instant::now(), self.tally);
        ours::compare_owned(&case, size, &rust::answer(&case), &mut self.tally);
        self.tally.since(&before).say(&format!("{what}, owned"), began.elapsed());
    }

    /// What the binding works out beside sweeps.
    fn numbers(&mut self) {
        let (began, before) = (Instant::now(), self.tally);
        numbers::compare(self.seed ^ 3, &mut self.tally);
        self.tally.since(&before).say("weights, table, bucket counts", began.elapsed());
    }

    fn short(&mut self) {
        self.numbers();
        self.compare("every setting", cases::every_setting(self.seed).into_iter());
        let named = oracle::named::all(self.seed ^ 1).into_iter().map(|(_, case)| case);
        self.compare("named", named);
        self.compare("small", cases::small(self.seed ^ 2, SMALL));
        for keys in [100_000, 1_000_000] {
            FAMILIES.into_iter().for_each(|family| self.family(keys, family));
        }
        for log2_slice_len in LONG_SLICES {
            self.family(LONG_SLICES_KEYS, ((log2_slice_len, 2, 8), 4.25));
        }
        self.split("in chunks", chunked::cases(self.seed ^ 4, chunked::few_plans()));
    }

    /// A million keys at the defaults, on so many slots, in at most so many chunks.
    fn million(&mut self, slots: usize, chunks: usize) {
        let case = chunked::million(self.seed, slots, chunks);
        let made = oracle::chunks(&case.settings, chunks);
        self.owned(&format!("10^6 keys on {slots} slots, in {made} chunks"), case, 4.25);
    }

    fn chunks(&mut self) {
        let limits = chunked::cases(self.seed ^ 4, chunked::plans());
        self.split("limits of the chunk count", limits);
        self.split("in chunks", chunked::families(self.seed ^ 5, 200));
        for (slots, chunks) in [(1_000_000, 16), (1_100_000, 16), (1_100_000, usize::MAX)] {
            self.million(slots, chunks);
        }
    }

    /// Compares cases and says how many of them were split.
    fn split(&mut self, what: &str, cases: impl Iterator<Item = Case>) {
        let mut count = 0;
        let splits = |case: &Case| oracle::chunks(&case.settings, case.chunks) > 1;
        self.compare(what, cases.inspect(|case| count += usize::from(splits(case))));
        println!("{what}: {count} were split");
    }

    fn long(&mut self) {
        self.compare("small", cases::small(self.seed ^ 2, SMALL_LONG));
        self.family(10_000_000, FAMILIES[0]);
    }
}

fn seed(word: Option<&str>) -> Result<u64, String> {
    let word = word.unwrap_or("fixed");
    cases::seed(word).ok_or(format!("the seed '{word}' is neither a number nor 'fixed'"))
}

fn run(words: &[&str]) -> Result<Tally, String> {
    let mut run;
    match words {
        ["changed", kind] => {
            let change = Change::of(kind).ok_or(format!("there is no kind '{kind}' of numbers"))?;
            run = Run::new(seed(None)?, change);
            run.compare("every setting", cases::every_setting(run.seed).into_iter());
            if !run.change.made() {
                return Err(format!("no case has a number of kind '{kind}' to change"));
            }
        }
        ["chunks", rest @ ..] => {
            run = Run::new(seed(rest.first().copied())?, Change::None);
            run.chunks();
        }
        ["long", rest @ ..] => {
            run = Run::new(seed(rest.first().copied())?, Change::None);
            run.long();
        }
        _ => {
            run = Run::new(seed(words.first().copied())?, Change::None);
            run.short();
        }
    }
    Ok(run.tally)
}

fn main() -> ExitCode {
    let words: Vec<String> = std::env::args().skip(1).collect();
    let words: Vec<&str> = words.iter().map(String::as_str).collect();
    match run(&words) {
        Ok(tally) => {
            println!("{} compared, {} differ", tally.numbers, tally.differ);
            if tally.differ == 0 { ExitCode::SUCCESS } else { ExitCode::FAILURE }
        }
        Err(message) => {
            eprintln!("compare: {message}");
            ExitCode::FAILURE
        }
    }
}
