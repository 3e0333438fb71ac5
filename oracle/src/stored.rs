//! The cases that crates/replay stores: few enough to keep, small enough to be read in seconds, of
//! every setting and of every shape but families of 10^5 keys.

use crate::cases::{self, Setting};
use crate::{Case, figures, named, text};
use std::collections::HashSet;

/// The most slots and keys of the random cases, of those chosen for what they are, and of the named.
const SMALL: usize = 130;
const MIDDLE: usize = 1000;
const LARGE: usize = 70_000;

/// How many cases have rings of more than a word, which small levels have not.
const LONG_RINGS: usize = 150;

fn size(case: &Case) -> usize {
    case.settings.m.max(case.hashes.len())
}

fn setting(case: &Case) -> Setting {
    let s = &case.settings;
    (s.log2_slice_len, s.log2_layouts, s.seed_bits)
}

/// The small ones of some thousand random cases, some with longer rings, one of each setting that all
/// these do not have, and the named ones but for the families. No case stands twice.
pub fn all(seed: u64) -> Vec<Case> {
    let small = cases::small(seed ^ 2, 5200).filter(|case| size(case) <= SMALL);
    let mut chosen: Vec<Case> = small.collect();
    let others: Vec<Case> = cases::small(seed ^ 3, 30_000)
        .filter(|case| size(case) <= MIDDLE && case.hashes.len() > 5)
        .collect();
    let long = others.iter().filter(|case| figures(&case.settings).ring_len > 64);
    chosen.extend(long.take(LONG_RINGS).cloned());
    let mut met: HashSet<Setting> = chosen.iter().map(setting).collect();
    chosen.extend(others.iter().filter(|case| met.insert(setting(case))).cloned());
    let named = named::all(seed ^ 1).into_iter().map(|(_, case)| case);
    chosen.extend(named.filter(|case| size(case) <= LARGE));
    let mut seen = HashSet::new();
    chosen.retain(|case| seen.insert(text::case(case)));
    chosen
}
