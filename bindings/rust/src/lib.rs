//! PHastR's sweep of one level, proved in Rattle, for Rust.
//!
//! PHastR is a minimal perfect hash function. It is built in levels, and this crate makes one: the
//! keys' 64-bit hashes fall into buckets, and each bucket gets the seed that puts its keys on free
//! slots at the least cost. A bucket that no seed fits is *bumped*, its keys being left to another
//! level; slots that no key took are *holes*.
//!
//! ```
//! use phastr::Builder;
//!
//! // Any distinct hashes will do; those of a good hash function spread evenly.
//! let hashes: Vec<u64> = (1..=1000u64).map(|i| i.wrapping_mul(0x9E37_79B9_7F4A_7C15)).collect();
//! let level = Builder::new().sweep(hashes.clone())?;
//!
//! let mut taken = vec![false; 1000];
//! for &hash in &hashes {
//!     match level.lookup(hash) {
//!         Some(slot) => assert!(!std::mem::replace(&mut taken[slot as usize], true)),
//!         None => {} // bumped: a key of the next level
//!     }
//! }
//! let counts = level.counts().expect("the level was swept here");
//! assert_eq!(counts.placed + level.holes().len() as u64, 1000);
//! # Ok::<(), phastr::Error>(())
//! ```
//!
//! [`Builder`] and [`Level`] own their memory. [`lent`] has the same calls over memory of the
//! caller, for those who sweep often. Whatever is handed to a call, it comes back: with an answer,
//! or with an [`Error`]; docs/RULES.md of the project has the rules of a level, and each error with
//! what to do about it.
//!
//! # Bumped keys
//!
//! One level leaves a few keys without a slot. [`Level::bumped`] says which; they go to a further
//! level under **new hashes**, by a salt of that level's own, and so on until none is left. Under the
//! same hashes they would fall together as before. The few keys of a last level want more slots than
//! keys (`n + n / 4 + 16`) and a bucket size of 3. The example `lines` does all this:
//!
//! ```text
//! printf '%s\\n' anna bert carl | cargo run --example lines
//! ```

#![deny(missing_docs, unsafe_op_in_unsafe_fn)]

mod builder;
mod error;
mod groups;
pub mod lent;
mod level;
mod raw;
mod settings;
mod table;

pub use builder::Builder;
pub use error::Error;
pub use groups::Groups;
pub use level::{Holes, Level, check_level};
pub use settings::{How, Settings, default_weights};
pub use table::{HOUSE_ENTRIES, LOG_ENTRIES, house_table, log_table};

/// What a slot is where a key's bucket was bumped, in the calls that fill a slice of slots.
pub const BUMPED: u64 = u64::MAX;

/// What a sweep did with its keys.
#[derive(Clone, Copy, Debug, Default, PartialEq, Eq, Hash)]
pub struct Counts {
    /// Keys that got a slot: those of buckets with a nonzero seed.
    pub placed: u64,
    /// The other keys.
    pub bumped: u64,
    /// Buckets of seed 0. Empty buckets are among them.
    pub zero: u64,
}
