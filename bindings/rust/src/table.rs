//! Logarithm tables to lend to a sweep.

use crate::{Error, lent, raw};

/// The entries of the house table.
pub const HOUSE_ENTRIES: usize = 2048;

/// The entries of the longest table that is made.
pub const LOG_ENTRIES: usize = 131_072;

/// The house table: entry d is 2^24·log2 d, rounded to nearest, and entry 0 is 0.
///
/// ```
/// let table = phastr::house_table();
/// assert_eq!([table[0], table[1], table[2], table[2047]], [0, 0, 1 << 24, 184_537_555]);
/// ```
pub fn house_table() -> Box<[u32; HOUSE_ENTRIES]> {
    let mut table = Box::new([0; HOUSE_ENTRIES]);
    raw::house_table(&mut table);
    table
}

/// A table of 1 to [`LOG_ENTRIES`] entries by the same rule, in whole numbers, for settings that want
/// more than the house table has (slices of 2,048 slots do).
///
/// # Errors
///
/// [`Error::TableLength`].
///
/// # Examples
///
/// ```
/// let table = phastr::log_table(4097)?;
/// assert_eq!(table[..2048], phastr::house_table()[..]);
/// assert_eq!(table[4096], 12 << 24);
/// assert_eq!(phastr::log_table(131_073), Err(phastr::Error::TableLength));
/// # Ok::<(), phastr::Error>(())
/// ```
pub fn log_table(entries: usize) -> Result<Vec<u32>, Error> {
    // No memory for a table that is refused: any length beyond the limit stands for all of them.
    let mut table = vec![0; entries.min(LOG_ENTRIES + 1)];
    lent::log_table(&mut table)?;
    Ok(table)
}
