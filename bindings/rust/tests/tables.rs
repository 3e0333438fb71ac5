//! Logarithm tables: their entries, their lengths, and 21.

use phastr::{Error, LOG_ENTRIES, house_table, lent, log_table};

/// What stands in lent memory before a call.
const KEPT: u32 = 0xA5A5_A5A5;

/// Fills a table of so many entries that stands in front of one more; answers what came back and all of it.
fn filled(entries: usize) -> (Result<(), Error>, Vec<u32>) {
    let mut memory = vec![KEPT; entries + 1];
    let answer = lent::log_table(&mut memory[..entries]);
    (answer, memory)
}

#[test]
fn other_lengths_are_refused_and_nothing_is_written() {
    for entries in [0, LOG_ENTRIES + 1, LOG_ENTRIES + 2, 2 * LOG_ENTRIES, 1 << 22] {
        let (answer, memory) = filled(entries);
        assert_eq!(answer, Err(Error::TableLength), "{entries}");
        assert!(memory.iter().all(|&word| word == KEPT), "{entries}: written");
        assert_eq!(log_table(entries), Err(Error::TableLength), "{entries}");
    }
    assert_eq!(log_table(usize::MAX), Err(Error::TableLength));
}

#[test]
fn each_length_is_the_front_of_the_longest_table() {
    let longest = log_table(LOG_ENTRIES).unwrap();
    for entries in [1, 2, 3, 2047, 2048, 2049, 65_536, LOG_ENTRIES - 1, LOG_ENTRIES] {
        let (answer, memory) = filled(entries);
        assert_eq!(answer, Ok(()), "{entries}");
        assert_eq!(memory[..entries], longest[..entries], "{entries}");
        assert_eq!(memory[entries], KEPT, "{entries}: written beyond the end");
        assert_eq!(log_table(entries).as_deref(), Ok(&longest[..entries]));
    }
    assert_eq!(longest[..2048], house_table()[..]);
}

#[test]
fn the_longest_table() {
    let table = log_table(LOG_ENTRIES).unwrap();
    assert_eq!([table[0], table[1], table[131_071]], [0, 0, 285_212_487]);
    assert_eq!([table[2049], table[3000], table[65_535]], [184_561_192, 193_789_374, 268_435_087]);
    for k in 0..17 {
        assert_eq!(table[1 << k], k << 24);
    }
    assert!(table.windows(2).skip(1).all(|pair| pair[0] < pair[1]));
    for d in 1..LOG_ENTRIES / 2 {
        assert_eq!(table[2 * d], table[d] + (1 << 24));
    }
}
