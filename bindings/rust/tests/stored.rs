//! The Rust's stored answers (crates/replay/stdin), held to sweeps through this crate, and its levels
//! checked: a differential run that needs no Rust at hand. oracle/README.md has the file's form.

use phastr::lent::{self, Finished, Input, Output};
use phastr::{Error, How, Settings};

/// House numbers: groups of seven bits, low group first, top bit set while more follow.
struct Numbers<'a>(std::slice::Iter<'a, u8>);

impl Numbers<'_> {
    fn next(&mut self) -> u64 {
        let (mut value, mut shift) = (0, 0);
        loop {
            let byte = *self.0.next().expect("the file is whole");
            value |= u64::from(byte & 127) << shift;
            if byte < 128 {
                return value;
            }
            shift += 7;
        }
    }

    /// A count and so many numbers.
    fn list(&mut self) -> Vec<u64> {
        let count = self.next();
        (0..count).map(|_| self.next()).collect()
    }

    /// The same, each number as its difference from the one before.
    fn rising(&mut self) -> Vec<u32> {
        let mut last = 0;
        self.list()
            .into_iter()
            .map(|more| {
                last += more as u32;
                last
            })
            .collect()
    }

    fn weight(&mut self) -> i64 {
        let n = self.next();
        (n >> 1) as i64 ^ -((n & 1) as i64)
    }
}

/// Sweeps the next case and holds it to the answer that follows.
fn hold(numbers: &mut Numbers, table: &[u32]) {
    let [slots, slice, layouts, bits, bump] = std::array::from_fn(|_| numbers.next());
    let weights = std::array::from_fn(|_| numbers.weight());
    let buckets = numbers.next();
    let (mut begins, mut hashes, mut largest) = (vec![0], vec![], 0);
    for _ in 0..buckets {
        let keys = numbers.list();
        largest = largest.max(keys.len() as u64);
        hashes.extend(keys);
        begins.push(hashes.len() as u32);
    }
    let (log2_slice_len, log2_layouts, seed_bits) = (slice as u32, layouts as u32, bits as u32);
    let settings = Settings { slots, log2_slice_len, log2_layouts, seed_bits, buckets };
    let sizes = lent::sizes(&settings, largest).expect("settings that are taken");
    let (mut seeds, mut bitmap) = (vec![7; buckets as usize], vec![7; sizes.bitmap]);
    let mut work = vec![7; sizes.work];
    let how = How { bump: bump == 1, chunks: 1 };
    let input = Input { settings, weights, how, hashes: &hashes, begins: &begins, table };
    let output = Output { seeds: &mut seeds, bitmap: &mut bitmap, work: &mut work };
    let answer = lent::sweep(&input, output);
    if numbers.next() == 14 {
        assert_eq!(answer, Err(Error::NoSeed { bucket: numbers.next() }));
        return;
    }
    let counts = answer.expect("a sweep that the Rust finishes");
    assert_eq!(seeds.iter().map(|&seed| u64::from(seed)).collect::<Vec<_>>(), numbers.list());
    assert_eq!(bitmap, numbers.list());
    let mut holes = vec![0; (slots - counts.placed) as usize];
    assert_eq!(lent::holes(slots, &bitmap, &mut holes), Ok(holes.len()));
    assert_eq!(holes, numbers.rising());
    let level =
        Finished { settings, hashes: &hashes, begins: &begins, seeds: &seeds, bitmap: &bitmap };
    let mut scratch = vec![7; sizes.bitmap];
    assert_eq!(lent::check(&level, &mut scratch), Ok(()));
    assert!(scratch.iter().all(|&word| word == 0));
}

#[test]
fn stored_answers_of_the_rust() {
    let path = concat!(env!("CARGO_MANIFEST_DIR"), "/../../crates/replay/stdin");
    let bytes = std::fs::read(path).expect("crates/replay/stdin");
    let mut numbers = Numbers(bytes.iter());
    let table = numbers.rising();
    let count = numbers.next();
    assert!(count > 3000, "some thousand cases");
    for _ in 0..count {
        hold(&mut numbers, &table);
    }
    assert!(numbers.0.next().is_none(), "nothing is left over");
}
