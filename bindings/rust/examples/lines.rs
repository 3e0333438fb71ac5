//! Gives each line of standard input a level and a slot of its own there.
//!
//!     printf '%s\n' anna bert carl | cargo run --example lines
//!
//! It prints `LEVEL SLOT LINE` for each, in order of the lines, and on standard error what each level did.
//! What one level bumps goes to the next, under new hashes.

use phastr::Builder;
use std::collections::HashSet;
use std::error::Error;
use std::io::{self, BufWriter, Write};

/// More levels than any lines need that differ.
const LEVELS: u64 = 64;

/// So many keys and fewer are given room to spare.
const FEW: usize = 4096;

/// A 64-bit hash of a line, another one for each salt: FNV-1a, mixed so that its high bits vary too.
fn hash(line: &str, salt: u64) -> u64 {
    let start = salt.wrapping_mul(0x9E37_79B9_7F4A_7C15) ^ 0xCBF2_9CE4_8422_2325;
    let x = line.bytes().fold(start, |x, b| (x ^ u64::from(b)).wrapping_mul(0x100_0000_01B3));
    let x = (x ^ (x >> 32)).wrapping_mul(0xD6E8_FEB8_6659_FD93);
    let x = (x ^ (x >> 32)).wrapping_mul(0xD6E8_FEB8_6659_FD93);
    x ^ (x >> 32)
}

/// PHastR's defaults; and for the few keys that are left in the end, a level with room to spare. As many
/// slots as keys would bump some again and again.
fn builder(level: u64, keys: usize) -> Builder {
    if level == 0 || keys > FEW {
        return Builder::new();
    }
    Builder::new().bucket_size(3.0).slots((keys + keys / 4 + 16) as u64)
}

/// The level and slot of each line.
fn place(lines: &[String]) -> Result<Vec<(u64, u64)>, Box<dyn Error>> {
    let mut places = vec![(0, 0); lines.len()];
    let mut left: Vec<usize> = (0..lines.len()).collect();
    for salt in 0..LEVELS {
        if left.is_empty() {
            return Ok(places);
        }
        let hashes: Vec<u64> = left.iter().map(|&at| hash(&lines[at], salt)).collect();
        let level = builder(salt, left.len()).sweep(hashes.clone())?;
        for (&at, slot) in left.iter().zip(level.lookup_all(&hashes)) {
            if let Some(slot) = slot {
                places[at] = (salt, slot);
            }
        }
        let bumped = level.bumped(&hashes);
        eprintln!("level {salt}: {} keys, {} bumped", left.len(), bumped.len());
        left = bumped.into_iter().map(|i| left[i]).collect();
    }
    Err(format!("{} lines are left after {LEVELS} levels", left.len()).into())
}

fn main() -> Result<(), Box<dyn Error>> {
    let lines = io::stdin().lines().collect::<Result<Vec<_>, _>>()?;
    let mut seen = HashSet::new();
    if let Some(line) = lines.iter().find(|line| !seen.insert(*line)) {
        return Err(format!("a line is there twice: {line}").into());
    }
    let mut out = BufWriter::new(io::stdout().lock());
    for ((level, slot), line) in place(&lines)?.into_iter().zip(&lines) {
        writeln!(out, "{level} {slot} {line}")?;
    }
    out.flush()?;
    Ok(())
}

#[cfg(test)]
mod tests {
    use super::*;

    #[test]
    fn every_line_has_a_place_of_its_own() {
        let lines: Vec<String> = (0..20_000).map(|i| format!("line {i}")).collect();
        let places = place(&lines).unwrap();
        let distinct: HashSet<_> = places.iter().collect();
        assert_eq!(distinct.len(), lines.len());
        assert!(places.iter().any(|&(level, _)| level == 1));
        assert!(places.iter().all(|&(level, _)| level < 5));
    }

    #[test]
    fn few_lines() {
        assert_eq!(place(&[]).unwrap(), []);
        for count in 1..=100 {
            let lines: Vec<String> = (0..count).map(|i| format!("{i}")).collect();
            let places = place(&lines).unwrap();
            assert_eq!(places.iter().collect::<HashSet<_>>().len(), count);
        }
        assert_eq!(place(&["only".into()]).unwrap(), [(0, 0)]);
    }

    #[test]
    fn the_same_line_twice_is_never_placed() {
        let error = place(&["twin".into(), "twin".into()]).unwrap_err();
        assert_eq!(error.to_string(), "2 lines are left after 64 levels");
    }
}
