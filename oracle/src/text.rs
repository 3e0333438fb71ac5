//! Cases and answers as text (README.md has the form).

use crate::{Case, Outcome, Settings};
use std::fmt::Write;

fn numbers<T: std::fmt::Display>(word: &str, values: &[T]) -> String {
    let mut line = word.to_string();
    for v in values {
        write!(line, " {v}").unwrap();
    }
    line.push('\n');
    line
}

pub fn case(c: &Case) -> String {
    let s = &c.settings;
    let head = [
        s.m,
        s.log2_slice_len as usize,
        s.log2_layouts as usize,
        s.seed_bits as usize,
        s.buckets,
        c.bump as usize,
    ];
    numbers("case", &head)
        + &numbers("weights", &c.weights)
        + &numbers("sizes", &c.sizes())
        + &numbers("hashes", &c.hashes)
}

pub fn outcome(o: &Outcome) -> String {
    match o {
        Outcome::Stopped(b) => numbers("none", &[*b]),
        Outcome::Done(a) => {
            numbers("seeds", &a.seeds) + &numbers("bitmap", &a.bitmap) + &numbers("holes", &a.holes)
        }
    }
}

/// Takes the next line, which must start with the word, apart into numbers.
fn line<'a, T: std::str::FromStr>(
    lines: &mut impl Iterator<Item = &'a str>,
    word: &str,
) -> Result<Vec<T>, String> {
    let text = lines.next().ok_or(format!("a line '{word} ..' is missing"))?;
    let mut words = text.split_whitespace();
    if words.next() != Some(word) {
        return Err(format!("expected a line '{word} ..', not '{text}'"));
    }
    words.map(|w| w.parse().map_err(|_| format!("'{w}' is not a number for '{word}'"))).collect()
}

/// Reads cases, one after another. Empty lines and lines that start with # are passed over.
pub fn read(text: &str) -> Result<Vec<Case>, String> {
    let mut lines = text.lines().filter(|l| !l.trim().is_empty() && !l.starts_with('#')).peekable();
    let mut cases = vec![];
    while lines.peek().is_some() {
        let head: Vec<usize> = line(&mut lines, "case")?;
        let &[m, log2_slice_len, log2_layouts, seed_bits, buckets, bump @ (0 | 1)] = &head[..]
        else {
            return Err("expected 'case M LOG2_SLICE_LEN LL SB B BUMP', BUMP 0 or 1".to_string());
        };
        let small = |x: usize| u32::try_from(x).unwrap_or(u32::MAX);
        let settings = Settings {
            m,
            log2_slice_len: small(log2_slice_len),
            log2_layouts: small(log2_layouts),
            seed_bits: small(seed_bits),
            buckets,
        };
        let weights: Vec<i64> = line(&mut lines, "weights")?;
        let weights: [i64; 7] = weights.try_into().map_err(|_| "expected seven weights")?;
        let sizes: Vec<u32> = line(&mut lines, "sizes")?;
        let hashes: Vec<u64> = line(&mut lines, "hashes")?;
        let mut begins = vec![0u32];
        for size in sizes {
            let end = begins[begins.len() - 1].checked_add(size);
            begins.push(end.ok_or("the sizes add up to more than 32 bits")?);
        }
        cases.push(Case { settings, bump: bump == 1, chunks: 1, weights, begins, hashes });
    }
    Ok(cases)
}
