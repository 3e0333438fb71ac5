//! Cases and answers in house numbers (README.md has the form): groups of seven bits, low group
//! first, top bit set while more follow.

use crate::{Case, Outcome};

pub fn number(out: &mut Vec<u8>, mut x: u64) {
    while x >= 128 {
        out.push(x as u8 | 128);
        x >>= 7;
    }
    out.push(x as u8);
}

fn counted(out: &mut Vec<u8>, values: impl ExactSizeIterator<Item = u64>) {
    number(out, values.len() as u64);
    values.for_each(|x| number(out, x));
}

/// The input of the sweep list program.
pub fn case(out: &mut Vec<u8>, c: &Case) {
    let s = &c.settings;
    number(out, s.m as u64);
    number(out, s.log2_slice_len as u64);
    number(out, s.log2_layouts as u64);
    number(out, s.seed_bits as u64);
    number(out, c.bump as u64);
    for w in c.weights {
        number(out, ((w << 1) ^ (w >> 63)) as u64);
    }
    number(out, s.buckets as u64);
    for b in 0..s.buckets {
        counted(out, c.keys(b).iter().copied());
    }
}

/// 0 and the seeds, bitmap words and holes, each after its count, a hole as its difference from the
/// one before (from 0 for the first); or 14 and the bucket.
pub fn outcome(out: &mut Vec<u8>, o: &Outcome) {
    match o {
        Outcome::Stopped(b) => {
            number(out, 14);
            number(out, *b as u64);
        }
        Outcome::Done(a) => {
            number(out, 0);
            counted(out, a.seeds.iter().map(|&x| x as u64));
            counted(out, a.bitmap.iter().copied());
            rising(out, &a.holes);
        }
    }
}

/// Numbers that never fall, after their count, each as its difference from the one before.
pub fn rising(out: &mut Vec<u8>, values: &[u32]) {
    number(out, values.len() as u64);
    let mut before = 0;
    for &value in values {
        number(out, (value - before) as u64);
        before = value;
    }
}
