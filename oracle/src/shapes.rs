//! Which of the shapes that must be compared a case has.

use crate::naive::Turn;
use crate::{Case, Outcome, figures, naive, order, outcome};
use std::collections::BTreeMap;

/// Every shape that the generator owes.
pub const ALL: &[&str] = &[
    "n < 64",
    "n = 64",
    "n > 64",
    "n = 1",
    "n = R",
    "n < R",
    "m = 1",
    "m = 2",
    "m = 63",
    "m = 64",
    "m = 65",
    "m a power of two",
    "m one below a power of two",
    "m one above a power of two",
    "B = 1",
    "no keys",
    "slots beyond the ring",
    "p = 4096",
    "full slices",
    "short slices",
    "empty bucket first",
    "empty bucket last",
    "256 empty buckets in a row",
    "1,024 empty buckets in a row",
    "bucket of 63",
    "bucket of 64",
    "bucket of more than 64",
    "bucket of 4,096",
    "large bucket placed",
    "equal hashes",
    "hash at a bucket's low end",
    "hash at a bucket's high end",
    "weight 2^32",
    "weight -2^32",
    "weight held to 2^40",
    "weight held to -2^40",
    "tie",
    "tie across 1023 and 1024",
    "large tie across 1023 and 1024",
    "taken out of order",
    "large bucket waits",
    "large bucket goes ahead",
    "10^5 keys",
    "bumping forbidden and done",
    "bumping forbidden and stopped",
    "stopped after the first turn",
    "bucket bumped",
    "seed n·L",
    "at most 32 free",
    "more than 32 free",
    "none free",
    "cheapest collides and another fits",
    "cheapest collides and none fits, hashes unequal",
];

/// How often each shape was met, and each setting.
#[derive(Default)]
pub struct Met {
    pub shapes: BTreeMap<&'static str, usize>,
    pub settings: BTreeMap<(u32, u32, u32), usize>,
}

impl Met {
    fn note(&mut self, shape: &'static str, met: bool) {
        assert!(ALL.contains(&shape), "{shape} is not in the list of shapes");
        *self.shapes.entry(shape).or_default() += met as usize;
    }

    pub fn missing(&self) -> Vec<&'static str> {
        ALL.iter()
            .filter(|&shape| self.shapes.get(shape).is_none_or(|&n| n == 0))
            .copied()
            .collect()
    }

    /// Notes the shapes that show in a case's inputs and in the Rust's answer.
    pub fn note_case(&mut self, case: &Case) {
        let s = &case.settings;
        *self.settings.entry((s.log2_slice_len, s.log2_layouts, s.seed_bits)).or_default() += 1;
        self.note_settings(case);
        self.note_buckets(case);
        self.note_weights(case);
        self.note_order(case);
        self.note_answer(case);
        if naive::is_small(case) {
            self.note_turns(case, &naive::turns(case));
        }
    }

    fn note_settings(&mut self, case: &Case) {
        let s = &case.settings;
        let f = figures(s);
        let (n, m) = (f.ring_len, s.m);
        self.note("n < 64", n < 64);
        self.note("n = 64", n == 64);
        self.note("n > 64", n > 64);
        self.note("n = 1", n == 1);
        self.note("n = R", n == f.rotations);
        self.note("n < R", n < f.rotations);
        self.note("m = 1", m == 1);
        self.note("m = 2", m == 2);
        self.note("m = 63", m == 63);
        self.note("m = 64", m == 64);
        self.note("m = 65", m == 65);
        self.note("m a power of two", m > 65 && m.is_power_of_two());
        self.note("m one below a power of two", m > 65 && (m + 1).is_power_of_two());
        self.note("m one above a power of two", m > 65 && (m - 1).is_power_of_two());
        self.note("B = 1", s.buckets == 1);
        self.note("p = 4096", f.per_bucket == 4096);
        self.note("full slices", f.slice_len == 1 << s.log2_slice_len);
        self.note("short slices", f.slice_len < 1 << s.log2_slice_len);
    }

    fn note_buckets(&mut self, case: &Case) {
        use crate::domain::{high, low};
        let s = &case.settings;
        let sizes = case.sizes();
        let run = sizes.split(|&size| size != 0).map(<[usize]>::len).max().unwrap_or(0);
        let some = |test: &dyn Fn(usize) -> bool| sizes.iter().any(|&size| test(size));
        self.note("no keys", case.hashes.is_empty());
        self.note("empty bucket first", sizes[0] == 0);
        self.note("empty bucket last", sizes[s.buckets - 1] == 0);
        self.note("256 empty buckets in a row", run >= 256);
        self.note("1,024 empty buckets in a row", run >= 1024);
        self.note("bucket of 63", some(&|size| size == 63));
        self.note("bucket of 64", some(&|size| size == 64));
        self.note("bucket of more than 64", some(&|size| size > 64));
        self.note("bucket of 4,096", some(&|size| size == 4096));
        self.note("10^5 keys", case.hashes.len() >= 100_000);
        let in_some = |test: &dyn Fn(usize) -> bool| (0..s.buckets).any(test);
        self.note(
            "hash at a bucket's low end",
            in_some(&|b| case.keys(b).contains(&low(s.buckets, b))),
        );
        self.note(
            "hash at a bucket's high end",
            in_some(&|b| case.keys(b).contains(&high(s.buckets, b))),
        );
        self.note(
            "equal hashes",
            in_some(&|b| {
                let mut keys = case.keys(b).to_vec();
                keys.sort_unstable();
                keys.windows(2).any(|w| w[0] == w[1])
            }),
        );
    }

    fn note_weights(&mut self, case: &Case) {
        let held = |to: i64| {
            case.sizes().iter().any(|&size| size > 7 && naive::weight(&case.weights, size) == to)
        };
        self.note("weight 2^32", case.weights.contains(&(1 << 32)));
        self.note("weight -2^32", case.weights.contains(&-(1 << 32)));
        self.note("weight held to 2^40", held(1 << 40));
        self.note("weight held to -2^40", held(-(1 << 40)));
    }

    /// Ties are read off neighbours in the order: of two buckets with one priority, taken one right
    /// after the other, the tie rule alone says which is first.
    fn note_order(&mut self, case: &Case) {
        let sizes = case.sizes();
        let order = order(case);
        let priority = |b: usize| naive::weight(&case.weights, sizes[b]) - 1024 * b as i64;
        let mut tied = order.windows(2).filter(|w| priority(w[0]) == priority(w[1])).peekable();
        self.note("tie", tied.peek().is_some());
        let across: Vec<_> = tied.filter(|w| w[0] > w[1]).collect();
        self.note("tie across 1023 and 1024", across.iter().any(|w| sizes[w[0]] < 64));
        self.note(
            "large tie across 1023 and 1024",
            across.iter().any(|w| sizes[w[0]].min(sizes[w[1]]) >= 64),
        );
        self.note("taken out of order", order.windows(2).any(|w| w[0] > w[1]));
        let large = |test: &dyn Fn(usize, usize) -> bool| {
            order.iter().enumerate().any(|(at, &b)| sizes[b] >= 64 && test(at, b))
        };
        let later = |taken: &[usize], b: usize| taken.iter().filter(|&&x| x > b).count();
        let earlier = |left: &[usize], b: usize| left.iter().filter(|&&x| x < b).count();
        self.note("large bucket waits", large(&|at, b| later(&order[..at], b) >= 100));
        self.note("large bucket goes ahead", large(&|at, b| earlier(&order[at..], b) >= 100));
    }

    fn note_answer(&mut self, case: &Case) {
        let f = figures(&case.settings);
        let sizes = case.sizes();
        match outcome(case) {
            Outcome::Stopped(_) => self.note("bumping forbidden and stopped", true),
            Outcome::Done(answer) => {
                let zero = (f.ring_len * f.layouts) as u16;
                let placed = || sizes.iter().zip(&answer.seeds);
                self.note("bumping forbidden and done", !case.bump && !case.hashes.is_empty());
                self.note("bucket bumped", placed().any(|(&size, &seed)| size > 0 && seed == 0));
                self.note(
                    "large bucket placed",
                    placed().any(|(&size, &seed)| size >= 64 && seed != 0),
                );
                let beyond = answer.bitmap.iter().skip(f.ring_slots / 64);
                self.note("slots beyond the ring", beyond.copied().any(|word| word != 0));
                self.note("seed n·L", f.ring_len < f.rotations && answer.seeds.contains(&zero));
            }
        }
    }

    /// Notes what the search met at each turn of a naive sweep.
    fn note_turns(&mut self, case: &Case, turns: &[Turn]) {
        let last_failed = turns.last().is_some_and(|turn| turn.seed == 0);
        self.note("stopped after the first turn", !case.bump && last_failed && turns.len() > 1);
        for turn in turns {
            self.note("none free", turn.free == 0);
            self.note("at most 32 free", (1..=32).contains(&turn.free));
            self.note("more than 32 free", turn.free > 32);
            self.note("cheapest collides and another fits", turn.collides && turn.seed != 0);
            self.note(
                "cheapest collides and none fits, hashes unequal",
                turn.collides && turn.seed == 0 && !turn.equal_hashes,
            );
        }
    }
}
