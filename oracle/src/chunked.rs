//! Cases that are swept in several chunks: at each limit of the chunk count from both sides, with gaps
//! shorter and longer than the window, and with the bucket that 14 names in a chunk or in a gap.

use crate::cases::{DEFAULT, Setting, family_of, fill, settings};
use crate::domain::low;
use crate::random::Random;
use crate::{Case, Settings, chunk_gap, chunks, ranges};

/// A setting, and how many slices sixteen buckets have: together they say how long a gap is.
type Shape = (Setting, usize);

/// Gaps of 9 and 17 buckets, where the 4,096 buckets of a chunk say how many there are; gaps of 65 and
/// 129, where the gap does.
const SHORT: [Shape; 6] = [
    ((3, 0, 4), 16),
    ((3, 0, 2), 8),
    ((4, 4, 8), 16),
    ((6, 0, 8), 17),
    ((6, 1, 8), 16),
    ((7, 2, 8), 16),
];

/// Gaps of about 242, 257, 513 and 965 buckets: around the window's 256 and beyond.
const LONG: [Shape; 5] =
    [((8, 2, 8), 17), ((8, 2, 8), 16), (DEFAULT, 68), ((9, 0, 10), 16), ((12, 0, 12), 68)];

/// The chunk counts whose limits are met.
const COUNTS: [usize; 14] = [2, 3, 4, 5, 7, 8, 15, 16, 17, 31, 32, 33, 63, 64];
const FEW: [usize; 3] = [2, 3, 5];

fn settings_of((setting, per_16): Shape, buckets: usize) -> Settings {
    settings(setting, buckets * per_16 / 16 + (1 << setting.0), buckets)
}

/// The most chunks that so many buckets make.
fn most(shape: Shape, buckets: usize) -> usize {
    chunks(&settings_of(shape, buckets), usize::MAX)
}

/// The least odd number of buckets that makes `count` chunks; two fewer make one chunk less.
fn least_buckets(shape: Shape, count: usize) -> usize {
    let gap = chunk_gap(&settings_of(shape, 1_000_001));
    let mut buckets = (count * 4096.max(64 * gap)) | 1;
    while most(shape, buckets) >= count {
        buckets -= 2;
    }
    while most(shape, buckets) < count {
        buckets += 2;
    }
    buckets
}

/// Keys over all buckets or over a part of them, some buckets with many.
fn sizes(random: &mut Random, s: &Settings) -> Vec<usize> {
    let mut sizes = vec![0; s.buckets];
    let part = random.from_to(1, 4);
    let from = if random.one_in(4) { random.below(s.buckets / 2) } else { 0 };
    for _ in 0..(s.m.min(2 * s.buckets)) * part / 4 {
        sizes[random.from_to(from, s.buckets - 1)] += 1;
    }
    for _ in 0..random.below(20) {
        sizes[random.below(s.buckets)] += random.pick(&[3, 7, 8, 20, 63, 64, 70]);
    }
    sizes
}

/// A case to be made: its settings, the chunks asked for, and of a sweep that is to be stopped how many
/// ranges come before the first that stops it.
#[derive(Clone, Copy, Debug)]
pub struct Plan {
    shape: Shape,
    buckets: usize,
    pub chunks: usize,
    spared: Option<usize>,
}

impl Plan {
    pub fn settings(&self) -> Settings {
        settings_of(self.shape, self.buckets)
    }

    fn case(&self, random: &mut Random) -> Case {
        match self.spared {
            None => swept(random, self.settings(), self.chunks),
            Some(spared) => stopped(random, self.settings(), self.chunks, spared),
        }
    }
}

fn swept(random: &mut Random, s: Settings, chunks: usize) -> Case {
    let sizes = sizes(random, &s);
    Case { chunks, ..fill(random, s, &sizes) }
}

/// One key to every fourth bucket, and two equal ones in some bucket of each range but the first few:
/// bumping is forbidden, and the first range with such a bucket ends the sweep.
fn stopped(random: &mut Random, s: Settings, chunks: usize, spared: usize) -> Case {
    let mut buckets: Vec<Vec<u64>> = (0..s.buckets)
        .map(|b| if b % 4 == 0 { vec![low(s.buckets, b) + 5] } else { vec![] })
        .collect();
    for range in ranges(&s, chunks).into_iter().skip(spared) {
        let b = random.from_to(range.start, range.end - 1);
        buckets[b] = vec![low(s.buckets, b); 2];
    }
    Case { chunks, ..Case::new(s, false, [0; 7], &buckets) }
}

/// The limits of the chunk counts of some shapes: with buckets for just so many chunks and for one
/// less, asking for as many, for one less, and for all that there can be.
fn limits(shapes: &[Shape], counts: &[usize]) -> Vec<Plan> {
    let mut plans = vec![];
    for &shape in shapes {
        for &count in counts {
            let least = least_buckets(shape, count);
            let asked =
                [(least, count), (least, count - 1), (least, usize::MAX), (least - 2, count)];
            plans.extend(asked.map(|(buckets, chunks)| Plan {
                shape,
                buckets,
                chunks,
                spared: None,
            }));
        }
    }
    plans
}

/// Sweeps in three chunks that are stopped in each of the five ranges, and one that is not.
fn stops(shape: Shape) -> [Plan; 6] {
    let buckets = least_buckets(shape, 3);
    std::array::from_fn(|spared| Plan { shape, buckets, chunks: 3, spared: Some(spared) })
}

/// Random families of 2 to 20 times the buckets of a chunk.
pub fn families(seed: u64, count: usize) -> impl Iterator<Item = Case> {
    let mut random = Random(seed);
    (0..count).map(move |_| {
        let shape = random.pick(&SHORT);
        let buckets = least_buckets(shape, 2) * random.from_to(2, 20) / 2 + random.below(4096);
        let chunks = if random.one_in(4) { usize::MAX } else { random.from_to(2, 64) };
        swept(&mut random, settings_of(shape, buckets | 1), chunks)
    })
}

/// Enough for a test: the shorter gaps at few chunks, some around the window's length, and stopped sweeps.
pub fn few_plans() -> Vec<Plan> {
    let mut plans = limits(&SHORT, &FEW);
    plans.extend(limits(&LONG[..3], &[2]));
    plans.extend(stops(SHORT[0]));
    plans
}

/// All limits.
pub fn plans() -> Vec<Plan> {
    let mut plans = limits(&SHORT, &COUNTS);
    plans.extend(limits(&LONG, &FEW));
    plans.extend(SHORT.into_iter().chain(LONG).flat_map(stops));
    plans
}

/// The cases of some plans, one after another.
pub fn cases(seed: u64, plans: Vec<Plan>) -> impl Iterator<Item = Case> {
    let mut random = Random(seed);
    plans.into_iter().map(move |plan| plan.case(&mut random))
}

/// A million keys on so many slots, in at most so many chunks. At the defaults as many slots as keys make 15
/// chunks at most, and a tenth more make 16.
pub fn million(seed: u64, slots: usize, chunks: usize) -> Case {
    Case { chunks, ..family_of(seed, 1_000_000, slots, 4.25, DEFAULT) }
}
