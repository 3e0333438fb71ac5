//! The generator stays in the domain and meets every shape, and document 01 says what the Rust does.

use oracle::cases;
use oracle::chunked;
use oracle::random::Random;
use oracle::shapes::Met;
use oracle::{
    Answer, Case, Outcome, chunks, domain, figures, first_slices, geometry, log2_table, naive,
    outcome, place_of, positions, stored, sweep, text,
};

const SMALL: usize = 3000;

/// The seed that ORACLE_SEED gives ('fixed' or none: the fixed one).
fn seed() -> u64 {
    let word = std::env::var("ORACLE_SEED").unwrap_or_default();
    cases::seed(&word).expect("ORACLE_SEED is a number, or 'fixed'")
}

fn all_cases() -> impl Iterator<Item = Case> {
    cases::all(seed(), SMALL)
}

#[test]
fn cases_lie_in_the_domain() {
    for case in all_cases() {
        assert_eq!(domain::refused(&case), None, "{:?}", case.settings);
    }
}

#[test]
fn every_shape_and_setting_is_met() {
    let mut met = Met::default();
    for case in all_cases() {
        met.note_case(&case);
    }
    assert_eq!(met.missing(), Vec::<&str>::new(), "shapes that no case has");
    for setting in cases::all_settings() {
        assert!(met.settings.contains_key(&setting), "no case has the setting {setting:?}");
    }
}

#[test]
fn stored_cases_meet_all_but_the_families() {
    let mut met = Met::default();
    for case in stored::all(cases::SEED) {
        assert_eq!(domain::refused(&case), None, "{:?}", case.settings);
        met.note_case(&case);
    }
    assert_eq!(met.missing(), ["10^5 keys"], "shapes that no stored case has");
    for setting in cases::all_settings() {
        assert!(met.settings.contains_key(&setting), "no stored case has the setting {setting:?}");
    }
}

#[test]
fn geometry_meets_every_setting_at_its_limits() {
    let all = geometry::chosen(seed(), 1000);
    for s in &all {
        assert_eq!(domain::refused_settings(s), None, "{s:?}");
    }
    for (log2_slice_len, log2_layouts, seed_bits) in cases::all_settings() {
        let of_setting: Vec<_> = all
            .iter()
            .filter(|s| {
                (s.log2_slice_len, s.log2_layouts, s.seed_bits)
                    == (log2_slice_len, log2_layouts, seed_bits)
            })
            .collect();
        for (m, buckets) in [(1, 1), (1, 67_108_865), (1 << 27, 67_108_865)] {
            assert!(of_setting.iter().any(|s| (s.m, s.buckets) == (m, buckets)), "{of_setting:?}");
        }
        assert!(of_setting.iter().any(|s| figures(s).slice_len == 1 << log2_slice_len));
    }
    assert!(all.iter().any(|s| figures(s).per_bucket == 4096));
}

#[test]
fn rule_g_says_what_the_rust_does() {
    let mut random = Random(seed());
    let of_cases = all_cases().map(|case| case.settings);
    for s in of_cases.chain(cases::any_settings(seed(), 20_000)) {
        assert_eq!(domain::refused_settings(&s), None, "{s:?}");
        let f = naive::figures(&s);
        assert_eq!(f, figures(&s), "{s:?}");
        let b = random.below(s.buckets);
        for b in [0, b, s.buckets - 1] {
            assert_eq!(vec![naive::first(&f, b)], first_slices(&s, b..b + 1), "{s:?}, bucket {b}");
        }
        let any = random.word();
        for hash in [0, u64::MAX, any, domain::low(s.buckets, b), domain::high(s.buckets, b)] {
            let seed = random.below(1 << s.seed_bits);
            let position = naive::position(&s, &f, hash, seed);
            assert_eq!(vec![position], positions(&s, &[(hash, seed)]), "{s:?}, {hash}, {seed}");
            assert!(position < s.m, "{s:?}, {hash}, {seed}");
            let (bucket, slice, _) = place_of(&s, hash);
            assert!(
                domain::low(s.buckets, bucket) <= hash && hash <= domain::high(s.buckets, bucket)
            );
            assert!(slice - naive::first(&f, bucket) <= f.per_bucket + 1, "{s:?}, {hash}");
        }
    }
}

/// What a naive sweep by document 01 comes back with.
fn naive_outcome(case: &Case) -> Outcome {
    let turns = naive::turns(case);
    if let Some(last) = turns.last().filter(|turn| turn.seed == 0 && !case.bump) {
        return Outcome::Stopped(last.bucket);
    }
    let m = case.settings.m;
    let mut seeds = vec![0u16; case.settings.buckets];
    let mut bitmap = vec![0u64; m.div_ceil(64)];
    for turn in turns.iter().filter(|turn| turn.seed != 0) {
        seeds[turn.bucket] = turn.seed as u16;
        let keys: Vec<_> = case.keys(turn.bucket).iter().map(|&h| (h, turn.seed)).collect();
        for p in positions(&case.settings, &keys) {
            bitmap[p / 64] |= 1 << (p % 64);
        }
    }
    let holes = (0..m).filter(|p| bitmap[p / 64] >> (p % 64) & 1 == 0).map(|p| p as u32).collect();
    Outcome::Done(Answer { seeds, bitmap, holes })
}

/// The first place at which two lists differ, with what stands there.
fn first_difference<T: PartialEq + std::fmt::Debug>(naive: &[T], rust: &[T]) -> String {
    let same = naive.iter().zip(rust).take_while(|(a, b)| a == b).count();
    format!("at {same} the document has {:?} and the Rust {:?}", naive.get(same), rust.get(same))
}

/// What differs between two outcomes, if anything.
fn difference(naive: Outcome, rust: Outcome) -> Option<String> {
    if naive == rust {
        return None;
    }
    let (Outcome::Done(a), Outcome::Done(b)) = (&naive, &rust) else {
        return Some("one of the two is stopped, or both at other buckets".to_string());
    };
    Some(if a.seeds != b.seeds {
        format!("seeds: {}", first_difference(&a.seeds, &b.seeds))
    } else if a.bitmap != b.bitmap {
        format!("bitmap: {}", first_difference(&a.bitmap, &b.bitmap))
    } else {
        format!("holes: {}", first_difference(&a.holes, &b.holes))
    })
}

#[test]
fn rule_w_says_what_the_rust_does() {
    for (i, case) in all_cases().enumerate() {
        let (by_document, by_rust) = (naive::order(&case), oracle::order(&case));
        let order = first_difference(&by_document, &by_rust);
        assert!(by_document == by_rust, "case {i}, {:?}: order: {order}", case.settings);
    }
}

/// Whole sweeps. The largest cases, on which every candidate cannot be tried, are left out.
#[test]
fn rule_s_says_what_the_rust_does() {
    let (mut compared, mut left_out) = (0, 0);
    for (i, case) in all_cases().enumerate() {
        if !naive::is_small(&case) {
            left_out += 1;
            continue;
        }
        if let Some(found) = difference(naive_outcome(&case), outcome(&case)) {
            panic!("case {i}, {:?}: {found}", case.settings);
        }
        compared += 1;
    }
    println!("{compared} sweeps compared, {left_out} too large to try every candidate");
    assert!(left_out <= 10, "{left_out} cases were too large, and {compared} were not");
}

#[test]
fn the_house_rule_holds_for_the_rusts_table() {
    let table = log2_table(131_072);
    assert_eq!((table[0], table[1]), (0, 0));
    for d in 2..table.len() {
        assert!(table[d - 1] < table[d], "entry {d}");
    }
    for d in 1..table.len() / 2 {
        assert_eq!(table[2 * d], table[d] + (1 << 24), "entry {}", 2 * d);
    }
}

#[test]
fn several_chunks_are_swept() {
    let case = cases::family(cases::SEED, 1_000_000);
    assert_eq!((chunks(&case.settings, 1), chunks(&case.settings, 4)), (1, 4));
    let (one, four) = (sweep(&case).unwrap(), sweep(&Case { chunks: 4, ..case.clone() }).unwrap());
    assert_ne!(one.seeds, four.seeds);
    for answer in [one, four] {
        let placed: u32 = answer.bitmap.iter().map(|word| word.count_ones()).sum();
        let seeded = (0..case.settings.buckets).filter(|&b| answer.seeds[b] != 0);
        assert_eq!(placed as usize, seeded.map(|b| case.keys(b).len()).sum::<usize>());
        assert_eq!(placed as usize + answer.holes.len(), case.settings.m);
    }
}

#[test]
fn chunked_cases_are_split() {
    let (mut counts, mut gaps) = (vec![], vec![]);
    for plan in chunked::plans() {
        let s = plan.settings();
        assert_eq!(domain::refused_settings(&s), None, "{s:?}");
        let by_document = naive::ranges(&s, plan.chunks);
        assert_eq!(by_document, oracle::ranges(&s, plan.chunks), "{s:?}");
        if by_document.len() > 1 {
            counts.push(chunks(&s, plan.chunks));
            gaps.push(oracle::chunk_gap(&s));
        }
    }
    assert!(counts.len() >= 300, "{}", counts.len());
    assert_eq!((counts.iter().min(), counts.iter().max()), (Some(&2), Some(&64)));
    assert!(gaps.iter().any(|&gap| gap <= 256) && gaps.iter().any(|&gap| gap > 256));
}

/// Whole sweeps in chunks, on the cases that the gate compares.
#[test]
fn document_02_says_what_the_rust_does() {
    let mut compared = 0;
    let cases = chunked::cases(seed(), chunked::few_plans());
    for (i, case) in cases.filter(naive::is_small).enumerate() {
        assert_eq!(domain::refused(&case), None, "{:?}", case.settings);
        if let Some(found) = difference(naive_outcome(&case), outcome(&case)) {
            panic!("case {i}, {:?}, {} chunks: {found}", case.settings, case.chunks);
        }
        compared += 1;
    }
    println!("{compared} sweeps in chunks compared");
    assert!(compared >= 40, "{compared}");
}

#[test]
fn text_reads_back() {
    for case in all_cases().take(200) {
        assert_eq!(text::read(&text::case(&case)), Ok(vec![case]));
    }
}
