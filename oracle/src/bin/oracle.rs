//! The oracle's command (README.md, or no argument, has its uses).

use oracle::{cases, geometry, house, sheets, stored, text, *};
use std::io::{Read, Write};
use std::process::ExitCode;
use std::time::Instant;

const USE: &str = "\
oracle sheets                  hold document 01's worked sheets to the Rust
oracle sweep [CHUNKS]          sweep the cases on standard input (text)
oracle figures                 rule G's figures of the cases on standard input
oracle positions SEED          bucket, slice, offsets and position of each hash of the cases, under one seed
oracle firsts                  first slice of each bucket of the cases
oracle order                   the order in which the buckets of the cases are taken
oracle geometry SEED COUNT     each setting at its limits, and COUNT others, with rule G's numbers
oracle table ENTRIES           the logarithm table
oracle cases CHOICE            generated cases
oracle answered CHOICE         the same with the table and the Rust's answers, in house numbers
oracle shapes CHOICE           how often the same cases meet each shape
oracle house                   the cases on standard input in house numbers
oracle time KEYS [SEED]        seconds of one sweep of a generated family, the best of five
A CHOICE is SEED COUNT [LIMIT]: each setting, the named ones and COUNT small ones, without those of
more than LIMIT keys or slots; or SEED stored: those that crates/replay stores. A SEED of the generator
is a number, or 'fixed'.";

type Words<'a> = std::slice::Iter<'a, String>;

fn number<T: std::str::FromStr>(words: &mut Words, what: &str) -> Result<T, String> {
    let word = words.next().ok_or(format!("{what} is missing"))?;
    word.parse().map_err(|_| format!("{what}: '{word}' is not such a number"))
}

fn seed(words: &mut Words) -> Result<u64, String> {
    let word = words.next().map_or("", String::as_str);
    cases::seed(word).ok_or(format!("the seed '{word}' is neither a number nor 'fixed'"))
}

/// The generated cases that a CHOICE names.
fn chosen(words: &mut Words) -> Result<Vec<Case>, String> {
    let seed = seed(words)?;
    if words.as_slice().first().is_some_and(|word| word == "stored") {
        words.next();
        return Ok(stored::all(seed));
    }
    let count = number(words, "the count")?;
    let limit = if words.len() == 0 { usize::MAX } else { number(words, "the limit")? };
    let within = |case: &Case| case.settings.m <= limit && case.hashes.len() <= limit;
    Ok(cases::all(seed, count).filter(within).collect())
}

/// The cases on standard input. One outside the domain is an error: the Rust is not asked about it.
fn input() -> Result<Vec<Case>, String> {
    let mut text = String::new();
    std::io::stdin().read_to_string(&mut text).map_err(|e| e.to_string())?;
    let cases = text::read(&text)?;
    for (i, case) in cases.iter().enumerate() {
        if let Some(number) = domain::refused(case) {
            return Err(format!(
                "case {i} is refused by check {number}: the Rust is only asked inside the domain"
            ));
        }
    }
    Ok(cases)
}

fn swept(chunks: usize) -> Result<String, String> {
    let one = |case: Case| text::outcome(&outcome(&Case { chunks, ..case }));
    Ok(input()?.into_iter().map(one).collect())
}

fn row<T: std::fmt::Display>(values: &[T]) -> String {
    values.iter().map(T::to_string).collect::<Vec<_>>().join(" ") + "\n"
}

fn each(one: impl Fn(&Case) -> String) -> Result<String, String> {
    Ok(input()?.iter().map(one).collect())
}

fn figures_of(case: &Case) -> String {
    let f = figures(&case.settings);
    format!(
        "figures l {} ns {} scale {} layouts {} q {} t {} n {} R {} p {} slots {} entries {} W {}\n",
        f.slice_len,
        f.slices,
        f.scale,
        f.layouts,
        f.slices_per_bucket,
        f.log2_stride,
        f.ring_len,
        f.rotations,
        f.per_bucket,
        f.ring_slots,
        f.table_entries,
        f.work_words(case.largest())
    )
}

fn positions_of(case: &Case, seed: usize) -> String {
    let one = |&hash: &u64| {
        let (bucket, slice, offsets) = place_of(&case.settings, hash);
        let position = positions(&case.settings, &[(hash, seed)])[0];
        format!("{hash} {bucket} {slice} {offsets} {position}\n")
    };
    case.hashes.iter().map(one).collect()
}

/// Table, count of cases, then each case and the Rust's outcome.
fn answered(cases: &[Case]) -> Vec<u8> {
    let mut out = vec![];
    house::rising(&mut out, &log2_table(cases::table_entries(cases.iter())));
    house::number(&mut out, cases.len() as u64);
    for case in cases {
        house::case(&mut out, case);
        house::outcome(&mut out, &outcome(case));
    }
    out
}

fn time(keys: usize, seed: u64) -> String {
    let case = cases::family(seed, keys);
    let mut best = f64::INFINITY;
    for _ in 0..5 {
        let start = Instant::now();
        std::hint::black_box(sweep(&case));
        best = best.min(start.elapsed().as_secs_f64());
    }
    format!("{keys} keys: {best:.6} s, {:.1} ns a key\n", best * 1e9 / keys.max(1) as f64)
}

fn run(words: &[String]) -> Result<Vec<u8>, String> {
    let mut words = words.iter();
    let verb = words.next().map(String::as_str).unwrap_or("");
    let text = match verb {
        "sheets" => {
            let found = sheets::all();
            if !found.wrong.is_empty() {
                return Err(found.wrong.join("\n"));
            }
            format!(
                "{} entries of the sheets P1 to P12, and the bucket counts, are as the Rust has them\n",
                found.right
            )
        }
        "sweep" => swept(if words.len() == 0 { 1 } else { number(&mut words, "the chunks")? })?,
        "figures" => each(figures_of)?,
        "positions" => {
            let seed = number(&mut words, "the seed")?;
            each(|case| positions_of(case, seed))?
        }
        "firsts" => each(|case| row(&first_slices(&case.settings, 0..case.settings.buckets)))?,
        "geometry" => {
            let seed = seed(&mut words)?;
            geometry::text(seed, number(&mut words, "the count")?)
        }
        "order" => each(|case| row(&order(case)))?,
        "table" => log2_table(number(&mut words, "the number of entries")?)
            .iter()
            .map(|e| format!("{e}\n"))
            .collect(),
        "cases" => chosen(&mut words)?.iter().map(text::case).collect(),
        "answered" => return Ok(answered(&chosen(&mut words)?)),
        "shapes" => {
            let mut met = shapes::Met::default();
            chosen(&mut words)?.iter().for_each(|case| met.note_case(case));
            met.shapes.iter().map(|(shape, times)| format!("{times:7} {shape}\n")).collect()
        }
        "house" => {
            let mut out = vec![];
            input()?.iter().for_each(|case| house::case(&mut out, case));
            return Ok(out);
        }
        "time" => {
            let keys = number(&mut words, "the number of keys")?;
            time(keys, seed(&mut words)?)
        }
        _ => return Err(USE.to_string()),
    };
    Ok(text.into_bytes())
}

fn main() -> ExitCode {
    let words: Vec<String> = std::env::args().skip(1).collect();
    match run(&words) {
        Ok(out) => match std::io::stdout().write_all(&out) {
            Ok(()) => ExitCode::SUCCESS,
            Err(_) => ExitCode::FAILURE,
        },
        Err(message) => {
            eprintln!("{message}");
            ExitCode::FAILURE
        }
    }
}
