//! Our sweep, lookups and holes beside PHastR's own, in one process. `bench/run` is the command for a
//! person; the words here are what it uses.
//!
//!     bench names                          the settings, one to a line
//!     bench times KEYS                     nanoseconds a key, both sides: sweeps of all settings, other jobs of the
//!                                          first
//!     bench once SIDE JOB SETTING KEYS     one job of one side, for its instructions to be counted; with the
//!                                          side 'neither' all but the job

mod jobs;
mod settings;

use jobs::{Bench, JOBS, Job};
use settings::Named;
use std::process::ExitCode;
use std::time::Instant;

/// The best of a few runs, in nanoseconds.
fn best(mut run: impl FnMut()) -> f64 {
    let timed = |_| {
        let start = Instant::now();
        run();
        start.elapsed().as_nanos() as f64
    };
    (0..5).map(timed).fold(f64::INFINITY, f64::min)
}

/// Times a sweep of each of the settings and the other jobs of the first, after seeing that both sides
/// give the same.
fn times(keys: usize) -> Result<(), String> {
    for (at, named) in settings::ALL.iter().enumerate() {
        eprintln!("bench: timing {} at {keys} keys", named.name);
        let mut bench = Bench::new(named.family(keys), Job::Holes);
        if !bench.same() {
            return Err(format!("{} {keys}: the two sides differ", named.name));
        }
        let timed = |job| job == Job::Sweep || at == 0 && job != Job::Checks;
        for (name, job) in JOBS.into_iter().filter(|&(_, job)| timed(job)) {
            let ours = best(|| bench.ours(job)) / keys as f64;
            let rust = if job.of_both() { best(|| bench.rust(job)) / keys as f64 } else { 0.0 };
            println!("{name} {} {keys} {ours:.2} {rust:.2}", named.name);
        }
    }
    Ok(())
}

fn once(side: &str, job: &str, setting: &str, keys: usize) -> Result<(), String> {
    let (_, job) = *JOBS.iter().find(|(name, _)| *name == job).ok_or("no such job")?;
    let named = Named::find(setting).ok_or("no such settings")?;
    let mut bench = Bench::new(named.family(keys), job);
    match side {
        "ours" => bench.ours(job),
        "rust" => bench.rust(job),
        "neither" => {}
        _ => return Err(format!("no side {side}")),
    }
    Ok(())
}

fn run(words: &[&str]) -> Result<(), String> {
    let number = |word: &str| word.parse().map_err(|_| format!("no number: {word}"));
    match words {
        ["names"] => {
            for named in &settings::ALL {
                println!("{} {}", named.name, named.words());
            }
            Ok(())
        }
        ["times", keys] => times(number(keys)?),
        ["once", side, job, setting, keys] => once(side, job, setting, number(keys)?),
        _ => Err("usage: bench names | times KEYS | once SIDE JOB SETTING KEYS".into()),
    }
}

fn main() -> ExitCode {
    let words: Vec<String> = std::env::args().skip(1).collect();
    match run(&words.iter().map(String::as_str).collect::<Vec<_>>()) {
        Ok(()) => ExitCode::SUCCESS,
        Err(message) => {
            eprintln!("bench: {message}");
            ExitCode::FAILURE
        }
    }
}
