//! Tries the library by chance. `cabinet-random [SEED]`: one line for each part, or the failing call and exit status 1.

mod damaged;
mod lengths;
mod plan_files;
mod runs;
mod whole;

use std::panic::catch_unwind;
use std::process::ExitCode;
use std::time::Instant;

const SEED: u64 = 20_261_115;

/// A part gives its counts in one line, or says what failed.
type Part = fn(u64) -> Result<String, String>;

const PARTS: &[(&str, Part)] = &[
    ("lengths", lengths::part),
    ("runs", runs::part),
    ("damaged states", damaged::part),
    ("plans read", plan_files::reading),
    ("tables", plan_files::tables_of_any_bytes),
    ("plans written", plan_files::writing),
    ("whole runs", whole::part),
];

fn main() -> ExitCode {
    let seed = match std::env::args().nth(1).map(|text| text.parse()) {
        None => SEED,
        Some(Ok(seed)) => seed,
        Some(Err(_)) => {
            eprintln!("usage: cabinet-random [SEED]");
            return ExitCode::from(2);
        }
    };
    for (name, part) in PARTS {
        let start = Instant::now();
        // a panic, of the reference on words that it takes for sound, is a failure with a seed too
        let done = catch_unwind(|| part(seed)).unwrap_or_else(|_| Err("it panicked, as said above".into()));
        match done {
            Ok(counts) => println!("{name}: {counts}; seed {seed}, {:.1} s", start.elapsed().as_secs_f64()),
            Err(what) => {
                println!("FAILED: {name}, seed {seed}: {what}");
                return ExitCode::FAILURE;
            }
        }
    }
    ExitCode::SUCCESS
}
