//! The proved player and its twin, side by side.
//!
//!     side_by_side compare COUNT SEED    random traces, equal listings; stops at the first difference
//!     side_by_side measure               times, medians of alternating rounds, as ratios proved/twin

mod measure;
mod proved;
mod workload;

use std::process::ExitCode;
use twin::generate;
use twin::random::Random;

/// Plays random traces on both; the first one that they differ on goes to a file.
fn compare(count: u64, seed: u64) -> ExitCode {
    let mut random = Random::new(seed);
    let mut lines = 0;
    let mut malformed = 0;
    for done in 0..count {
        let trace = generate::trace(&mut random);
        let expected = twin::play(&trace);
        if proved::play(&trace) != expected {
            let file = "difference.trace";
            let told = match std::fs::write(file, &trace) {
                Ok(()) => format!("it is in {file}"),
                Err(error) => format!("it cannot be written: {error}"),
            };
            println!("trace {done} of seed {seed} differs; {told}");
            return ExitCode::FAILURE;
        }
        malformed += u64::from(expected == b"14\n");
        lines += expected.iter().filter(|&&byte| byte == b'\n').count();
    }
    println!("{count} traces of seed {seed}, {malformed} of them malformed: {lines} lines, equal byte for byte");
    ExitCode::SUCCESS
}

fn main() -> ExitCode {
    let words: Vec<String> = std::env::args().skip(1).collect();
    match words.iter().map(String::as_str).collect::<Vec<_>>()[..] {
        ["compare", count, seed] => match (count.parse(), seed.parse()) {
            (Ok(count), Ok(seed)) => compare(count, seed),
            _ => ExitCode::FAILURE,
        },
        ["measure"] => {
            measure::table();
            measure::lengths();
            ExitCode::SUCCESS
        }
        _ => {
            eprintln!("usage: side_by_side compare COUNT SEED | measure");
            ExitCode::FAILURE
        }
    }
}
