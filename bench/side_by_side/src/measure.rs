//! Times of both players, in alternating rounds of one run.

use crate::proved::{self, LONGEST};
use crate::workload::{self, Work, Workload};
use std::hint::black_box;
use std::time::Instant;

const ROUNDS: usize = 15;
const PLAYS: u32 = 200;

/// Nanoseconds a play, over some plays in a row.
fn timed(mut play: impl FnMut() -> usize) -> f64 {
    let start = Instant::now();
    for _ in 0..PLAYS {
        black_box(play());
    }
    start.elapsed().as_nanos() as f64 / f64::from(PLAYS)
}

fn median(mut times: Vec<f64>) -> f64 {
    times.sort_by(f64::total_cmp);
    times[times.len() / 2]
}

struct Times {
    proved: f64,
    twin: f64,
    /// the widest round of the twin over its narrowest: the machine's noise
    noise: f64,
}

/// One round of the proved side and one of the twin's.
fn round(work: &Work, buffer: &mut [u8; LONGEST]) -> (f64, f64) {
    match work {
        Work::Play(trace) => (
            timed(|| proved::play_into(black_box(trace), buffer)),
            timed(|| black_box(twin::play(black_box(trace))).len()),
        ),
        Work::Drain(precedence, rounds) => (
            timed(|| proved::drain(black_box(*precedence), black_box(*rounds))),
            timed(|| twin::drain::drain(black_box(*precedence), black_box(*rounds))),
        ),
    }
}

fn times(work: &Workload) -> Times {
    let mut buffer = [0; LONGEST];
    let (proved, twin): (Vec<f64>, Vec<f64>) = (0..ROUNDS).map(|_| round(&work.work, &mut buffer)).unzip();
    let widest = twin.iter().copied().fold(0.0, f64::max);
    let narrowest = twin.iter().copied().fold(f64::INFINITY, f64::min);
    Times {
        proved: median(proved),
        twin: median(twin),
        noise: widest / narrowest,
    }
}

/// The ratios.
pub fn table() {
    println!("{:<32}{:>12}{:>12}{:>8}{:>16}{:>8}", "workload", "proved us", "twin us", "ratio", "proved ns/call", "noise");
    for work in workload::all() {
        let t = times(&work);
        println!(
            "{:<32}{:>12.1}{:>12.1}{:>8.2}{:>16.0}{:>8.2}",
            work.name,
            t.proved / 1_000.0,
            t.twin / 1_000.0,
            t.proved / t.twin,
            t.proved / work.calls as f64,
            t.noise,
        );
    }
}

/// What a call costs in a short trace and in a long one, beyond a play of no call.
pub fn lengths() {
    println!("\n{:<32}{:>12}{:>20}{:>20}", "the same calls over and over", "proved us", "ns/call beyond none", "twin ns/call");
    for [none, short, long] in workload::lengths() {
        let start = times(&none);
        println!("{:<32}{:>12.1}", none.name, start.proved / 1_000.0);
        for work in [short, long] {
            let t = times(&work);
            println!(
                "{:<32}{:>12.1}{:>20.1}{:>20.1}",
                work.name,
                t.proved / 1_000.0,
                (t.proved - start.proved) / work.calls as f64,
                (t.twin - start.twin) / work.calls as f64,
            );
        }
    }
}
