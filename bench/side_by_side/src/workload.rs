//! What is timed.

use twin::generate;
use twin::ordered::Precedence;
use twin::random::Random;
use twin::trace::{Call, Mode, Trace};

/// A whole play of a trace, or rounds of a full table.
pub enum Work {
    Play(Vec<u8>),
    Drain(Precedence, u16),
}

pub struct Workload {
    pub name: &'static str,
    pub work: Work,
    pub calls: usize,
}

fn of(name: &'static str, trace: &Trace) -> Workload {
    Workload {
        name,
        work: Work::Play(trace.encode()),
        calls: trace.calls.len(),
    }
}

/// Calls of every kind, as a random play makes them.
fn mixed(name: &'static str, mode: Mode) -> Workload {
    of(name, &generate::well_formed(&mut Random::new(7), mode, false, 1_000))
}

fn plain(mode: Mode, calls: Vec<Call>) -> Trace {
    Trace {
        mode,
        retry: false,
        plan: Vec::new(),
        calls,
    }
}

/// 32 writes are held and then drained, ten times; a round has 128 calls.
fn drains(name: &'static str, precedence: Precedence) -> Workload {
    Workload {
        name,
        work: Work::Drain(precedence, 10),
        calls: 1_280,
    }
}

/// Groups of eight blocks, committed and then cut, so that recovery copies all eight.
fn recoveries(name: &'static str) -> Workload {
    let mut calls = Vec::new();
    while calls.len() + 29 <= 1_000 {
        for place in 0..8 {
            calls.push(Call::Begin { place, fill: 5 });
        }
        for ticket in 1..9 {
            calls.push(Call::Finish { ticket });
        }
        calls.push(Call::Seal);
        calls.extend(std::iter::repeat_n(Call::Step, 11));
        calls.push(Call::Cut { choice: 0 });
    }
    of(name, &plain(Mode::Journaled, calls))
}

/// The same five calls over and over, so that a call costs the same in a short trace and in a long one.
fn steady(name: &'static str, mode: Mode, length: usize) -> Workload {
    let mut calls = Vec::new();
    let mut mark = 0;
    for turn in 0..length / 5 {
        let place = (turn % 8) as u16;
        calls.push(Call::Begin { place, fill: 7 });
        calls.push(Call::Finish { ticket: mark + 1 });
        calls.extend([Call::Step, Call::Step, Call::Read { place }]);
        mark += 2;
    }
    of(name, &plain(mode, calls))
}

pub fn all() -> Vec<Workload> {
    vec![
        mixed("mixed, overlap, 1,000 calls", Mode::Overlap),
        mixed("mixed, line, 1,000 calls", Mode::Line),
        mixed("mixed, journaled, 1,000 calls", Mode::Journaled),
        drains("drains of 32, overlap", Precedence::Overlap),
        drains("drains of 32, line", Precedence::Line),
        recoveries("recoveries of 8 blocks"),
    ]
}

/// A mode with no call, a hundred and a thousand: what is left beyond the first is the calls' own.
pub fn lengths() -> [[Workload; 3]; 2] {
    [
        [
            steady("overlap, no call", Mode::Overlap, 0),
            steady("overlap, 100 calls", Mode::Overlap, 100),
            steady("overlap, 1,000 calls", Mode::Overlap, 1_000),
        ],
        [
            steady("line, no call", Mode::Line, 0),
            steady("line, 100 calls", Mode::Line, 100),
            steady("line, 1,000 calls", Mode::Line, 1_000),
        ],
    ]
}
