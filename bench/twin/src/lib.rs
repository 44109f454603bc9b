//! An independent player of traces, written from the rules and not from the proved sources: the
//! other side of the differential tests and the baseline of the benchmark.

pub mod disk;
pub mod drain;
pub mod generate;
pub mod journal;
pub mod ordered;
pub mod player;
pub mod random;
pub mod refusal;
pub mod trace;

pub use player::{Player, play};
