//! A full table drained in rounds, for timing.

use crate::disk::{BLOCK, HeldDisk};
use crate::ordered::{Ordered, Precedence, ROWS, Step};
use crate::player::SIZE;

/// In each round 32 writes are begun and then finished, and 64 steps are made; the answer is how many writes went to the disk.
pub fn drain(precedence: Precedence, rounds: u16) -> usize {
    let mut cache = Ordered::open(HeldDisk::new(SIZE, Vec::new()), precedence);
    let mut written = 0;
    for round in 0..rounds {
        for place in 0..ROWS {
            let _ = cache.begin(place, &[3; BLOCK]);
        }
        let first = 64 * u32::from(round) + 1;
        for ticket in first..first + ROWS as u32 {
            let _ = cache.finish(ticket);
        }
        for _ in 0..2 * ROWS {
            written += usize::from(cache.step() == Ok(Step::Written));
        }
    }
    written
}

#[cfg(test)]
mod tests {
    use super::drain;
    use crate::ordered::Precedence;

    #[test]
    fn every_write_goes_to_the_disk() {
        assert_eq!(drain(Precedence::Overlap, 3), 96);
        assert_eq!(drain(Precedence::Line, 3), 96);
    }
}
