//! Plays traces: from bytes to a listing.

use crate::disk::{BLOCK, Block, Disk, HeldDisk, Retry};
use crate::journal::Journaled;
use crate::ordered::{Ordered, Precedence};
use crate::refusal::Refusal;
use crate::trace::{Call, Mode, Trace};

pub const SIZE: usize = 64;

// A player has one cache, so the variants need not be of one size.
#[allow(clippy::large_enum_variant)]
enum Cache<D> {
    Ordered(Ordered<D>),
    Journaled(Journaled<D>),
}

/// One trace's caches over one kind of disk.
struct Machine<D> {
    cache: Cache<D>,
    buffer: Block,
}

impl<D: Disk> Machine<D> {
    fn new(disk: D, mode: Mode) -> Result<Machine<D>, Refusal> {
        let cache = match mode {
            Mode::Overlap => Cache::Ordered(Ordered::open(disk, Precedence::Overlap)),
            Mode::Line => Cache::Ordered(Ordered::open(disk, Precedence::Line)),
            Mode::Journaled => Cache::Journaled(Journaled::create(disk)?),
        };
        Ok(Machine {
            cache,
            buffer: [0; BLOCK],
        })
    }

    fn call(&mut self, call: Call) -> Result<u32, Refusal> {
        match &mut self.cache {
            Cache::Ordered(cache) => match call {
                Call::Begin { place, fill } => cache.begin(place.into(), &[fill; BLOCK]),
                Call::Finish { ticket } => cache.finish(ticket.into()),
                Call::Withdraw { ticket } => cache.withdraw(ticket.into()).map(|()| 0),
                Call::Read { place } => {
                    cache.read(place.into(), &mut self.buffer)?;
                    Ok(self.buffer[0].into())
                }
                Call::Step => Ok(cache.step()? as u32),
                Call::Seal => Err(Refusal::SealOfOrdered),
                Call::Restart { choice } => {
                    cache.restart(choice);
                    Ok(0)
                }
                Call::Cut { choice } => {
                    cache.cut(choice);
                    Ok(0)
                }
            },
            Cache::Journaled(cache) => match call {
                Call::Begin { place, fill } => cache.begin(place.into(), &[fill; BLOCK]),
                Call::Finish { ticket } => cache.finish(ticket.into()),
                Call::Withdraw { ticket } => cache.withdraw(ticket.into()).map(|()| 0),
                Call::Read { place } => {
                    cache.read(place.into(), &mut self.buffer)?;
                    Ok(self.buffer[0].into())
                }
                Call::Step => Ok(cache.step()? as u32),
                Call::Seal => cache.seal(),
                Call::Restart { choice } => {
                    cache.restart(choice);
                    Ok(0)
                }
                Call::Cut { choice } => cache.cut(choice),
            },
        }
    }
}

enum Layers {
    Bare(Machine<HeldDisk>),
    Retried(Machine<Retry<HeldDisk>>),
}

/// A cache that is ready for calls, over a held disk of zero blocks.
pub struct Player {
    layers: Layers,
}

impl Player {
    pub fn new(mode: Mode, retry: bool, plan: Vec<u8>) -> Result<Player, Refusal> {
        let disk = HeldDisk::new(SIZE, plan);
        let layers = if retry {
            Layers::Retried(Machine::new(Retry::new(disk), mode)?)
        } else {
            Layers::Bare(Machine::new(disk, mode)?)
        };
        Ok(Player { layers })
    }

    pub fn call(&mut self, call: Call) -> Result<u32, Refusal> {
        match &mut self.layers {
            Layers::Bare(machine) => machine.call(call),
            Layers::Retried(machine) => machine.call(call),
        }
    }
}

fn push_number(listing: &mut Vec<u8>, number: u32) {
    let mut digits = [0; 10];
    let mut at = digits.len();
    let mut rest = number;
    loop {
        at -= 1;
        digits[at] = b'0' + (rest % 10) as u8;
        rest /= 10;
        if rest == 0 {
            break;
        }
    }
    listing.extend_from_slice(&digits[at..]);
}

fn push_line(listing: &mut Vec<u8>, code: u8, answer: u32, value: u32) {
    push_number(listing, code.into());
    listing.push(b' ');
    push_number(listing, answer);
    listing.push(b' ');
    push_number(listing, value);
    listing.push(b'\n');
}

/// The listing of a trace.
pub fn play(bytes: &[u8]) -> Vec<u8> {
    let Ok(trace) = Trace::decode(bytes) else {
        return b"14\n".to_vec();
    };
    let mut listing = Vec::with_capacity(8 * trace.calls.len());
    let mut player = match Player::new(trace.mode, trace.retry, trace.plan) {
        Ok(player) => player,
        Err(_) => return listing,
    };
    for call in trace.calls {
        let (answer, value) = match player.call(call) {
            Ok(value) => (0, value),
            Err(refusal) => (refusal.number(), refusal.value()),
        };
        push_line(&mut listing, call.code(), answer, value);
    }
    listing
}

#[cfg(test)]
mod tests {
    use super::play;

    #[test]
    fn worked_example() {
        let trace = [
            2, 0, 0, 0, 0, 6, 0, 1, 5, 0, 9, 2, 1, 0, 0, 5, 0, 0, 0, 5, 0, 0, 0, 8, 0, 0, 0, 4, 5,
            0, 0,
        ];
        assert_eq!(play(&trace), b"1 0 1\n2 0 2\n5 0 1\n5 0 2\n8 0 0\n4 0 9\n");
    }
}
