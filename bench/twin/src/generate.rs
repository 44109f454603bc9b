//! Random traces that get deep: they are generated along a play, so that tickets exist and groups go through their phases.

use crate::player::Player;
use crate::random::Random;
use crate::trace::{CALLS_MAX, Call, Mode, PLAN_MAX, Trace};

/// How often each kind of call comes.
struct Weights {
    begin: usize,
    finish: usize,
    withdraw: usize,
    read: usize,
    step: usize,
    seal: usize,
    restart: usize,
    cut: usize,
}

impl Weights {
    fn random(random: &mut Random, mode: Mode) -> Weights {
        let seal = match mode {
            Mode::Journaled => 1 + random.below(6),
            Mode::Overlap | Mode::Line => random.below(2),
        };
        Weights {
            begin: 2 + random.below(20),
            finish: 2 + random.below(20),
            withdraw: random.below(4),
            read: random.below(10),
            step: 1 + random.below(40),
            seal,
            restart: random.below(3),
            cut: random.below(3),
        }
    }

    fn pick(&self, random: &mut Random) -> Kind {
        let kinds = [
            (self.begin, Kind::Begin),
            (self.finish, Kind::Finish),
            (self.withdraw, Kind::Withdraw),
            (self.read, Kind::Read),
            (self.step, Kind::Step),
            (self.seal, Kind::Seal),
            (self.restart, Kind::Restart),
            (self.cut, Kind::Cut),
        ];
        let total: usize = kinds.iter().map(|kind| kind.0).sum();
        let mut left = random.below(total);
        for (weight, kind) in kinds {
            if left < weight {
                return kind;
            }
            left -= weight;
        }
        Kind::Step
    }
}

#[derive(Clone, Copy)]
enum Kind {
    Begin,
    Finish,
    Withdraw,
    Read,
    Step,
    Seal,
    Restart,
    Cut,
}

/// A plan that is empty, sparse, dense, in runs of bads, or bad throughout for a while.
fn random_plan(random: &mut Random) -> Vec<u8> {
    let most = random.pick(&[0, 8, 40, PLAN_MAX]);
    let length = random.below(most + 1);
    let mut plan = Vec::with_capacity(length);
    match random.below(4) {
        0 => plan.extend((0..length).map(|_| u8::from(random.one_in(12)))),
        1 => plan.extend((0..length).map(|_| u8::from(random.one_in(2)))),
        2 => {
            while plan.len() < length {
                let run = random.below(5).min(length - plan.len());
                plan.extend(std::iter::repeat_n(1, run));
                if plan.len() < length {
                    plan.push(0);
                }
            }
        }
        _ => plan.extend(std::iter::repeat_n(1, length)),
    }
    plan
}

/// What the generator remembers of the play.
struct Story {
    /// How many places are in use, from 0.
    places: usize,
    open: Vec<u32>,
}

impl Story {
    fn place(&self, random: &mut Random) -> u16 {
        match random.below(40) {
            0 => random.word() as u16,
            1 => 50 + random.below(16) as u16,
            _ => random.below(self.places) as u16,
        }
    }

    fn ticket(&self, random: &mut Random) -> u16 {
        if self.open.is_empty() || random.one_in(24) {
            return random.below(40) as u16;
        }
        random.pick(&self.open) as u16
    }

    fn call(&self, kind: Kind, random: &mut Random) -> Call {
        match kind {
            Kind::Begin => Call::Begin {
                place: self.place(random),
                fill: random.byte(),
            },
            Kind::Finish => Call::Finish {
                ticket: self.ticket(random),
            },
            Kind::Withdraw => Call::Withdraw {
                ticket: self.ticket(random),
            },
            Kind::Read => Call::Read {
                place: self.place(random),
            },
            Kind::Step => Call::Step,
            Kind::Seal => Call::Seal,
            Kind::Restart => Call::Restart {
                choice: random.byte(),
            },
            Kind::Cut => Call::Cut {
                choice: random.byte(),
            },
        }
    }

    fn note(&mut self, call: Call, answer: Option<u32>) {
        match (call, answer) {
            (Call::Begin { .. }, Some(ticket)) => self.open.push(ticket),
            (Call::Finish { ticket } | Call::Withdraw { ticket }, Some(_)) => {
                self.open.retain(|open| *open != u32::from(ticket));
            }
            (Call::Cut { .. }, Some(_)) => self.open.clear(),
            _ => {}
        }
    }
}

/// A well-formed trace of a mode.
pub fn well_formed(random: &mut Random, mode: Mode, retry: bool, length: usize) -> Trace {
    let plan = random_plan(random);
    let weights = Weights::random(random, mode);
    let mut story = Story {
        places: random.pick(&[1, 3, 8, 12, 55, 64]),
        open: Vec::new(),
    };
    let mut trace = Trace {
        mode,
        retry,
        plan: plan.clone(),
        calls: Vec::with_capacity(length),
    };
    let Ok(mut player) = Player::new(mode, retry, plan) else {
        return trace;
    };
    while trace.calls.len() < length {
        let call = story.call(weights.pick(random), random);
        let answer = player.call(call).ok();
        story.note(call, answer);
        trace.calls.push(call);
    }
    trace
}

/// Damages the bytes of a trace: most results are malformed, and some are another trace.
fn damage(random: &mut Random, bytes: &mut Vec<u8>) {
    match random.below(5) {
        0 => bytes.truncate(random.below(bytes.len())),
        1 => bytes.push(random.byte()),
        2 => bytes[random.below(7)] = random.byte(),
        3 => {
            let at = random.below(bytes.len());
            bytes[at] = random.byte();
        }
        _ => {
            let at = random.below(bytes.len());
            bytes.remove(at);
        }
    }
}

/// The bytes of a random trace: every mode and retry layer, short ones and long ones, one in sixteen damaged.
pub fn trace(random: &mut Random) -> Vec<u8> {
    let mode = random.pick(&[Mode::Overlap, Mode::Line, Mode::Journaled, Mode::Journaled]);
    let retry = random.one_in(2);
    let most = random.pick(&[4, 40, 150, 400, CALLS_MAX]);
    let length = random.below(most + 1);
    let mut bytes = well_formed(random, mode, retry, length).encode();
    if random.one_in(8) {
        set_ignored(random, &mut bytes);
    }
    if random.one_in(16) {
        damage(random, &mut bytes);
    }
    bytes
}

/// Gives the fields that a player ignores some other value.
fn set_ignored(random: &mut Random, bytes: &mut [u8]) {
    let plan = usize::from(u16::from_le_bytes([bytes[3], bytes[4]]));
    for call in bytes[7 + plan..].chunks_exact_mut(4) {
        if call[0] >= 5 {
            call[1] = random.byte();
            call[2] = random.byte();
        }
        if (2..=6).contains(&call[0]) {
            call[3] = random.byte();
        }
    }
}

#[cfg(test)]
mod tests {
    use super::{Random, trace};
    use crate::play;
    use crate::trace::Trace;

    /// A random trace is mostly well formed, and encoding gives it back but for what is ignored.
    #[test]
    fn traces_are_mostly_well_formed() {
        let mut random = Random::new(1);
        let mut malformed = 0;
        for _ in 0..2000 {
            let bytes = trace(&mut random);
            match Trace::decode(&bytes) {
                Ok(found) => assert_eq!(Trace::decode(&found.encode()), Ok(found)),
                Err(_) => malformed += 1,
            }
        }
        assert!((20..300).contains(&malformed));
    }

    /// Random traces meet every code with every refusal that a play can show.
    #[test]
    fn traces_get_deep() {
        let mut random = Random::new(2);
        let mut seen = std::collections::BTreeSet::new();
        for _ in 0..2000 {
            let listing = String::from_utf8(play(&trace(&mut random))).unwrap();
            for line in listing.lines() {
                let mut words = line.split(' ');
                seen.insert((
                    words.next().unwrap().to_string(),
                    words.next().map(str::to_string),
                ));
            }
        }
        let expected = [
            ("1", "0"),
            ("1", "2"),
            ("1", "3"),
            ("1", "4"),
            ("2", "0"),
            ("2", "6"),
            ("3", "0"),
            ("3", "6"),
            ("4", "0"),
            ("4", "2"),
            ("4", "7"),
            ("5", "0"),
            ("5", "7"),
            ("6", "0"),
            ("6", "8"),
            ("6", "9"),
            ("6", "15"),
            ("7", "0"),
            ("8", "0"),
        ];
        for (code, answer) in expected {
            assert!(
                seen.contains(&(code.to_string(), Some(answer.to_string()))),
                "no line {code} {answer}"
            );
        }
    }
}
