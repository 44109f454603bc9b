//! Traces and their bytes.

pub const PLAN_MAX: usize = 256;
pub const CALLS_MAX: usize = 1000;

#[derive(Clone, Copy, PartialEq, Eq, Debug)]
pub enum Mode {
    Overlap,
    Line,
    Journaled,
}

#[derive(Clone, Copy, PartialEq, Eq, Debug)]
pub enum Call {
    Begin { place: u16, fill: u8 },
    Finish { ticket: u16 },
    Withdraw { ticket: u16 },
    Read { place: u16 },
    Step,
    Seal,
    Restart { choice: u8 },
    Cut { choice: u8 },
}

#[derive(Clone, PartialEq, Eq, Debug)]
pub struct Trace {
    pub mode: Mode,
    pub retry: bool,
    pub plan: Vec<u8>,
    pub calls: Vec<Call>,
}

/// The bytes are no trace.
#[derive(Clone, Copy, PartialEq, Eq, Debug)]
pub struct Malformed;

/// A two-byte count up to a limit, its entries of one width, and what follows them.
fn section(bytes: &[u8], most: usize, width: usize) -> Result<(&[u8], &[u8]), Malformed> {
    let (count, rest) = bytes.split_first_chunk::<2>().ok_or(Malformed)?;
    let count = usize::from(u16::from_le_bytes(*count));
    if count > most {
        return Err(Malformed);
    }
    rest.split_at_checked(count * width).ok_or(Malformed)
}

impl Call {
    fn decode(bytes: &[u8]) -> Result<Call, Malformed> {
        let number = u16::from_le_bytes([bytes[1], bytes[2]]);
        let fill = bytes[3];
        Ok(match bytes[0] {
            1 => Call::Begin {
                place: number,
                fill,
            },
            2 => Call::Finish { ticket: number },
            3 => Call::Withdraw { ticket: number },
            4 => Call::Read { place: number },
            5 => Call::Step,
            6 => Call::Seal,
            7 => Call::Restart { choice: fill },
            8 => Call::Cut { choice: fill },
            _ => return Err(Malformed),
        })
    }

    pub fn code(self) -> u8 {
        match self {
            Call::Begin { .. } => 1,
            Call::Finish { .. } => 2,
            Call::Withdraw { .. } => 3,
            Call::Read { .. } => 4,
            Call::Step => 5,
            Call::Seal => 6,
            Call::Restart { .. } => 7,
            Call::Cut { .. } => 8,
        }
    }

    fn encode(self) -> [u8; 4] {
        let (number, fill) = match self {
            Call::Begin { place, fill } => (place, fill),
            Call::Finish { ticket } | Call::Withdraw { ticket } => (ticket, 0),
            Call::Read { place } => (place, 0),
            Call::Step | Call::Seal => (0, 0),
            Call::Restart { choice } | Call::Cut { choice } => (0, choice),
        };
        let [low, high] = number.to_le_bytes();
        [self.code(), low, high, fill]
    }
}

impl Trace {
    pub fn decode(bytes: &[u8]) -> Result<Trace, Malformed> {
        let [2, mode, retry, rest @ ..] = bytes else {
            return Err(Malformed);
        };
        let mode = match mode {
            0 => Mode::Overlap,
            1 => Mode::Line,
            2 => Mode::Journaled,
            _ => return Err(Malformed),
        };
        if *retry > 1 {
            return Err(Malformed);
        }
        let (plan, rest) = section(rest, PLAN_MAX, 1)?;
        let (calls, rest) = section(rest, CALLS_MAX, 4)?;
        if !rest.is_empty() || plan.iter().any(|entry| *entry > 1) {
            return Err(Malformed);
        }
        Ok(Trace {
            mode,
            retry: *retry == 1,
            plan: plan.to_vec(),
            calls: calls
                .chunks_exact(4)
                .map(Call::decode)
                .collect::<Result<_, _>>()?,
        })
    }

    pub fn encode(&self) -> Vec<u8> {
        let mode = match self.mode {
            Mode::Overlap => 0,
            Mode::Line => 1,
            Mode::Journaled => 2,
        };
        let mut bytes = vec![2, mode, u8::from(self.retry)];
        bytes.extend((self.plan.len() as u16).to_le_bytes());
        bytes.extend(&self.plan);
        bytes.extend((self.calls.len() as u16).to_le_bytes());
        bytes.extend(self.calls.iter().flat_map(|call| call.encode()));
        bytes
    }
}
