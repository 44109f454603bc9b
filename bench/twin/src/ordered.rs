//! The ordered cache: writes reach the disk in an order that a precedence allows.

use crate::disk::{BLOCK, Block, Disk, Fault};
use crate::refusal::Refusal;

pub const ROWS: usize = 32;
pub const MARKS_MAX: u32 = 1_000_000;

/// Which writes must be home before which.
#[derive(Clone, Copy, PartialEq, Eq, Debug)]
pub enum Precedence {
    /// A write precedes those that were begun after it was finished.
    Overlap,
    /// A write precedes those that were begun after it was begun.
    Line,
}

#[derive(Clone, Copy, PartialEq, Eq, Debug)]
enum State {
    Vacant,
    Open,
    Waiting,
    Sent,
}

#[derive(Clone, Copy)]
struct Row {
    state: State,
    place: usize,
    begin: u32,
    finish: u32,
    block: Block,
}

const VACANT: Row = Row {
    state: State::Vacant,
    place: 0,
    begin: 0,
    finish: 0,
    block: [0; BLOCK],
};

#[derive(Clone, Copy, PartialEq, Eq, Debug)]
pub enum Step {
    Idle = 0,
    Written = 1,
    Flushed = 2,
    Blocked = 3,
}

pub struct Ordered<D> {
    disk: D,
    precedence: Precedence,
    rows: [Row; ROWS],
    counter: u32,
}

impl<D: Disk> Ordered<D> {
    /// Opens the disk, and tries again until that is accepted.
    pub fn open(mut disk: D, precedence: Precedence) -> Ordered<D> {
        while disk.flush().is_err() {}
        Ordered {
            disk,
            precedence,
            rows: [VACANT; ROWS],
            counter: 0,
        }
    }

    fn count(&self, state: State) -> usize {
        self.rows.iter().filter(|row| row.state == state).count()
    }

    pub fn begin(&mut self, place: usize, block: &Block) -> Result<u32, Refusal> {
        if place >= self.disk.size() {
            return Err(Refusal::Place);
        }
        let open_here = |row: &Row| row.state == State::Open && row.place == place;
        if self.rows.iter().any(open_here) {
            return Err(Refusal::PlaceOpen);
        }
        let Some(vacant) = self.rows.iter().position(|row| row.state == State::Vacant) else {
            return Err(Refusal::NoRoom);
        };
        if self.counter + self.count(State::Open) as u32 + 2 > MARKS_MAX {
            return Err(Refusal::NoMarks);
        }
        self.counter += 1;
        self.rows[vacant] = Row {
            state: State::Open,
            place,
            begin: self.counter,
            finish: 0,
            block: *block,
        };
        Ok(self.counter)
    }

    fn open_row(&mut self, ticket: u32) -> Result<usize, Refusal> {
        let with_ticket = |row: &Row| row.state == State::Open && row.begin == ticket;
        self.rows
            .iter()
            .position(with_ticket)
            .ok_or(Refusal::NoTicket)
    }

    pub fn finish(&mut self, ticket: u32) -> Result<u32, Refusal> {
        let i = self.open_row(ticket)?;
        self.counter += 1;
        self.rows[i].finish = self.counter;
        self.rows[i].state = State::Waiting;
        Ok(self.counter)
    }

    pub fn withdraw(&mut self, ticket: u32) -> Result<(), Refusal> {
        let i = self.open_row(ticket)?;
        self.rows[i].state = State::Vacant;
        Ok(())
    }

    pub fn read(&mut self, place: usize, buffer: &mut Block) -> Result<(), Refusal> {
        if place >= self.disk.size() {
            return Err(Refusal::Place);
        }
        let mut newest: Option<&Row> = None;
        for row in &self.rows {
            let finished = matches!(row.state, State::Waiting | State::Sent);
            if finished && row.place == place && newest.is_none_or(|best| best.begin < row.begin) {
                newest = Some(row);
            }
        }
        match newest {
            Some(row) => *buffer = row.block,
            None => self.disk.read(place, buffer)?,
        }
        Ok(())
    }

    fn precedes(&self, u: &Row, v: &Row) -> bool {
        match self.precedence {
            Precedence::Overlap => u.finish != 0 && u.finish < v.begin,
            Precedence::Line => u.begin < v.begin,
        }
    }

    fn is_ready(&self, v: &Row) -> bool {
        v.state == State::Waiting
            && !self
                .rows
                .iter()
                .any(|u| u.state != State::Vacant && self.precedes(u, v))
    }

    /// The ready row of lowest begin mark.
    fn pick(&self) -> Option<usize> {
        let mut best: Option<usize> = None;
        for (i, row) in self.rows.iter().enumerate() {
            let lower = best.is_none_or(|b| row.begin < self.rows[b].begin);
            if lower && self.is_ready(row) {
                best = Some(i);
            }
        }
        best
    }

    pub fn step(&mut self) -> Result<Step, Fault> {
        if let Some(i) = self.pick() {
            let row = &self.rows[i];
            self.disk.write(row.place, &row.block)?;
            self.rows[i].state = State::Sent;
            return Ok(Step::Written);
        }
        if self.count(State::Sent) > 0 {
            self.disk.flush()?;
            for row in &mut self.rows {
                if row.state == State::Sent {
                    row.state = State::Vacant;
                }
            }
            return Ok(Step::Flushed);
        }
        if self.count(State::Waiting) > 0 {
            return Ok(Step::Blocked);
        }
        Ok(Step::Idle)
    }

    pub fn restart(&mut self, choice: u8) {
        self.disk.cut(choice);
        for row in &mut self.rows {
            if row.state == State::Sent {
                row.state = State::Waiting;
            }
        }
    }

    /// Ends the cache by a power failure, and opens its disk again.
    pub fn cut(&mut self, choice: u8) {
        self.disk.cut(choice);
        while self.disk.flush().is_err() {}
        for row in &mut self.rows {
            row.state = State::Vacant;
        }
        self.counter = 0;
    }
}
