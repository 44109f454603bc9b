//! The journaled cache: groups of writes that reach their places all or none.

use crate::disk::{BLOCK, Block, Disk, Fault};
use crate::ordered::{MARKS_MAX, Step};
use crate::refusal::Refusal;

pub const GROUP_MAX: usize = 8;
/// The head and the slots, behind the home places.
pub const RESERVED: usize = 1 + GROUP_MAX;

#[derive(Clone, Copy)]
struct Write {
    place: usize,
    begin: u32,
    block: Block,
}

/// Some writes at different places, in an order of their own.
struct Batch {
    writes: [Write; GROUP_MAX],
    count: usize,
}

impl Batch {
    fn new() -> Batch {
        const NONE: Write = Write {
            place: 0,
            begin: 0,
            block: [0; BLOCK],
        };
        Batch {
            writes: [NONE; GROUP_MAX],
            count: 0,
        }
    }

    fn as_slice(&self) -> &[Write] {
        &self.writes[..self.count]
    }

    fn holds(&self, place: usize) -> bool {
        self.as_slice().iter().any(|write| write.place == place)
    }

    fn at(&self, place: usize) -> Option<&Block> {
        let found = self.as_slice().iter().find(|write| write.place == place);
        found.map(|write| &write.block)
    }

    fn push(&mut self, write: Write) {
        self.writes[self.count] = write;
        self.count += 1;
    }

    /// Replaces the bytes at a place that is held already.
    fn put(&mut self, write: Write) {
        let count = self.count;
        match self.writes[..count]
            .iter_mut()
            .find(|held| held.place == write.place)
        {
            Some(held) => *held = write,
            None => self.push(write),
        }
    }

    fn take(&mut self, i: usize) -> Write {
        let taken = self.writes[i];
        self.count -= 1;
        self.writes[i] = self.writes[self.count];
        taken
    }
}

/// What a head block says: a group's number and its home places.
struct Head {
    number: u32,
    places: [u16; GROUP_MAX],
    count: usize,
}

impl Head {
    fn empty(number: u32) -> Head {
        Head {
            number,
            places: [0; GROUP_MAX],
            count: 0,
        }
    }

    fn of(number: u32, batch: &Batch) -> Head {
        let mut head = Head::empty(number);
        for write in batch.as_slice() {
            head.places[head.count] = write.place as u16;
            head.count += 1;
        }
        head
    }

    fn encode(&self) -> Block {
        let mut block = [0; BLOCK];
        block[0] = 1;
        block[1..5].copy_from_slice(&self.number.to_le_bytes());
        block[5] = self.count as u8;
        for (i, place) in self.places[..self.count].iter().enumerate() {
            block[6 + 2 * i..8 + 2 * i].copy_from_slice(&place.to_le_bytes());
        }
        block
    }

    fn decode(block: &Block, homes: usize) -> Option<Head> {
        let count = block[5] as usize;
        if block[0] != 1 || count > GROUP_MAX {
            return None;
        }
        let mut head = Head::empty(u32::from_le_bytes([block[1], block[2], block[3], block[4]]));
        for pair in block[6..6 + 2 * count].chunks_exact(2) {
            let place = u16::from_le_bytes([pair[0], pair[1]]);
            if place as usize >= homes || head.places[..head.count].contains(&place) {
                return None;
            }
            head.places[head.count] = place;
            head.count += 1;
        }
        let zeros = block[6 + 2 * count..].iter().all(|byte| *byte == 0);
        zeros.then_some(head)
    }
}

#[derive(Clone, Copy, PartialEq, Eq, Debug)]
enum Phase {
    Slots(usize),
    FlushSlots,
    Head,
    FlushHead,
    Homes(usize),
    FlushHomes,
    EmptyHead,
    FlushEmptyHead,
}

struct Group {
    number: u32,
    batch: Batch,
    phase: Phase,
}

pub struct Journaled<D> {
    disk: D,
    homes: usize,
    counter: u32,
    last: u32,
    opens: Batch,
    collected: Batch,
    group: Option<Group>,
}

/// Writes the empty head of number 0.
pub fn format<D: Disk>(disk: &mut D) -> Result<(), Fault> {
    let head = disk.size() - RESERVED;
    disk.write(head, &Head::empty(0).encode())?;
    disk.flush()
}

/// Brings a committed group home, and answers the last group's number.
pub fn recover<D: Disk>(disk: &mut D) -> Result<u32, Refusal> {
    let homes = disk.size() - RESERVED;
    let mut block = [0; BLOCK];
    disk.flush()?;
    disk.read(homes, &mut block)?;
    let head = Head::decode(&block, homes).ok_or(Refusal::NoHead)?;
    if head.count == 0 {
        return Ok(head.number);
    }
    for (i, place) in head.places[..head.count].iter().enumerate() {
        disk.read(homes + 1 + i, &mut block)?;
        disk.write(*place as usize, &block)?;
    }
    disk.flush()?;
    disk.write(homes, &Head::empty(head.number).encode())?;
    disk.flush()?;
    Ok(head.number)
}

/// Recovers, and tries again while the disk fails.
fn recovered<D: Disk>(disk: &mut D) -> Result<u32, Refusal> {
    loop {
        match recover(disk) {
            Err(Refusal::Fault(_)) => {}
            answer => return answer,
        }
    }
}

impl<D: Disk> Journaled<D> {
    /// Formats the disk and recovers it, each until it is accepted.
    pub fn create(mut disk: D) -> Result<Journaled<D>, Refusal> {
        while format(&mut disk).is_err() {}
        let last = recovered(&mut disk)?;
        let homes = disk.size() - RESERVED;
        Ok(Journaled {
            disk,
            homes,
            counter: 0,
            last,
            opens: Batch::new(),
            collected: Batch::new(),
            group: None,
        })
    }

    /// How many different places are collected or open, this one among them.
    fn places_with(&self, place: usize) -> usize {
        let opens = self.opens.as_slice().iter();
        let apart = opens
            .filter(|write| !self.collected.holds(write.place))
            .count();
        let new = !self.collected.holds(place) && !self.opens.holds(place);
        self.collected.count + apart + usize::from(new)
    }

    pub fn begin(&mut self, place: usize, block: &Block) -> Result<u32, Refusal> {
        if place >= self.homes {
            return Err(Refusal::Place);
        }
        if self.opens.holds(place) {
            return Err(Refusal::PlaceOpen);
        }
        if self.places_with(place) > GROUP_MAX {
            return Err(Refusal::NoRoom);
        }
        if self.counter + self.opens.count as u32 + 2 > MARKS_MAX {
            return Err(Refusal::NoMarks);
        }
        self.counter += 1;
        self.opens.push(Write {
            place,
            begin: self.counter,
            block: *block,
        });
        Ok(self.counter)
    }

    fn take_open(&mut self, ticket: u32) -> Result<Write, Refusal> {
        let mut opens = self.opens.as_slice().iter();
        let i = opens
            .position(|write| write.begin == ticket)
            .ok_or(Refusal::NoTicket)?;
        Ok(self.opens.take(i))
    }

    pub fn finish(&mut self, ticket: u32) -> Result<u32, Refusal> {
        let write = self.take_open(ticket)?;
        self.collected.put(write);
        self.counter += 1;
        Ok(self.counter)
    }

    pub fn withdraw(&mut self, ticket: u32) -> Result<(), Refusal> {
        self.take_open(ticket)?;
        Ok(())
    }

    pub fn read(&mut self, place: usize, buffer: &mut Block) -> Result<(), Refusal> {
        if place >= self.homes {
            return Err(Refusal::Place);
        }
        let in_group = || self.group.as_ref().and_then(|group| group.batch.at(place));
        match self.collected.at(place).or_else(in_group) {
            Some(block) => *buffer = *block,
            None => self.disk.read(place, buffer)?,
        }
        Ok(())
    }

    pub fn seal(&mut self) -> Result<u32, Refusal> {
        if self.group.is_some() {
            return Err(Refusal::GroupUnderWay);
        }
        if self.collected.count == 0 {
            return Err(Refusal::NothingCollected);
        }
        if self.last == u32::MAX {
            return Err(Refusal::NoNumbers);
        }
        self.last += 1;
        self.group = Some(Group {
            number: self.last,
            batch: std::mem::replace(&mut self.collected, Batch::new()),
            phase: Phase::Slots(0),
        });
        Ok(self.last)
    }

    pub fn step(&mut self) -> Result<Step, Fault> {
        let Some(group) = &mut self.group else {
            return Ok(Step::Idle);
        };
        let homes = self.homes;
        let disk = &mut self.disk;
        let writes = group.batch.as_slice();
        let (next, answer) = match group.phase {
            Phase::Slots(i) => {
                disk.write(homes + 1 + i, &writes[i].block)?;
                let next = if i + 1 < writes.len() {
                    Phase::Slots(i + 1)
                } else {
                    Phase::FlushSlots
                };
                (next, Step::Written)
            }
            Phase::FlushSlots => {
                disk.flush()?;
                (Phase::Head, Step::Flushed)
            }
            Phase::Head => {
                disk.write(homes, &Head::of(group.number, &group.batch).encode())?;
                (Phase::FlushHead, Step::Written)
            }
            Phase::FlushHead => {
                disk.flush()?;
                (Phase::Homes(0), Step::Flushed)
            }
            Phase::Homes(i) => {
                disk.write(writes[i].place, &writes[i].block)?;
                let next = if i + 1 < writes.len() {
                    Phase::Homes(i + 1)
                } else {
                    Phase::FlushHomes
                };
                (next, Step::Written)
            }
            Phase::FlushHomes => {
                disk.flush()?;
                (Phase::EmptyHead, Step::Flushed)
            }
            Phase::EmptyHead => {
                disk.write(homes, &Head::empty(group.number).encode())?;
                (Phase::FlushEmptyHead, Step::Written)
            }
            Phase::FlushEmptyHead => {
                disk.flush()?;
                self.group = None;
                return Ok(Step::Flushed);
            }
        };
        group.phase = next;
        Ok(answer)
    }

    pub fn restart(&mut self, choice: u8) {
        self.disk.cut(choice);
        if let Some(group) = &mut self.group {
            group.phase = match group.phase {
                Phase::Slots(_) | Phase::FlushSlots | Phase::Head | Phase::FlushHead => {
                    Phase::Slots(0)
                }
                Phase::Homes(_) | Phase::FlushHomes => Phase::Homes(0),
                Phase::EmptyHead | Phase::FlushEmptyHead => Phase::EmptyHead,
            };
        }
    }

    /// Ends the cache by a power failure, and recovers its disk.
    pub fn cut(&mut self, choice: u8) -> Result<u32, Refusal> {
        self.disk.cut(choice);
        self.last = recovered(&mut self.disk)?;
        self.counter = 0;
        self.opens.count = 0;
        self.collected.count = 0;
        self.group = None;
        Ok(self.last)
    }
}
