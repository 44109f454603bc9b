//! Disks that may lose their newest writes when power fails.

pub const BLOCK: usize = 512;
pub const LOOSE_MAX: usize = 8;

pub type Block = [u8; BLOCK];

#[derive(Clone, Copy, PartialEq, Eq, Debug)]
pub enum Kind {
    Read,
    Write,
    Flush,
}

/// A call that a disk did not carry out: its kind, its place (0 for a flush) and how often it was tried.
#[derive(Clone, Copy, PartialEq, Eq, Debug)]
pub struct Fault {
    pub kind: Kind,
    pub place: usize,
    pub tries: u32,
}

pub trait Disk {
    fn size(&self) -> usize;
    fn read(&mut self, place: usize, buffer: &mut Block) -> Result<(), Fault>;
    fn write(&mut self, place: usize, block: &Block) -> Result<(), Fault>;
    fn flush(&mut self) -> Result<(), Fault>;
    /// Power fails: loose write number i, the oldest being 0, stands if bit i of the choice is set.
    fn cut(&mut self, choice: u8);
}

/// Writes join until eight are loose, and the ninth settles them and itself.
pub struct HeldDisk {
    firm: Vec<Block>,
    loose: [(usize, Block); LOOSE_MAX],
    loose_count: usize,
    plan: Vec<u8>,
    taken: usize,
}

impl HeldDisk {
    /// A disk of zero blocks; of the plan's entries 0 is a good call, and another a bad one.
    pub fn new(size: usize, plan: Vec<u8>) -> HeldDisk {
        HeldDisk {
            firm: vec![[0; BLOCK]; size],
            loose: [(0, [0; BLOCK]); LOOSE_MAX],
            loose_count: 0,
            plan,
            taken: 0,
        }
    }

    fn next(&mut self, kind: Kind, place: usize) -> Result<(), Fault> {
        match self.plan.get(self.taken) {
            None => Ok(()),
            Some(entry) => {
                self.taken += 1;
                if *entry == 0 {
                    Ok(())
                } else {
                    Err(Fault {
                        kind,
                        place,
                        tries: 1,
                    })
                }
            }
        }
    }

    fn settle(&mut self) {
        for (place, block) in &self.loose[..self.loose_count] {
            self.firm[*place] = *block;
        }
        self.loose_count = 0;
    }
}

impl Disk for HeldDisk {
    fn size(&self) -> usize {
        self.firm.len()
    }

    fn read(&mut self, place: usize, buffer: &mut Block) -> Result<(), Fault> {
        self.next(Kind::Read, place)?;
        let loose = &self.loose[..self.loose_count];
        *buffer = match loose.iter().rev().find(|write| write.0 == place) {
            Some(write) => write.1,
            None => self.firm[place],
        };
        Ok(())
    }

    fn write(&mut self, place: usize, block: &Block) -> Result<(), Fault> {
        self.next(Kind::Write, place)?;
        if self.loose_count == LOOSE_MAX {
            self.settle();
            self.firm[place] = *block;
        } else {
            self.loose[self.loose_count] = (place, *block);
            self.loose_count += 1;
        }
        Ok(())
    }

    fn flush(&mut self) -> Result<(), Fault> {
        self.next(Kind::Flush, 0)?;
        self.settle();
        Ok(())
    }

    fn cut(&mut self, choice: u8) {
        for (i, (place, block)) in self.loose[..self.loose_count].iter().enumerate() {
            if choice >> i & 1 == 1 {
                self.firm[*place] = *block;
            }
        }
        self.loose_count = 0;
    }
}

/// Makes each call up to three times, and stops at the first good answer.
pub struct Retry<D> {
    below: D,
}

const TRIES: u32 = 3;

impl<D: Disk> Retry<D> {
    pub fn new(below: D) -> Retry<D> {
        Retry { below }
    }

    fn retried(&mut self, mut call: impl FnMut(&mut D) -> Result<(), Fault>) -> Result<(), Fault> {
        let mut answer = call(&mut self.below);
        for _ in 1..TRIES {
            if answer.is_ok() {
                break;
            }
            answer = call(&mut self.below);
        }
        answer.map_err(|fault| Fault {
            tries: fault.tries.saturating_mul(TRIES),
            ..fault
        })
    }
}

impl<D: Disk> Disk for Retry<D> {
    fn size(&self) -> usize {
        self.below.size()
    }

    fn read(&mut self, place: usize, buffer: &mut Block) -> Result<(), Fault> {
        self.retried(|disk| disk.read(place, buffer))
    }

    fn write(&mut self, place: usize, block: &Block) -> Result<(), Fault> {
        self.retried(|disk| disk.write(place, block))
    }

    fn flush(&mut self) -> Result<(), Fault> {
        self.retried(|disk| disk.flush())
    }

    fn cut(&mut self, choice: u8) {
        self.below.cut(choice);
    }
}
