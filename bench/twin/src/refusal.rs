//! Why a call is refused, and the number that a listing shows for it.

use crate::disk::Fault;

#[derive(Clone, Copy, PartialEq, Eq, Debug)]
pub enum Refusal {
    /// The place is not one of the cache's.
    Place,
    /// The place has an open write.
    PlaceOpen,
    /// There is no room for one more write.
    NoRoom,
    /// Too few marks are left.
    NoMarks,
    /// No open write has the ticket.
    NoTicket,
    /// The disk did not carry out its call.
    Fault(Fault),
    /// Nothing is collected that could be sealed.
    NothingCollected,
    /// A group is under way.
    GroupUnderWay,
    /// The last group number is used.
    NoNumbers,
    /// The block at the head's place is no head.
    NoHead,
    /// An ordered cache has no groups.
    SealOfOrdered,
}

impl Refusal {
    pub fn number(self) -> u32 {
        match self {
            Refusal::Place => 2,
            Refusal::PlaceOpen => 3,
            Refusal::NoRoom => 4,
            Refusal::NoMarks => 5,
            Refusal::NoTicket => 6,
            Refusal::Fault(_) => 7,
            Refusal::NothingCollected => 8,
            Refusal::GroupUnderWay => 9,
            Refusal::NoNumbers => 10,
            Refusal::NoHead => 11,
            Refusal::SealOfOrdered => 15,
        }
    }

    /// What the listing shows beside the number: the tries of a fault, else 0.
    pub fn value(self) -> u32 {
        match self {
            Refusal::Fault(fault) => fault.tries,
            _ => 0,
        }
    }
}

impl From<Fault> for Refusal {
    fn from(fault: Fault) -> Refusal {
        Refusal::Fault(fault)
    }
}
