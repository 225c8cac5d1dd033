//! The record of a desk at the window: 194 numbers of 4 bytes, lowest byte first. They are machines
//! and clock, then the table, six numbers a seat. Any bytes of that length are a record; a sound
//! record is a desk.

use crate::desk::{Desk, Held, SEATS};
use crate::model::{bytes, numbers_of_bytes};
use std::array;

pub const RECORD_BYTES: usize = 776;

/// A seat's numbers: job number, admitted and remaining work, deadline, bound, slots at admission.
const FIELDS: usize = 6;

#[derive(Clone, Debug, PartialEq, Eq)]
pub struct Record {
    pub machines: u32,
    pub clock: u32,
    pub seats: [Held; SEATS],
}

impl Record {
    pub fn of(desk: &Desk) -> Record {
        let seat = |seat| desk.held.get(seat).copied().unwrap_or_default();
        Record {
            machines: desk.machines,
            clock: desk.clock,
            seats: array::from_fn(seat),
        }
    }

    pub fn read(record: &[u8]) -> Option<Record> {
        if record.len() != RECORD_BYTES {
            return None;
        }
        let numbers = numbers_of_bytes(record);
        Some(Record {
            machines: numbers[0],
            clock: numbers[1],
            seats: array::from_fn(|seat| held(&numbers[2 + FIELDS * seat..])),
        })
    }

    pub fn bytes(&self) -> Vec<u8> {
        let mut numbers = vec![self.machines, self.clock];
        numbers.extend(self.seats.iter().flat_map(fields));
        bytes(&numbers)
    }

    /// How many seats are in use: the first unused one has number 0.
    pub fn used(&self) -> usize {
        let in_use = |seat: &&Held| seat.number != 0;
        self.seats.iter().take_while(in_use).count()
    }

    /// The desk, if the record is sound.
    pub fn desk(&self) -> Option<Desk> {
        let (held, unused) = self.seats.split_at(self.used());
        let desk = Desk {
            machines: self.machines,
            clock: self.clock,
            held: held.to_vec(),
        };
        let rises = held.windows(2).all(|pair| pair[0].number < pair[1].number);
        let ends_in_zeros = unused.iter().all(|seat| *seat == Held::default());
        (rises && ends_in_zeros && desk.is_sound()).then_some(desk)
    }
}

/// The record of a desk.
pub fn encode(desk: &Desk) -> Vec<u8> {
    Record::of(desk).bytes()
}

/// The desk of a record; none if the length is wrong or the record is not sound.
pub fn decode(record: &[u8]) -> Option<Desk> {
    Record::read(record)?.desk()
}

fn fields(seat: &Held) -> [u32; FIELDS] {
    [
        seat.number,
        seat.work,
        seat.left,
        seat.deadline,
        seat.bound,
        seat.slots,
    ]
}

fn held(numbers: &[u32]) -> Held {
    Held {
        number: numbers[0],
        work: numbers[1],
        left: numbers[2],
        deadline: numbers[3],
        bound: numbers[4],
        slots: numbers[5],
    }
}
