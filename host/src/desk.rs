//! The desk by 01's words, in a way of its own: an admission is decided by the max-flow, and a slot
//! is given out by the independent rule.

use crate::ffi::Answer;
use crate::ladder::{self, MOST_MACHINES};
use crate::model::{Job, Row};
use crate::{flow, rule};
use std::array;
use std::ops::RangeInclusive;

/// The places of the table, and so the most jobs on a desk.
pub const SEATS: usize = 32;
/// The last clock, and the last slot that a job may be due in.
pub const LAST_CLOCK: u32 = 100_000;
/// The furthest that a deadline may lie ahead of the clock.
pub const FURTHEST: u32 = 168;

const NOT_HELD: Answer = Answer::refusal(10, 0, 0);

/// A held job. The default is an unused place of the table.
#[derive(Clone, Copy, Debug, Default, PartialEq, Eq)]
pub struct Held {
    pub number: u32,
    /// The work that it was admitted with.
    pub work: u32,
    /// What remains of it.
    pub left: u32,
    /// A slot number on the clock.
    pub deadline: u32,
    pub bound: u32,
    /// The slots that it had at admission.
    pub slots: u32,
}

#[derive(Clone, Debug, PartialEq, Eq)]
pub struct Desk {
    pub machines: u32,
    pub clock: u32,
    /// By rising number.
    pub held: Vec<Held>,
}

/// What Look shows: remaining work, deadline, bound, leeway.
pub type Figures = [u32; 4];

/// What Run gives out: job number and machines.
pub type Given = [(u32, u32); SEATS];

/// The ranges of a new job's fields at this clock.
pub fn ranges(clock: u32) -> [RangeInclusive<u32>; 4] {
    let mut ranges = ladder::ranges();
    ranges[2] = clock + 1..=LAST_CLOCK.min(clock + FURTHEST);
    ranges
}

/// The first field of a job (from 1) that Admit refuses at this clock.
pub fn bad_field(clock: u32, job: &Job) -> Option<u32> {
    ladder::first_outside(&ranges(clock), job)
}

impl Desk {
    /// The window leaves its bytes as they are in a refusal, so the one-machine desk that a refused
    /// Open returns in 01 has no place here.
    pub fn open(machines: u32) -> Result<Desk, Answer> {
        if !(1..=MOST_MACHINES).contains(&machines) {
            return Err(Answer::refusal(1, 0, 0));
        }
        Ok(Desk {
            machines,
            clock: 0,
            held: Vec::new(),
        })
    }

    /// 4, 5, 8, 7.
    pub fn admit(&mut self, job: Job) -> Result<(), Answer> {
        if let Some(field) = bad_field(self.clock, &job) {
            return Err(Answer::refusal(4, 0, field));
        }
        if self.seat(job.number).is_ok() {
            return Err(Answer::refusal(5, 0, 0));
        }
        if self.held.len() == SEATS {
            return Err(Answer::refusal(8, 0, 0));
        }
        let slots = job.deadline - self.clock;
        let mut jobs = self.jobs();
        jobs.push(Job {
            deadline: slots,
            ..job
        });
        if !flow::fits(self.machines, &jobs) {
            let (boundary, shortage) = ladder::least_short(self.machines, &jobs)
                .expect("a list without a schedule has a short boundary");
            return Err(Answer::refusal(7, self.clock + boundary, shortage));
        }
        self.held.push(Held {
            number: job.number,
            work: job.work,
            left: job.work,
            deadline: job.deadline,
            bound: job.bound,
            slots,
        });
        self.held.sort_by_key(|held| held.number);
        Ok(())
    }

    /// The remaining work of the job that is taken off.
    pub fn withdraw(&mut self, number: u32) -> Result<u32, Answer> {
        let seat = self.seat(number)?;
        Ok(self.held.remove(seat).left)
    }

    pub fn look(&self, number: u32) -> Result<Figures, Answer> {
        let held = &self.held[self.seat(number)?];
        let leeway = 100 * held.slots / held.work.div_ceil(held.bound);
        Ok([held.left, held.deadline, held.bound, leeway])
    }

    pub fn run(&mut self) -> Result<Given, Answer> {
        if self.clock == LAST_CLOCK {
            return Err(Answer::refusal(11, 0, 0));
        }
        let plan = rule::plan(self.machines, &self.jobs());
        let in_slot_1 = |row: &Row| u32::from(row[0]);
        let machines: Vec<u32> = plan.iter().map(in_slot_1).collect();
        let given = array::from_fn(|seat| match self.held.get(seat) {
            Some(held) => (held.number, machines[seat]),
            None => (0, 0),
        });
        for (held, machines) in self.held.iter_mut().zip(machines) {
            held.left -= machines;
        }
        self.held.retain(|held| held.left > 0);
        self.clock += 1;
        Ok(given)
    }

    /// Whether the ranges are kept and the held jobs have a schedule. The order and the zeros of a
    /// table are its record's.
    pub fn is_sound(&self) -> bool {
        (1..=MOST_MACHINES).contains(&self.machines)
            && self.clock <= LAST_CLOCK
            && self.held.iter().all(|held| self.is_in_range(held))
            && flow::fits(self.machines, &self.jobs())
    }

    fn is_in_range(&self, held: &Held) -> bool {
        let [numbers, works, _, bounds] = ladder::ranges();
        numbers.contains(&held.number)
            && works.contains(&held.work)
            && (1..=held.work).contains(&held.left)
            && (self.clock + 1..=LAST_CLOCK).contains(&held.deadline)
            && bounds.contains(&held.bound)
            && (1..=FURTHEST).contains(&held.slots)
            && held.deadline - self.clock <= held.slots
            && held.work <= held.bound * held.slots
    }

    /// The place of a held job in the table, from 0.
    fn seat(&self, number: u32) -> Result<usize, Answer> {
        let of_number = |held: &Held| held.number == number;
        self.held.iter().position(of_number).ok_or(NOT_HELD)
    }

    /// The held jobs as they count for planning.
    pub fn jobs(&self) -> Vec<Job> {
        let job = |held: &Held| Job {
            number: held.number,
            work: held.left,
            deadline: held.deadline - self.clock,
            bound: held.bound,
        };
        self.held.iter().map(job).collect()
    }
}
