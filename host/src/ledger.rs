//! Demand 3 on the calls and answers of a history alone: a job accepted and not withdrawn has had
//! exactly its work once its due slot has run, never above its bound, never more machines in use
//! than the room has; and an admission is refused for want of room exactly when no schedule from
//! that slot on could finish what remains.

use crate::call::{Call, Reply, Told};
use crate::desk::{bad_field, Figures, Given};
use crate::flow;
use crate::model::Job;

/// An admission in force: accepted, not withdrawn, its number not accepted again, and its due slot
/// not run.
#[derive(Clone, Copy, Debug)]
pub struct Entry {
    /// As it was admitted; the deadline is a slot number on the clock.
    pub job: Job,
    /// The machines that Run has answered for it since. Wide, as a wrong answer may be any number.
    pub had: u64,
}

impl Entry {
    fn left(&self) -> u64 {
        u64::from(self.job.work).saturating_sub(self.had)
    }

    pub fn is_done(&self) -> bool {
        self.left() == 0
    }
}

pub struct Ledger {
    machines: u32,
    clock: u32,
    /// One for a number at most: a later admission of it is a new job.
    entries: Vec<Entry>,
}

impl Ledger {
    /// Of a desk that starts at this clock with these jobs accepted.
    pub fn new(machines: u32, clock: u32, jobs: impl Iterator<Item = Job>) -> Ledger {
        Ledger {
            machines,
            clock,
            entries: jobs.map(|job| Entry { job, had: 0 }).collect(),
        }
    }

    pub fn clock(&self) -> u32 {
        self.clock
    }

    pub fn entries(&self) -> &[Entry] {
        &self.entries
    }

    pub fn entry(&self, number: u32) -> Option<&Entry> {
        let of_number = |entry: &&Entry| entry.job.number == number;
        self.entries.iter().find(of_number)
    }

    /// Puts an answer down. It is taken as it was given, right or wrong.
    pub fn note(&mut self, call: &Call, reply: &Reply) {
        match (call, reply) {
            (Call::Admit(job), Ok(_)) => {
                self.close(job.number);
                self.entries.push(Entry { job: *job, had: 0 });
            }
            (Call::Withdraw(number), Ok(_)) => self.close(*number),
            (Call::Run { .. }, Ok(Told::Given(given))) => {
                for entry in &mut self.entries {
                    entry.had += machines_for(given, entry.job.number);
                }
                self.clock += 1;
                self.entries.retain(|entry| entry.job.deadline > self.clock);
            }
            _ => {}
        }
    }

    fn close(&mut self, number: u32) {
        self.entries.retain(|entry| entry.job.number != number);
    }

    /// How an answer, not yet put down, breaks demand 3.
    pub fn fault(&self, call: &Call, reply: &Reply) -> Option<String> {
        match (call, reply) {
            (_, Err(refusal)) if refusal.number == 12 => Some("a 12 in a history".into()),
            (Call::Admit(job), Ok(_)) => self.fault_of_yes(job),
            (Call::Admit(job), Err(refusal)) if refusal.number == 7 => self.fault_of_no(job),
            (Call::Withdraw(number), Ok(Told::Left(left))) => self.fault_of_left(*number, *left),
            (Call::Look { number, .. }, Ok(Told::Figures(figures))) => {
                self.fault_of_figures(*number, figures)
            }
            (Call::Run { .. }, Ok(Told::Given(given))) => self.fault_of_slot(given),
            _ => None,
        }
    }

    fn fault_of_yes(&self, job: &Job) -> Option<String> {
        let number = job.number;
        if let Some(field) = bad_field(self.clock, job) {
            return Some(format!("job {number} accepted, its field {field} is bad"));
        }
        if self.entry(number).is_some_and(|entry| !entry.is_done()) {
            return Some(format!("job {number} accepted while it is held"));
        }
        (!self.could_finish(job)).then(|| format!("job {number} accepted without a schedule"))
    }

    /// A 7 is for an admission that passes every other check.
    fn fault_of_no(&self, job: &Job) -> Option<String> {
        let wrong = bad_field(self.clock, job).is_none() && self.could_finish(job);
        wrong.then(|| format!("job {} refused despite a schedule", job.number))
    }

    /// Whether some schedule from the next slot on finishes what remains and the new job.
    fn could_finish(&self, new: &Job) -> bool {
        let mut jobs = vec![*new];
        for entry in self.entries.iter().filter(|entry| !entry.is_done()) {
            jobs.push(Job {
                work: entry.left() as u32,
                ..entry.job
            });
        }
        for job in &mut jobs {
            job.deadline -= self.clock;
        }
        flow::fits(self.machines, &jobs)
    }

    /// The job that is withdrawn or looked at must be on the desk, with what it has not had.
    fn fault_of_left(&self, number: u32, left: u32) -> Option<String> {
        match self.entry(number) {
            Some(entry) if !entry.is_done() && entry.left() == u64::from(left) => None,
            Some(entry) => Some(format!("job {number} has {}, not {left}", entry.left())),
            None => Some(format!("job {number} is not held")),
        }
    }

    fn fault_of_figures(&self, number: u32, figures: &Figures) -> Option<String> {
        let &[left, deadline, bound, _] = figures;
        let fault = self.fault_of_left(number, left);
        if fault.is_some() {
            return fault;
        }
        let job = self.entry(number)?.job;
        let other = (deadline, bound) != (job.deadline, job.bound);
        other.then(|| format!("job {number} is shown with another deadline or bound"))
    }

    fn fault_of_slot(&self, given: &Given) -> Option<String> {
        let in_use: u64 = given.iter().map(|&(_, machines)| u64::from(machines)).sum();
        if in_use > u64::from(self.machines) {
            return Some(format!("{in_use} machines in use"));
        }
        let mut of_entries = 0;
        for entry in &self.entries {
            let machines = machines_for(given, entry.job.number);
            let fault = self.fault_of_share(entry, machines);
            if fault.is_some() {
                return fault;
            }
            of_entries += machines;
        }
        (in_use != of_entries).then(|| "machines for a job that is not in force".into())
    }

    /// What one job is given in the next slot.
    fn fault_of_share(&self, entry: &Entry, machines: u64) -> Option<String> {
        let Job {
            number,
            work,
            deadline,
            bound,
        } = entry.job;
        let had = entry.had + machines;
        if machines > u64::from(bound) {
            return Some(format!("job {number} over its bound: {machines}"));
        }
        if had > u64::from(work) {
            return Some(format!("job {number} has had {had} of {work}"));
        }
        let due = deadline == self.clock + 1;
        (due && had < u64::from(work)).then(|| format!("job {number} is due with {had} of {work}"))
    }
}

fn machines_for(given: &Given, number: u32) -> u64 {
    given
        .iter()
        .filter(|pair| pair.0 == number)
        .map(|pair| u64::from(pair.1))
        .sum()
}
