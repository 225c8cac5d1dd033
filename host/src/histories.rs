//! Random histories of calls on a desk, drawn by one who hears the answers.

use crate::call::{Call, Reply, FIGURES_BYTES, GIVEN_BYTES};
use crate::desk::{ranges, Desk, FURTHEST, LAST_CLOCK};
use crate::ledger::{Entry, Ledger};
use crate::model::Job;
use crate::random::Random;

/// The most calls that are drawn in a history.
pub const MOST_CALLS: u32 = 200;

/// What a history's jobs are like, and how often a slot is run.
#[derive(Clone, Copy)]
pub struct Manner {
    /// How far ahead of the clock the deadlines lie at most.
    slots: u32,
    /// The greatest job number, bound and work.
    numbers: u32,
    widest: u32,
    most_work: u32,
    /// For 16 other calls so many Runs.
    runs: usize,
}

/// A few numbers and short deadlines, so that the room is full again and again.
pub const ORDINARY: Manner = Manner {
    slots: 8,
    numbers: 12,
    widest: 6,
    most_work: 16,
    runs: 4,
};
/// Many small jobs, so that all seats are taken.
pub const CROWDED: Manner = Manner {
    slots: 32,
    numbers: 300,
    widest: 3,
    most_work: 8,
    runs: 1,
};
/// The widest fields.
pub const WIDE: Manner = Manner {
    slots: FURTHEST,
    numbers: 65_535,
    widest: 64,
    most_work: 10_753,
    runs: 4,
};

/// A history's calls, each with its reply.
pub type History = Vec<(Call, Reply)>;

/// Draws calls and makes them with `ask`, then runs slots until the last job in force is due.
pub fn play(
    start: &Desk,
    manner: Manner,
    random: &mut Random,
    mut ask: impl FnMut(Call, &mut Random) -> Result<Reply, String>,
) -> Result<History, String> {
    let mut history = History::new();
    let mut ledger = ledger_of(start);
    let mut caller = Caller {
        manner,
        refused: None,
    };
    let drawn = random.within(1, MOST_CALLS);
    for turn in 0..drawn + FURTHEST {
        let call = if turn < drawn {
            caller.draw(&ledger, random)
        } else if ledger.entries().is_empty() {
            break;
        } else {
            Call::RUN
        };
        let reply = ask(call, random)?;
        ledger.note(&call, &reply);
        caller.hear(&call, &reply);
        history.push((call, reply));
    }
    Ok(history)
}

/// The ledger of a history from this desk on. What remains of a job that it holds already is the
/// work that the history owes.
pub fn ledger_of(start: &Desk) -> Ledger {
    let jobs = start.held.iter().map(|held| Job {
        number: held.number,
        work: held.left,
        deadline: held.deadline,
        bound: held.bound,
    });
    Ledger::new(start.machines, start.clock, jobs)
}

struct Caller {
    manner: Manner,
    /// The last job that did not fit, and the shortage.
    refused: Option<(Job, u32)>,
}

impl Caller {
    fn hear(&mut self, call: &Call, reply: &Reply) {
        if let Call::Admit(job) = call {
            self.refused = match reply {
                Err(refusal) if refusal.number == 7 => Some((*job, refusal.amount)),
                _ => None,
            };
        }
    }

    fn draw(&self, ledger: &Ledger, random: &mut Random) -> Call {
        match random.below(16 + self.manner.runs) {
            0..=8 => Call::Admit(self.job(ledger, random)),
            9..=11 => Call::Withdraw(self.number(ledger, random)),
            12..=15 => Call::Look {
                number: self.number(ledger, random),
                figures_len: buffer(FIGURES_BYTES, random),
            },
            _ => Call::Run {
                given_len: buffer(GIVEN_BYTES, random),
            },
        }
    }

    /// A number to withdraw or look at: mostly one that is in force, held or done.
    fn number(&self, ledger: &Ledger, random: &mut Random) -> u32 {
        let entries = ledger.entries();
        match random.below(8) {
            0 => random.pick(&[0, 65_536, u32::MAX]),
            1..=5 if !entries.is_empty() => random.pick(entries).job.number,
            _ => random.within(1, self.manner.numbers),
        }
    }

    fn job(&self, ledger: &Ledger, random: &mut Random) -> Job {
        match self.refused {
            Some((job, shortage)) if job.work > shortage && random.one_in(2) => {
                let work = job.work - shortage + u32::from(random.one_in(4));
                Job { work, ..job }
            }
            _ => {
                let mut job = self.new_job(ledger, random);
                if random.one_in(16) {
                    spoil(&mut job, ledger.clock(), random);
                }
                job
            }
        }
    }

    fn new_job(&self, ledger: &Ledger, random: &mut Random) -> Job {
        let manner = self.manner;
        let slots = random.within(1, manner.slots);
        let bound = random.within(1, manner.widest);
        // Rarely more than the job could do even alone.
        let most = bound * slots + u32::from(random.one_in(16));
        Job {
            number: self.new_number(ledger, random),
            work: random.within(1, most.min(manner.most_work)),
            deadline: LAST_CLOCK.min(ledger.clock() + slots),
            bound,
        }
    }

    /// Often the number of a job that was done before its due slot, rarely one that is held.
    fn new_number(&self, ledger: &Ledger, random: &mut Random) -> u32 {
        let done: Vec<Entry> = ledger
            .entries()
            .iter()
            .copied()
            .filter(Entry::is_done)
            .collect();
        match random.below(12) {
            0..=7 if !done.is_empty() => random.pick(&done).job.number,
            8 if !ledger.entries().is_empty() => random.pick(ledger.entries()).job.number,
            _ => random.within(1, self.manner.numbers),
        }
    }
}

/// Puts one field out of range.
fn spoil(job: &mut Job, clock: u32, random: &mut Random) {
    let field = random.below(4);
    let value = match field {
        0 => &mut job.number,
        1 => &mut job.work,
        2 => &mut job.deadline,
        _ => &mut job.bound,
    };
    *value = random.outside(ranges(clock)[field].clone(), *value);
}

/// The length of a buffer: mostly just what is needed.
fn buffer(needed: usize, random: &mut Random) -> usize {
    match random.below(16) {
        0 => random.below(needed),
        1 => needed - 1,
        2 => needed + 1 + random.below(needed),
        _ => needed,
    }
}
