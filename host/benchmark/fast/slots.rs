//! 01's rule, slot by slot, with as many machines in one go as the rule gives to one job in a row.
//!
//! Let a job of bound k and run length L have k × (L − 1) + top units left, so that top is 1 to k. In a
//! slot it is first in line for its `top` units at run length L and then, down to its bound, for the
//! k − top others at L − 1. So each job has at most two turns in a slot. Jobs wait for their first turn
//! in the order of their claims, and they come to wait for the second one in the order of their
//! lowered claims: the next turn belongs to the head of one of two queues. Nothing is divided, but
//! for each job's first run length, and nothing is sorted anew.

use crate::jobs::{Jobs, MOST_JOBS, SLOTS};

/// One run length in a claim.
const LENGTH: u32 = 1 << 16;

/// A job in line: it has work left, and the slot at hand is not after its deadline.
#[derive(Clone, Copy, Default)]
struct Line {
    /// Run length × 2^16 + 65,535 − number: a greater claim goes first.
    claim: u32,
    top: u16,
    bound: u16,
    job: usize,
}

impl Line {
    fn new(jobs: &Jobs, job: usize) -> Line {
        let (work, bound) = (jobs.work[job], jobs.bound[job]);
        let below = (work - 1) / bound;
        Line {
            claim: LENGTH * (u32::from(below) + 1) + u32::from(u16::MAX - jobs.number[job]),
            top: work - below * bound,
            bound,
            job,
        }
    }
}

/// No job: the end of a chain.
const NOBODY: u8 = u8::MAX;

pub struct Rule<'a> {
    jobs: &'a Jobs,
    machines: u16,
    /// The jobs of each deadline as a chain: the first one, and the one after each.
    first: [u8; SLOTS + 1],
    after: [u8; MOST_JOBS],
    /// The first `len` are in line, by falling claim; in a slot, `had` of them had their first turn.
    lines: [Line; MOST_JOBS],
    len: usize,
    had: usize,
    /// Those of them that have work left, lowered, by falling claim; `had_again` had their second turn.
    lowered: [Line; MOST_JOBS],
    again: usize,
    had_again: usize,
}

impl<'a> Rule<'a> {
    pub fn new(jobs: &'a Jobs, machines: u32) -> Rule<'a> {
        let mut first = [NOBODY; SLOTS + 1];
        let mut after = [NOBODY; MOST_JOBS];
        for (job, &deadline) in jobs.deadline[..jobs.len].iter().enumerate() {
            after[job] = first[usize::from(deadline)];
            first[usize::from(deadline)] = job as u8;
        }
        Rule {
            jobs,
            machines: machines as u16,
            first,
            after,
            lines: [Line::default(); MOST_JOBS],
            len: 0,
            had: 0,
            lowered: [Line::default(); MOST_JOBS],
            again: 0,
            had_again: 0,
        }
    }

    /// The slot that is filled first.
    pub fn last_slot(&self) -> usize {
        self.jobs.deadline.iter().copied().max().unwrap_or(0).into()
    }

    /// Whether no job has work left, once slot 1 is filled.
    pub fn is_done(&self) -> bool {
        self.len == 0
    }

    /// Fills a slot; the slots after it are full. `give` is told each turn: a job and its machines.
    pub fn fill(&mut self, slot: usize, mut give: impl FnMut(usize, u16)) {
        self.join(slot);
        (self.had, self.again, self.had_again) = (0, 0, 0);
        let mut left = self.machines;
        while left > 0 {
            let Some((job, units)) = self.turn(left) else {
                break;
            };
            give(job, units);
            left -= units;
        }
        self.settle();
    }

    /// The jobs that are due in this slot come into line.
    fn join(&mut self, slot: usize) {
        let mut job = self.first[slot];
        while job != NOBODY {
            let line = Line::new(self.jobs, job.into());
            let mut at = self.len;
            while at > 0 && self.lines[at - 1].claim < line.claim {
                self.lines[at] = self.lines[at - 1];
                at -= 1;
            }
            self.lines[at] = line;
            self.len += 1;
            job = self.after[usize::from(job)];
        }
    }

    /// The next turn, if there is one: a job and what it takes of the machines left.
    fn turn(&mut self, left: u16) -> Option<(usize, u16)> {
        let first = self.lines[..self.len].get(self.had);
        let second = self.lowered[..self.again].get(self.had_again);
        match (first, second) {
            (None, None) => None,
            (Some(first), Some(second)) if first.claim < second.claim => Some(self.second(left)),
            (None, Some(_)) => Some(self.second(left)),
            _ => Some(self.first(left)),
        }
    }

    /// A first turn: up to `top` units. Fewer are the slot's last ones; else the job goes on to the
    /// second queue, unless it is finished.
    fn first(&mut self, left: u16) -> (usize, u16) {
        let line = &mut self.lines[self.had];
        let units = line.top.min(left);
        if units < line.top {
            line.top -= units;
        } else {
            self.had += 1;
            let mut lowered = *line;
            lowered.claim -= LENGTH;
            self.lowered[self.again] = lowered;
            self.again += usize::from(lowered.claim >= LENGTH);
        }
        (line.job, units)
    }

    /// A second turn: `top` is still what the job had in its first one.
    fn second(&mut self, left: u16) -> (usize, u16) {
        let line = &mut self.lowered[self.had_again];
        let units = (line.bound - line.top).min(left);
        line.top = line.bound - units;
        self.had_again += 1;
        (line.job, units)
    }

    /// The slot is over: the lowered lines go among those that had no turn. There are at most as many
    /// as had one, so a line is moved before it is overwritten.
    fn settle(&mut self) {
        for line in &mut self.lowered[self.had_again..self.again] {
            line.top = line.bound;
        }
        let (mut to, mut next) = (0, self.had);
        for line in &self.lowered[..self.again] {
            while next < self.len && self.lines[next].claim > line.claim {
                self.lines[to] = self.lines[next];
                (to, next) = (to + 1, next + 1);
            }
            self.lines[to] = *line;
            to += 1;
        }
        if to < next {
            self.lines.copy_within(next..self.len, to);
        }
        self.len = to + self.len - next;
    }
}
