//! The rule of the plan, machine by machine, and two rules that look right and are not.

use crate::model::{Job, Row, SLOTS};
use std::cmp::Reverse;

/// Fills the slots in the order given. Each machine goes to the job with the greatest claim, by
/// what remains of its work, among those that may still use the slot.
fn hand_out<C: Ord>(
    machines: u32,
    jobs: &[Job],
    slots: impl Iterator<Item = u32>,
    claim: impl Fn(&Job, u32) -> C,
) -> Vec<Row> {
    let mut plan = vec![[0; SLOTS]; jobs.len()];
    let mut left: Vec<u32> = jobs.iter().map(|job| job.work).collect();
    for slot in slots {
        let mut here = vec![0; jobs.len()];
        for _ in 0..machines {
            let qualifies =
                |&j: &usize| jobs[j].deadline >= slot && left[j] > 0 && here[j] < jobs[j].bound;
            let Some(first) = (0..jobs.len())
                .filter(qualifies)
                .max_by_key(|&j| claim(&jobs[j], left[j]))
            else {
                break;
            };
            left[first] -= 1;
            here[first] += 1;
            plan[first][slot as usize - 1] += 1;
        }
    }
    plan
}

fn last_slot(jobs: &[Job]) -> u32 {
    jobs.iter().map(|job| job.deadline).max().unwrap_or(0)
}

/// 01's rule: from the greatest deadline down, the greatest run length of what remains first, equal
/// ones by the smaller number.
pub fn plan(machines: u32, jobs: &[Job]) -> Vec<Row> {
    hand_out(machines, jobs, (1..=last_slot(jobs)).rev(), |job, left| {
        (left.div_ceil(job.bound), Reverse(job.number))
    })
}

/// WRONG: earliest deadline first, from slot 1 on.
pub fn earliest_deadline(machines: u32, jobs: &[Job]) -> Vec<Row> {
    hand_out(machines, jobs, 1..=last_slot(jobs), |job, _| {
        (Reverse(job.deadline), Reverse(job.number))
    })
}

/// WRONG: 01's rule with the greatest remaining work in place of the greatest run length.
pub fn greatest_work(machines: u32, jobs: &[Job]) -> Vec<Row> {
    hand_out(machines, jobs, (1..=last_slot(jobs)).rev(), |job, left| {
        (left, Reverse(job.number))
    })
}
