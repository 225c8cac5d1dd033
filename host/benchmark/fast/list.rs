//! Plan, on numbers and on bytes.

use crate::jobs::{Jobs, MOST_JOBS, MOST_MACHINES, SLOTS};
use crate::slots::Rule;
use host::ffi::Answer;

/// The fields' greatest values; the least is 1.
pub const GREATEST: [u32; 4] = [65_535, 60_000, 168, 64];

/// Plans a list of 4 numbers a row into 168 numbers a row.
pub fn plan_numbers(machines: u32, rows: &[u32], plan: &mut [u16]) -> Answer {
    let n = rows.len() / 4;
    let row = |i: usize| {
        [
            rows[4 * i],
            rows[4 * i + 1],
            rows[4 * i + 2],
            rows[4 * i + 3],
        ]
    };
    let jobs = match checked(
        machines,
        rows.len().is_multiple_of(4),
        n,
        row,
        plan.len() / SLOTS,
    ) {
        Ok(jobs) => jobs,
        Err(refusal) => return refusal,
    };
    let plan = &mut plan[..SLOTS * n];
    plan.fill(0);
    write(&jobs, machines, |at, given| plan[at] += given);
    Answer::YES
}

/// Plans a list of 16 bytes a row into 336 bytes a row.
pub fn plan_bytes(machines: u32, list: &[u8], plan: &mut [u8]) -> Answer {
    let n = list.len() / 16;
    let number = |at: usize| u32::from_le_bytes(*list[at..].first_chunk().expect("4 bytes"));
    let row = |i: usize| [0, 4, 8, 12].map(|field| number(16 * i + field));
    let jobs = match checked(
        machines,
        list.len().is_multiple_of(16),
        n,
        row,
        plan.len() / (2 * SLOTS),
    ) {
        Ok(jobs) => jobs,
        Err(refusal) => return refusal,
    };
    let plan = &mut plan[..2 * SLOTS * n];
    plan.fill(0);
    // At most 64 machines: the higher byte stays 0.
    write(&jobs, machines, |at, given| plan[2 * at] += given as u8);
    Answer::YES
}

/// The jobs of a list that fits, or the refusal.
fn checked(
    machines: u32,
    whole_rows: bool,
    n: usize,
    row: impl Fn(usize) -> [u32; 4],
    rows_of_plan: usize,
) -> Result<Jobs, Answer> {
    if !(1..=MOST_MACHINES).contains(&machines) {
        return Err(Answer::refusal(1, 0, 0));
    }
    if !whole_rows {
        return Err(Answer::refusal(2, 0, 0));
    }
    if n > MOST_JOBS {
        return Err(Answer::refusal(3, 0, 0));
    }
    let jobs = jobs_of(n, row)?;
    if rows_of_plan < n {
        return Err(Answer::refusal(6, 0, 0));
    }
    match jobs.least_short(machines) {
        Some((boundary, shortage)) => Err(Answer::refusal(7, boundary, shortage)),
        None => Ok(jobs),
    }
}

/// The rows as jobs; 4 or 5 for the first row that cannot be one.
fn jobs_of(n: usize, row: impl Fn(usize) -> [u32; 4]) -> Result<Jobs, Answer> {
    let mut jobs = Jobs::none();
    for i in 0..n {
        let fields = row(i);
        if let Some(field) = bad_field(&fields, &GREATEST.map(|greatest| (1, greatest))) {
            return Err(Answer::refusal(4, i as u32, field));
        }
        let [number, work, deadline, bound] = fields;
        if jobs.has(number) {
            return Err(Answer::refusal(5, i as u32, 0));
        }
        jobs.push(number, work, deadline, bound);
    }
    Ok(jobs)
}

/// The first field, from 1, that is out of its range.
pub fn bad_field(fields: &[u32; 4], ranges: &[(u32, u32); 4]) -> Option<u32> {
    (1..)
        .zip(fields.iter().zip(ranges))
        .find(|(_, (value, (least, greatest)))| !(least..=greatest).contains(value))
        .map(|(field, _)| field)
}

/// Tells, turn by turn, which number of the plan rises by how many machines.
fn write(jobs: &Jobs, machines: u32, mut rise: impl FnMut(usize, u16)) {
    let mut rule = Rule::new(jobs, machines);
    for slot in (1..=rule.last_slot()).rev() {
        rule.fill(slot, |job, given| rise(SLOTS * job + slot - 1, given));
    }
}
