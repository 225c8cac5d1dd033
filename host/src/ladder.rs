//! What Plan and Room must answer, by 01's table and order, worked out from the arguments alone.

use crate::ffi::Answer;
use crate::model::{jobs, jobs_of_bytes, Job};
use std::ops::RangeInclusive;

/// The fields' greatest values; the least is 1.
pub const GREATEST: [u32; 4] = [65_535, 60_000, 168, 64];
pub const MOST_MACHINES: u32 = 64;
const MOST_ROWS: usize = 32;
const LAST_BOUNDARY: u32 = 168;

/// The answer of `vezhdanur_plan`.
pub fn plan_bytes(machines: u32, list: &[u8], plan_len: usize) -> Answer {
    let jobs = jobs_of_bytes(list);
    let short = plan_len < 336 * jobs.len();
    plan(machines, list.len() % 16 == 0, &jobs, short)
}

/// The answer of `vezhdanur_plan_numbers`.
pub fn plan_numbers(machines: u32, rows: &[u32], plan_len: usize) -> Answer {
    let jobs = jobs(rows);
    let short = plan_len < 168 * jobs.len();
    plan(machines, rows.len() % 4 == 0, &jobs, short)
}

/// The answer of `vezhdanur_room`.
pub fn room(machines: u32, list: &[u8], boundary: u32) -> Result<i32, Answer> {
    let jobs = jobs_of_bytes(list);
    if let Some(refusal) = bad_list(machines, list.len() % 16 == 0, &jobs) {
        return Err(refusal);
    }
    if boundary > LAST_BOUNDARY {
        return Err(Answer::refusal(9, 0, 0));
    }
    Ok(room_at(machines, &jobs, boundary))
}

/// 1 to 5, then 6, then 7.
fn plan(machines: u32, whole_rows: bool, jobs: &[Job], short_buffer: bool) -> Answer {
    if let Some(refusal) = bad_list(machines, whole_rows, jobs) {
        return refusal;
    }
    if short_buffer {
        return Answer::refusal(6, 0, 0);
    }
    match least_short(machines, jobs) {
        Some((boundary, shortage)) => Answer::refusal(7, boundary, shortage),
        None => Answer::YES,
    }
}

/// 1, 2, 3, then row by row: the fields in order, then a number of an earlier row.
fn bad_list(machines: u32, whole_rows: bool, jobs: &[Job]) -> Option<Answer> {
    if !(1..=MOST_MACHINES).contains(&machines) {
        return Some(Answer::refusal(1, 0, 0));
    }
    if !whole_rows {
        return Some(Answer::refusal(2, 0, 0));
    }
    if jobs.len() > MOST_ROWS {
        return Some(Answer::refusal(3, 0, 0));
    }
    for (row, job) in (0..).zip(jobs) {
        if let Some(field) = first_outside(&ranges(), job) {
            return Some(Answer::refusal(4, row, field));
        }
        let earlier = &jobs[..row as usize];
        if earlier.iter().any(|other| other.number == job.number) {
            return Some(Answer::refusal(5, row, 0));
        }
    }
    None
}

/// The ranges of the fields in a list.
pub fn ranges() -> [RangeInclusive<u32>; 4] {
    GREATEST.map(|greatest| 1..=greatest)
}

/// The first field of a job (from 1) that is outside its range.
pub fn first_outside(ranges: &[RangeInclusive<u32>; 4], job: &Job) -> Option<u32> {
    (1..)
        .zip(job.fields().iter().zip(ranges))
        .find(|(_, (value, range))| !range.contains(value))
        .map(|(field, _)| field)
}

/// The least boundary with negative room, and its shortage.
pub fn least_short(machines: u32, jobs: &[Job]) -> Option<(u32, u32)> {
    let mut boundaries = vec![0];
    boundaries.extend(jobs.iter().map(|job| job.deadline));
    boundaries.sort_unstable();
    boundaries
        .into_iter()
        .map(|b| (b, room_at(machines, jobs, b)))
        .find(|&(_, room)| room < 0)
        .map(|(b, room)| (b, room.unsigned_abs()))
}

/// C × b less the forced work.
pub fn room_at(machines: u32, jobs: &[Job], b: u32) -> i32 {
    let b = b as i32;
    let forced = |job: &Job| {
        let (work, deadline, bound) = (job.work as i32, job.deadline as i32, job.bound as i32);
        0.max(work - bound * 0.max(deadline - b))
    };
    machines as i32 * b - jobs.iter().map(forced).sum::<i32>()
}
