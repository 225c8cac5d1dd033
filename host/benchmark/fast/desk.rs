//! Admit and Run, on the bytes of a record as they stand.

use crate::jobs::{Jobs, MOST_JOBS, MOST_MACHINES, SLOTS};
use crate::list::{bad_field, GREATEST};
use crate::slots::Rule;
use host::ffi::Answer;
use host::model::Job;

/// A record: machines and clock, then the seats.
const RECORD: usize = SEATS + SEAT * MOST_JOBS;
const SEATS: usize = 8;
/// A seat: six numbers of 4 bytes.
const SEAT: usize = 24;
/// A seat's remaining work, after its job number and its admitted work.
const LEFT: usize = 8;
/// A pair of job number and machines for each seat.
const GIVEN: usize = 8 * MOST_JOBS;

const LAST_CLOCK: u32 = 100_000;
const UNSOUND: Answer = Answer::refusal(12, 0, 0);

/// Asks a desk to take a job.
pub fn admit(record: &mut [u8], job: Job) -> Answer {
    let Some(mut desk) = read(record) else {
        return UNSOUND;
    };
    let refusal = match not_seated(&desk, &job) {
        Some(refusal) => refusal,
        None => {
            let Job { work, bound, .. } = job;
            let slots = job.deadline - desk.clock;
            desk.jobs.push(job.number, work, slots, bound);
            let short = desk.jobs.least_short(desk.machines);
            desk.jobs.pop();
            let Some((boundary, shortage)) = short else {
                let seat = [job.number, work, work, job.deadline, bound, slots];
                insert(record, &desk.jobs, seat);
                return Answer::YES;
            };
            Answer::refusal(7, desk.clock + boundary, shortage)
        }
    };
    // Jobs that fit with one more fit without it, so only a refusal needs this walk.
    match desk.jobs.least_short(desk.machines) {
        Some(_) => UNSOUND,
        None => refusal,
    }
}

/// Runs a slot and writes what it gives out.
pub fn run(record: &mut [u8], given: &mut [u8]) -> Answer {
    let Some(desk) = read(record) else {
        return UNSOUND;
    };
    let mut rule = Rule::new(&desk.jobs, desk.machines);
    for slot in (2..=rule.last_slot()).rev() {
        rule.fill(slot, |_, _| ());
    }
    let mut machines = [0; MOST_JOBS];
    rule.fill(1, |job, more| machines[job] += u32::from(more));
    // The rule finishes every job exactly if no boundary is short, so there is no walk.
    if !rule.is_done() {
        return UNSOUND;
    }
    if given.len() < GIVEN {
        return Answer::refusal(6, 0, 0);
    }
    if desk.clock == LAST_CLOCK {
        return Answer::refusal(11, 0, 0);
    }
    give(&desk, &machines, &mut given[..GIVEN]);
    lower(record, desk.jobs.len, &machines);
    put(record, 4, desk.clock + 1);
    Answer::YES
}

/// A desk that is sound but for the walk; the jobs are as they count for planning.
struct Desk {
    machines: u32,
    clock: u32,
    jobs: Jobs,
}

fn number(bytes: &[u8], at: usize) -> u32 {
    u32::from_le_bytes(*bytes[at..].first_chunk().expect("4 bytes"))
}

fn put(bytes: &mut [u8], at: usize, number: u32) {
    bytes[at..at + 4].copy_from_slice(&number.to_le_bytes());
}

fn read(record: &[u8]) -> Option<Desk> {
    if record.len() != RECORD {
        return None;
    }
    let (machines, clock) = (number(record, 0), number(record, 4));
    if !(1..=MOST_MACHINES).contains(&machines) || clock > LAST_CLOCK {
        return None;
    }
    let mut jobs = Jobs::none();
    let mut before = 0;
    for at in (SEATS..RECORD).step_by(SEAT) {
        let seat = [0, 4, 8, 12, 16, 20].map(|field| number(record, at + field));
        if seat[0] == 0 {
            let unused = record[at..].iter().all(|&byte| byte == 0);
            return unused.then_some(Desk {
                machines,
                clock,
                jobs,
            });
        }
        let slots = slots_left(clock, before, &seat)?;
        before = seat[0];
        jobs.push(seat[0], seat[2], slots, seat[4]);
    }
    Some(Desk {
        machines,
        clock,
        jobs,
    })
}

/// The slots that a seat in use has left, if the seat is as it must be.
fn slots_left(clock: u32, before: u32, seat: &[u32; 6]) -> Option<u32> {
    let &[number, work, left, deadline, bound, slots] = seat;
    let slots_left = deadline.wrapping_sub(clock);
    let sound = number > before
        && number <= GREATEST[0]
        && work <= GREATEST[1]
        && (1..=work).contains(&left)
        && (clock + 1..=LAST_CLOCK).contains(&deadline)
        && (1..=GREATEST[3]).contains(&bound)
        && (slots_left..=SLOTS as u32).contains(&slots)
        && work <= bound * slots;
    sound.then_some(slots_left)
}

/// 4, 5, 8.
fn not_seated(desk: &Desk, job: &Job) -> Option<Answer> {
    let mut ranges = GREATEST.map(|greatest| (1, greatest));
    ranges[2] = (desk.clock + 1, LAST_CLOCK.min(desk.clock + SLOTS as u32));
    let fields = [job.number, job.work, job.deadline, job.bound];
    if let Some(field) = bad_field(&fields, &ranges) {
        return Some(Answer::refusal(4, 0, field));
    }
    if desk.jobs.has(job.number) {
        return Some(Answer::refusal(5, 0, 0));
    }
    (desk.jobs.len == MOST_JOBS).then_some(Answer::refusal(8, 0, 0))
}

/// Puts a seat in by its number; the ones after it move down.
fn insert(record: &mut [u8], jobs: &Jobs, seat: [u32; 6]) {
    let smaller = |&&number: &&u16| u32::from(number) < seat[0];
    let rank = jobs.number[..jobs.len].iter().take_while(smaller).count();
    let (at, end) = (SEATS + SEAT * rank, SEATS + SEAT * jobs.len);
    record.copy_within(at..end, at + SEAT);
    for (field, value) in seat.into_iter().enumerate() {
        put(record, at + 4 * field, value);
    }
}

/// The pairs of the held jobs, zeros after the last.
fn give(desk: &Desk, machines: &[u32; MOST_JOBS], given: &mut [u8]) {
    let numbers = &desk.jobs.number;
    for (pair, (&number, &machines)) in given.chunks_exact_mut(8).zip(numbers.iter().zip(machines))
    {
        put(pair, 0, number.into());
        put(pair, 4, machines);
    }
}

/// Remaining works fall, and the seats of jobs at zero are closed up.
fn lower(record: &mut [u8], held: usize, machines: &[u32; MOST_JOBS]) {
    let mut to = SEATS;
    for (job, machines) in machines[..held].iter().enumerate() {
        let from = SEATS + SEAT * job;
        let left = number(record, from + LEFT) - machines;
        if left > 0 {
            if to < from {
                record.copy_within(from..from + SEAT, to);
            }
            put(record, to + LEFT, left);
            to += SEAT;
        }
    }
    record[to..SEATS + SEAT * held].fill(0);
}
