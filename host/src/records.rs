//! Random sound records, and the ways to make one unsound.

use crate::desk::{Desk, Held, FURTHEST, LAST_CLOCK, SEATS};
use crate::lists::{self, List};
use crate::random::Random;
use crate::record::Record;
use std::array;

/// A sound record of a few jobs, now and then of as many as a desk can hold. Most of them no
/// history leads to.
pub fn sound(random: &mut Random) -> Desk {
    let list: fn(&mut Random) -> List = match random.below(256) {
        0 => lists::at_the_limits,
        1..=80 => lists::small,
        _ => lists::tight,
    };
    loop {
        let list = list(random);
        let latest = latest_clock(&list);
        let clock = match random.below(3) {
            0 => 0,
            1 => random.within(0, latest),
            _ => latest - random.within(0, 4),
        };
        if let Some(desk) = held(&list, clock, random).desk() {
            return desk;
        }
    }
}

/// A sound record of a few jobs, one of which may be due in the last slot of all.
pub fn near_the_end(random: &mut Random) -> Desk {
    loop {
        let list = lists::small(random);
        let clock = latest_clock(&list) - random.within(0, 16);
        if let Some(desk) = held(&list, clock, random).desk() {
            return desk;
        }
    }
}

/// The last clock at which the deadlines of a list still lie in range.
fn latest_clock((_, jobs): &List) -> u32 {
    LAST_CLOCK - jobs.iter().map(|job| job.deadline).max().unwrap_or(0)
}

/// The jobs of a list as they may stand on a desk at this clock. The record is sound if they fit.
fn held((machines, jobs): &List, clock: u32, random: &mut Random) -> Record {
    let mut held: Vec<Held> = jobs
        .iter()
        .map(|job| {
            let left = job.work.min(job.bound * FURTHEST);
            let fewest = job.deadline.max(left.div_ceil(job.bound));
            let slots = random.within_or_end(fewest, FURTHEST);
            Held {
                number: job.number,
                work: random.within_or_end(left, job.bound * slots),
                left,
                deadline: clock + job.deadline,
                bound: job.bound,
                slots,
            }
        })
        .collect();
    held.sort_by_key(|held| held.number);
    Record::of(&Desk {
        machines: *machines,
        clock,
        held,
    })
}

/// A name, and what is done to a sound record with two jobs at least and a seat to spare. Where it
/// can't be done to that record, the answer is false.
pub type Unsoundness = (&'static str, fn(&mut Record, &mut Random) -> bool);

/// Each leaves one thing wrong, and where that can be, nothing else: so no test of a sound record
/// can be left out unnoticed.
#[rustfmt::skip]
pub const UNSOUND: &[Unsoundness] = &[
    // The room and the clock.
    ("no machines, no jobs", no_machines),
    ("more than 64 machines", too_many_machines),
    ("a clock over 100,000, no jobs", clock_over_its_end),
    ("a clock at a job's deadline or past it", clock_past_a_deadline),
    ("a clock further back than a job's slots", clock_too_far_back),
    // The table.
    ("a number 0 among the jobs", number_0_among_the_jobs),
    ("a number 0 for the last job", number_0_for_the_last_job),
    ("a number over 65,535", number_over_its_end),
    ("a number twice", number_twice),
    ("two neighbours swapped", neighbours_swapped),
    ("an unused seat that is not zero", unused_seat_not_zero),
    ("an empty seat among the jobs", empty_seat_among_the_jobs),
    ("a job after an unused seat", job_after_an_unused_seat),
    // A job's fields.
    ("no admitted work", no_work),
    ("an admitted work over 60,000", work_over_its_end),
    ("an admitted work below what remains", work_below_left),
    ("an admitted work over bound × slots", work_over_bound_by_slots),
    ("nothing that remains", nothing_left),
    ("more that remains than was admitted", left_over_work),
    ("a deadline at the clock or before it", deadline_not_ahead),
    ("a deadline further ahead than the slots", deadline_too_far_ahead),
    ("a deadline over 100,000", deadline_over_its_end),
    ("no bound", no_bound),
    ("a bound over 64", bound_over_its_end),
    ("no slots", no_slots),
    ("more than 168 slots", slots_over_their_end),
    ("fewer slots than to the deadline", slots_below_the_deadline),
    // All in range, and a boundary short.
    ("jobs that do not fit", jobs_that_do_not_fit),
    ("too few machines", too_few_machines),
    ("more that remains than fits", more_left_than_fits),
    ("a deadline too near", deadline_too_near),
    ("a bound too low", bound_too_low),
];

/// A sound record with two jobs at least and a seat to spare.
pub fn to_damage(random: &mut Random) -> Desk {
    loop {
        let desk = sound(random);
        if (2..SEATS).contains(&desk.held.len()) {
            return desk;
        }
    }
}

/// A record with just this wrong.
pub fn unsound((_, damage): &Unsoundness, random: &mut Random) -> Record {
    loop {
        let mut record = Record::of(&to_damage(random));
        if damage(&mut record, random) {
            return record;
        }
    }
}

fn some_job<'a>(record: &'a mut Record, random: &mut Random) -> &'a mut Held {
    let used = record.used();
    &mut record.seats[random.below(used)]
}

/// A job that has another one after it.
fn some_job_but_the_last(record: &Record, random: &mut Random) -> usize {
    random.below(record.used() - 1)
}

fn last_job(record: &mut Record) -> &mut Held {
    &mut record.seats[record.used() - 1]
}

fn remove_all_jobs(record: &mut Record) {
    record.seats = [Held::default(); SEATS];
}

fn no_machines(record: &mut Record, _: &mut Random) -> bool {
    remove_all_jobs(record);
    record.machines = 0;
    true
}

fn too_many_machines(record: &mut Record, random: &mut Random) -> bool {
    record.machines = random.outside(0..=64, record.machines);
    true
}

fn clock_over_its_end(record: &mut Record, random: &mut Random) -> bool {
    remove_all_jobs(record);
    record.clock = random.outside(0..=LAST_CLOCK, record.clock);
    true
}

fn clock_past_a_deadline(record: &mut Record, random: &mut Random) -> bool {
    let deadline = some_job(record, random).deadline;
    record.clock = deadline + random.below(3) as u32;
    true
}

fn clock_too_far_back(record: &mut Record, random: &mut Random) -> bool {
    let Held {
        deadline, slots, ..
    } = *some_job(record, random);
    if deadline <= slots {
        return false;
    }
    record.clock = random.within_or_end(0, deadline - slots - 1);
    true
}

fn number_0_among_the_jobs(record: &mut Record, random: &mut Random) -> bool {
    record.seats[some_job_but_the_last(record, random)].number = 0;
    true
}

fn number_0_for_the_last_job(record: &mut Record, _: &mut Random) -> bool {
    last_job(record).number = 0;
    true
}

/// The last job, so that the numbers still rise.
fn number_over_its_end(record: &mut Record, random: &mut Random) -> bool {
    let job = last_job(record);
    job.number = random.outside(0..=65_535, job.number);
    true
}

fn number_twice(record: &mut Record, random: &mut Random) -> bool {
    let seat = some_job_but_the_last(record, random);
    record.seats[seat].number = record.seats[seat + 1].number;
    true
}

fn neighbours_swapped(record: &mut Record, random: &mut Random) -> bool {
    let seat = some_job_but_the_last(record, random);
    record.seats.swap(seat, seat + 1);
    true
}

fn unused_seat_not_zero(record: &mut Record, random: &mut Random) -> bool {
    let seat = record.used() + random.below(SEATS - record.used());
    let seat = &mut record.seats[seat];
    let field = match random.below(5) {
        0 => &mut seat.work,
        1 => &mut seat.left,
        2 => &mut seat.deadline,
        3 => &mut seat.bound,
        _ => &mut seat.slots,
    };
    *field = random.pick(&[1, 1 << 8, 1 << 16, 1 << 31, u32::MAX]);
    true
}

fn empty_seat_among_the_jobs(record: &mut Record, random: &mut Random) -> bool {
    record.seats[some_job_but_the_last(record, random)] = Held::default();
    true
}

fn job_after_an_unused_seat(record: &mut Record, random: &mut Random) -> bool {
    let used = record.used();
    record
        .seats
        .swap(used - 1, used + random.below(SEATS - used));
    true
}

fn no_work(record: &mut Record, random: &mut Random) -> bool {
    some_job(record, random).work = 0;
    true
}

fn work_over_its_end(record: &mut Record, random: &mut Random) -> bool {
    let job = some_job(record, random);
    job.work = random.outside(0..=60_000, job.work);
    true
}

fn work_below_left(record: &mut Record, random: &mut Random) -> bool {
    let job = some_job(record, random);
    job.work = random.within_or_end(0, job.left - 1);
    true
}

fn work_over_bound_by_slots(record: &mut Record, random: &mut Random) -> bool {
    let job = some_job(record, random);
    job.work = random.within_or_end(job.bound * job.slots + 1, 60_000);
    true
}

fn nothing_left(record: &mut Record, random: &mut Random) -> bool {
    some_job(record, random).left = 0;
    true
}

fn left_over_work(record: &mut Record, random: &mut Random) -> bool {
    let job = some_job(record, random);
    job.left = random.within_or_end(job.work + 1, u32::MAX);
    true
}

fn deadline_not_ahead(record: &mut Record, random: &mut Random) -> bool {
    let clock = record.clock;
    some_job(record, random).deadline = random.within_or_end(0, clock);
    true
}

fn deadline_too_far_ahead(record: &mut Record, random: &mut Random) -> bool {
    let clock = record.clock;
    let job = some_job(record, random);
    let first = clock + job.slots + 1;
    let last = random.pick(&[first.max(LAST_CLOCK), u32::MAX]);
    job.deadline = random.within_or_end(first, last);
    true
}

/// All jobs later by as much, so that nothing else is wrong.
fn deadline_over_its_end(record: &mut Record, random: &mut Random) -> bool {
    let used = record.used();
    let latest = record.seats[..used].iter().map(|job| job.deadline).max();
    let ahead = latest.unwrap_or(0) - record.clock;
    let clock = LAST_CLOCK + random.within(1, ahead) - ahead;
    for job in &mut record.seats[..used] {
        job.deadline = job.deadline - record.clock + clock;
    }
    record.clock = clock;
    true
}

fn no_bound(record: &mut Record, random: &mut Random) -> bool {
    some_job(record, random).bound = 0;
    true
}

fn bound_over_its_end(record: &mut Record, random: &mut Random) -> bool {
    let job = some_job(record, random);
    job.bound = random.outside(0..=64, job.bound);
    true
}

fn no_slots(record: &mut Record, random: &mut Random) -> bool {
    some_job(record, random).slots = 0;
    true
}

fn slots_over_their_end(record: &mut Record, random: &mut Random) -> bool {
    let job = some_job(record, random);
    job.slots = random.outside(0..=FURTHEST, job.slots);
    true
}

/// Where it can be, the admitted work is still at most bound × slots.
fn slots_below_the_deadline(record: &mut Record, random: &mut Random) -> bool {
    let clock = record.clock;
    let job = some_job(record, random);
    job.slots = job.deadline - clock - 1;
    job.work = job.work.min(job.bound * job.slots).max(job.left);
    true
}

fn jobs_that_do_not_fit(record: &mut Record, random: &mut Random) -> bool {
    let list = match random.below(16) {
        0 => lists::at_the_limits(random),
        _ => lists::tight(random),
    };
    let clock = random.within(0, latest_clock(&list));
    *record = held(&list, clock, random);
    short(record)
}

/// Whether the jobs do not fit: all else has been left right.
fn short(record: &Record) -> bool {
    record.desk().is_none()
}

fn too_few_machines(record: &mut Record, random: &mut Random) -> bool {
    record.machines = random.within(1, record.machines);
    short(record)
}

fn more_left_than_fits(record: &mut Record, random: &mut Random) -> bool {
    let job = some_job(record, random);
    job.left = random.within(job.left, job.work);
    short(record)
}

fn deadline_too_near(record: &mut Record, random: &mut Random) -> bool {
    let clock = record.clock;
    let job = some_job(record, random);
    job.deadline = random.within(clock + 1, job.deadline);
    short(record)
}

fn bound_too_low(record: &mut Record, random: &mut Random) -> bool {
    let job = some_job(record, random);
    job.bound = random.within(job.work.div_ceil(job.slots), job.bound);
    short(record)
}

/// Bytes that were never a record: of any kind, of one kind, or numbers that are small.
pub fn any_bytes(len: usize, random: &mut Random) -> Vec<u8> {
    match random.below(4) {
        0 => vec![random.pick(&[0, 1, 0x7f, 0x80, 0xff]); len],
        1 => {
            let number: [u32; 4] = array::from_fn(|_| random.within(0, 64));
            let small = (0..len).map(|at| match at % 4 {
                0 => random.pick(&number) as u8,
                _ => 0,
            });
            small.collect()
        }
        _ => (0..len).map(|_| random.any()).collect(),
    }
}
