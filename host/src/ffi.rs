//! The calls of the static library, as `window.h` declares them, and safe functions around them.

use crate::model::{bytes, numbers, rows, rows_of_bytes, Job, Row, SLOTS};

mod c {
    extern "C" {
        pub fn vezhdanur_plan(
            machines: u32,
            list: *const u8,
            list_len: usize,
            plan: *mut u8,
            plan_len: usize,
        ) -> u64;

        pub fn vezhdanur_plan_numbers(
            machines: u32,
            rows: *const u32,
            rows_len: usize,
            plan: *mut u16,
            plan_len: usize,
        ) -> u64;

        pub fn vezhdanur_room(
            machines: u32,
            list: *const u8,
            list_len: usize,
            boundary: u32,
        ) -> u64;

        pub fn vezhdanur_open(machines: u32, desk: *mut u8, desk_len: usize) -> u64;

        pub fn vezhdanur_admit(
            desk: *mut u8,
            desk_len: usize,
            number: u32,
            work: u32,
            deadline: u32,
            bound: u32,
        ) -> u64;

        pub fn vezhdanur_withdraw(desk: *mut u8, desk_len: usize, number: u32) -> u64;

        pub fn vezhdanur_look(
            desk: *const u8,
            desk_len: usize,
            number: u32,
            figures: *mut u8,
            figures_len: usize,
        ) -> u64;

        pub fn vezhdanur_run(
            desk: *mut u8,
            desk_len: usize,
            given: *mut u8,
            given_len: usize,
        ) -> u64;
    }
}

/// What a call answers: 0 for a yes or the number of the refusal, its place and its amount.
#[derive(Clone, Copy, Debug, PartialEq, Eq)]
pub struct Answer {
    pub number: u32,
    pub place: u32,
    pub amount: u32,
}

impl Answer {
    pub const YES: Answer = Answer::refusal(0, 0, 0);

    pub const fn refusal(number: u32, place: u32, amount: u32) -> Answer {
        Answer {
            number,
            place,
            amount,
        }
    }

    /// Takes number + 256 × place + 2^32 × amount apart.
    fn unpack(packed: u64) -> Answer {
        Answer {
            number: (packed % 256) as u32,
            place: (packed / 256 % (1 << 24)) as u32,
            amount: (packed >> 32) as u32,
        }
    }
}

/// The figure in the upper half of a yes, or the refusal.
fn figure(packed: u64) -> Result<u32, Answer> {
    if packed as u32 == 0 {
        Ok((packed >> 32) as u32)
    } else {
        Err(Answer::unpack(packed))
    }
}

/// Plans a list of 16 bytes a row into 336 bytes a row.
pub fn plan_bytes(machines: u32, list: &[u8], plan: &mut [u8]) -> Answer {
    // SAFETY: each pointer comes with its own slice's length, and a `&mut` overlaps nothing.
    Answer::unpack(unsafe {
        c::vezhdanur_plan(
            machines,
            list.as_ptr(),
            list.len(),
            plan.as_mut_ptr(),
            plan.len(),
        )
    })
}

/// Plans a list of 4 numbers a row into 168 numbers a row.
pub fn plan_numbers(machines: u32, rows: &[u32], plan: &mut [u16]) -> Answer {
    // SAFETY: as above.
    Answer::unpack(unsafe {
        c::vezhdanur_plan_numbers(
            machines,
            rows.as_ptr(),
            rows.len(),
            plan.as_mut_ptr(),
            plan.len(),
        )
    })
}

/// The room of a list of 16 bytes a row at a boundary, or the refusal.
pub fn room(machines: u32, list: &[u8], boundary: u32) -> Result<i32, Answer> {
    // SAFETY: the pointer comes with its slice's length.
    let packed = unsafe { c::vezhdanur_room(machines, list.as_ptr(), list.len(), boundary) };
    figure(packed).map(|room| room as i32)
}

/// Writes the record of an empty desk.
pub fn open(machines: u32, desk: &mut [u8]) -> Answer {
    // SAFETY: as for the plan calls, here and below.
    Answer::unpack(unsafe { c::vezhdanur_open(machines, desk.as_mut_ptr(), desk.len()) })
}

/// Asks a desk to take a job, whose deadline is a slot number on the clock.
pub fn admit(desk: &mut [u8], job: Job) -> Answer {
    Answer::unpack(unsafe {
        c::vezhdanur_admit(
            desk.as_mut_ptr(),
            desk.len(),
            job.number,
            job.work,
            job.deadline,
            job.bound,
        )
    })
}

/// Takes a job off the desk; its remaining work, or the refusal.
pub fn withdraw(desk: &mut [u8], number: u32) -> Result<u32, Answer> {
    figure(unsafe { c::vezhdanur_withdraw(desk.as_mut_ptr(), desk.len(), number) })
}

/// Writes a job's remaining work, deadline, bound and leeway as four numbers of 4 bytes.
pub fn look(desk: &[u8], number: u32, figures: &mut [u8]) -> Answer {
    Answer::unpack(unsafe {
        c::vezhdanur_look(
            desk.as_ptr(),
            desk.len(),
            number,
            figures.as_mut_ptr(),
            figures.len(),
        )
    })
}

/// Runs a slot and writes what it gives out as 32 pairs of numbers of 4 bytes.
pub fn run(desk: &mut [u8], given: &mut [u8]) -> Answer {
    Answer::unpack(unsafe {
        c::vezhdanur_run(
            desk.as_mut_ptr(),
            desk.len(),
            given.as_mut_ptr(),
            given.len(),
        )
    })
}

/// What a plan call says of a list: its plan, or the refusal.
pub type Said = Result<Vec<Row>, Answer>;

/// Asks for the plan of a list in bytes. The buffer starts with other numbers than zeros.
pub fn by_bytes(machines: u32, jobs: &[Job]) -> Said {
    let mut plan = vec![0xa5; 2 * SLOTS * jobs.len()];
    match plan_bytes(machines, &bytes(&numbers(jobs)), &mut plan) {
        Answer::YES => Ok(rows_of_bytes(&plan)),
        refusal => Err(refusal),
    }
}

/// Asks for the plan of a list in numbers.
pub fn by_numbers(machines: u32, jobs: &[Job]) -> Said {
    let mut plan = vec![0xa5a5; SLOTS * jobs.len()];
    match plan_numbers(machines, &numbers(jobs), &mut plan) {
        Answer::YES => Ok(rows(&plan)),
        refusal => Err(refusal),
    }
}
