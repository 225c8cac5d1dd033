//! What is timed: all of it is drawn from one seed.

use host::jobfile::MOST_BYTES;
use host::model::{bytes, numbers, Job};
use host::random::Random;
use host::record::RECORD_BYTES;
use host::{ffi, files, lists};

const MACHINES: u32 = 64;
pub const JOBS: usize = 32;
pub const SLOTS: u32 = 168;
const FILE_GROUPS: usize = 104;
const SMALL_LISTS: usize = 200;
const LISTS_OF_A_WIDTH: usize = 4;

/// Everything that both sides are given.
pub struct Inputs {
    /// As many machines, jobs and slots as there can be, and every machine in use.
    pub full: Vec<List>,
    pub small: Vec<List>,
    pub by_jobs: Vec<Size>,
    pub by_slots: Vec<Size>,
    pub admissions: Vec<Admission>,
    pub full_desks: Vec<Vec<u8>>,
}

/// Lists of so many jobs, or slots.
pub struct Size {
    pub size: usize,
    pub lists: Vec<List>,
}

impl Inputs {
    pub fn draw(random: &mut Random) -> Inputs {
        let full = exact_lists(JOBS, SLOTS, random);
        let admissions: Vec<Admission> = full.iter().map(admission).collect();
        Inputs {
            small: small_lists(random),
            by_jobs: [4, 8, 16, JOBS]
                .map(|size| Size {
                    size,
                    lists: exact_lists(size, SLOTS, random),
                })
                .into(),
            by_slots: [21, 42, 84, SLOTS]
                .map(|slots| Size {
                    size: slots as usize,
                    lists: exact_lists(JOBS, slots, random),
                })
                .into(),
            full_desks: admissions.iter().map(admitted).collect(),
            full,
            admissions,
        }
    }
}

/// A list in each form that a call takes.
pub struct List {
    pub machines: u32,
    pub jobs: Vec<Job>,
    pub rows: Vec<u32>,
    pub bytes: Vec<u8>,
}

impl List {
    pub fn new((machines, jobs): lists::List) -> List {
        let rows = numbers(&jobs);
        List {
            machines,
            bytes: bytes(&rows),
            rows,
            jobs,
        }
    }
}

/// Lists that take up every machine of every slot, with narrow, middling and wide bounds.
fn exact_lists(n: usize, slots: u32, random: &mut Random) -> Vec<List> {
    [4, 16, 64]
        .repeat(LISTS_OF_A_WIDTH)
        .into_iter()
        .map(|widest| List::new((MACHINES, exact(n, slots, widest, random))))
        .collect()
}

/// Jobs with the works of a random schedule that leaves no machine idle: the first could use any.
fn exact(n: usize, slots: u32, widest: u32, random: &mut Random) -> Vec<Job> {
    let numbers: Vec<u32> = (1..=n as u32).map(|i| 1_000 + 7 * i).collect();
    loop {
        let mut jobs = lists::without_work(&numbers, slots, widest, random);
        jobs[0].bound = MACHINES;
        lists::fill(MACHINES, &mut jobs, random);
        random.shuffle(&mut jobs);
        if jobs.iter().all(|job| job.work > 0) {
            return jobs;
        }
    }
}

/// Small lists, every other one tight; about as often a plan as none.
fn small_lists(random: &mut Random) -> Vec<List> {
    (0..SMALL_LISTS / 2)
        .flat_map(|_| [lists::small(random), lists::tight(random)])
        .map(List::new)
        .collect()
}

/// A desk with a place for one job more, and the job.
pub struct Admission {
    pub record: Vec<u8>,
    pub job: Job,
}

/// All jobs of a list but the last are on the desk, and the last one is to come.
fn admission(list: &List) -> Admission {
    let (&job, held) = list.jobs.split_last().expect("a list with jobs");
    let mut record = vec![0; RECORD_BYTES];
    assert_eq!(ffi::open(list.machines, &mut record), ffi::Answer::YES);
    for &job in held {
        assert_eq!(ffi::admit(&mut record, job), ffi::Answer::YES);
    }
    Admission { record, job }
}

/// The record with the job on the desk.
fn admitted(admission: &Admission) -> Vec<u8> {
    let mut record = admission.record.clone();
    assert_eq!(ffi::admit(&mut record, admission.job), ffi::Answer::YES);
    record
}

/// A good file of just 4,096 bytes and of as many groups as there is place for: many more than a list
/// may have, so all of it is read and nothing is planned.
pub fn longest_file() -> Vec<u8> {
    let mut lines = vec![files::machines_line(1)];
    files::fill(&mut lines, MOST_BYTES);
    assert_eq!(lines.len(), 1 + 5 * FILE_GROUPS);
    lines.concat()
}
