//! Jobs and plans as plain data, what makes a plan valid, and how both are shown.

/// The greatest deadline of a list, and the slots of one row of a plan.
pub const SLOTS: usize = 168;

#[derive(Clone, Copy, Debug, PartialEq, Eq)]
pub struct Job {
    pub number: u32,
    pub work: u32,
    pub deadline: u32,
    pub bound: u32,
}

impl Job {
    /// As they stand in a row of a list.
    pub fn fields(&self) -> [u32; 4] {
        [self.number, self.work, self.deadline, self.bound]
    }
}

/// The machines of one job; slot t stands at index t - 1.
pub type Row = [u16; SLOTS];

/// The jobs as the numbers of a list.
pub fn numbers(jobs: &[Job]) -> Vec<u32> {
    jobs.iter().flat_map(Job::fields).collect()
}

/// The jobs of a list of numbers; an unfinished row at the end is left out.
pub fn jobs(numbers: &[u32]) -> Vec<Job> {
    let job = |row: &[u32]| Job {
        number: row[0],
        work: row[1],
        deadline: row[2],
        bound: row[3],
    };
    numbers.chunks_exact(4).map(job).collect()
}

/// Numbers as bytes, lowest byte first.
pub fn bytes(numbers: &[u32]) -> Vec<u8> {
    numbers.iter().flat_map(|n| n.to_le_bytes()).collect()
}

/// The numbers of bytes; an unfinished one at the end is left out.
pub fn numbers_of_bytes(bytes: &[u8]) -> Vec<u32> {
    let number = |b: &[u8]| u32::from_le_bytes([b[0], b[1], b[2], b[3]]);
    bytes.chunks_exact(4).map(number).collect()
}

/// The jobs of a list of bytes.
pub fn jobs_of_bytes(list: &[u8]) -> Vec<Job> {
    jobs(&numbers_of_bytes(list))
}

/// The rows of a plan from its numbers.
pub fn rows(plan: &[u16]) -> Vec<Row> {
    let whole = |row: &[u16]| row.try_into().expect("a row has 168 numbers");
    plan.chunks(SLOTS).map(whole).collect()
}

/// The rows of a plan from its bytes, lowest byte first.
pub fn rows_of_bytes(plan: &[u8]) -> Vec<Row> {
    let number = |pair: &[u8]| u16::from(pair[0]) + 256 * u16::from(pair[1]);
    rows(&plan.chunks(2).map(number).collect::<Vec<_>>())
}

/// The first thing that keeps a plan from being a valid schedule of the jobs.
pub fn fault(machines: u32, jobs: &[Job], plan: &[Row]) -> Option<String> {
    if plan.len() != jobs.len() {
        return Some(format!("{} rows for {} jobs", plan.len(), jobs.len()));
    }
    for (job, row) in jobs.iter().zip(plan) {
        for (slot, &given) in (1..).zip(row) {
            if given > 0 && slot > job.deadline {
                return Some(format!("job {} runs late, in slot {slot}", job.number));
            }
            if u32::from(given) > job.bound {
                return Some(format!("job {} over its bound in slot {slot}", job.number));
            }
        }
        let done: u32 = row.iter().copied().map(u32::from).sum();
        if done != job.work {
            return Some(format!("job {} has {done} of {}", job.number, job.work));
        }
    }
    (1..=SLOTS)
        .find(|slot| plan.iter().map(|row| u32::from(row[slot - 1])).sum::<u32>() > machines)
        .map(|slot| format!("more than {machines} machines in slot {slot}"))
}

/// A list as 01 writes it.
pub fn show(machines: u32, jobs: &[Job]) -> String {
    let job = |j: &Job| format!("({},{},{},{})", j.number, j.work, j.deadline, j.bound);
    let jobs: Vec<_> = jobs.iter().map(job).collect();
    format!("C={machines}: {}", jobs.join(","))
}

/// A plan as 01 prints it.
pub fn show_plan(jobs: &[Job], plan: &[Row]) -> String {
    let mut text = String::new();
    for (job, row) in jobs.iter().zip(plan) {
        let runs: Vec<_> = (1..)
            .zip(row)
            .filter(|&(_, &given)| given > 0)
            .map(|(slot, given)| format!("{slot}:{given}"))
            .collect();
        text += &format!("job={}\nrun={}\n", job.number, runs.join(","));
    }
    text
}
