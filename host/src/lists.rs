//! Random lists of jobs, with every field in range and no number twice.

use crate::model::Job;
use crate::random::Random;

/// A machine count and its jobs.
pub type List = (u32, Vec<Job>);

/// A few jobs in a few slots, with about as much work as the room can take.
pub fn small(random: &mut Random) -> List {
    let machines = random.within(1, 5);
    let slots = random.within(1, 8);
    let n = random.below(8);
    let share = (machines * slots).div_ceil(1.max(n as u32));
    let jobs = numbers(n, random).into_iter().map(|number| {
        let deadline = random.within(slots.div_ceil(2), slots);
        let bound = random.within(1, 6);
        // Rarely more than the job could do even alone.
        let most = bound * deadline + u32::from(random.one_in(16));
        Job {
            number,
            work: random.within(1, most.min(3 * share / 2 + 1)),
            deadline,
            bound,
        }
    });
    (machines, jobs.collect())
}

/// Jobs that take up the room to the last machine, or one step more.
pub fn tight(random: &mut Random) -> List {
    let (machines, slots) = (random.within(1, 8), random.within(1, 16));
    let n = 1 + random.below(10);
    full(machines, slots, n, 6, random)
}

/// As many jobs, machines and slots as a list may have, and works up to the greatest.
pub fn at_the_limits(random: &mut Random) -> List {
    let (machines, mut jobs) = full(64, 168, 32, 64, random);
    if random.one_in(2) {
        return (machines, jobs);
    }
    let hopeless = 1 + random.below(jobs.len());
    for job in &mut jobs[..hopeless] {
        job.work = random.within(job.work, 60_000);
    }
    (machines, jobs)
}

/// Jobs with the works that `fill` gives them, then mostly one change that makes it harder.
fn full(machines: u32, slots: u32, n: usize, widest: u32, random: &mut Random) -> List {
    let numbers = numbers(n, random);
    let mut jobs = without_work(&numbers, slots, widest, random);
    fill(machines, &mut jobs, random);
    jobs.retain(|job| job.work > 0);
    random.shuffle(&mut jobs);
    let some = random.below(jobs.len());
    let job = &mut jobs[some];
    match random.below(6) {
        0 => job.work += 1,
        1 => job.deadline = 1.max(job.deadline - 1),
        2 => job.bound = 1.max(job.bound - 1),
        3 => return (1.max(machines - 1), jobs),
        _ => {}
    }
    (machines, jobs)
}

/// Jobs with these numbers that `fill` can give their works. The first has all the slots.
pub fn without_work(numbers: &[u32], slots: u32, widest: u32, random: &mut Random) -> Vec<Job> {
    let job = |&number: &u32| Job {
        number,
        work: 0,
        deadline: random.within(1, slots),
        bound: random.within(1, widest),
    };
    let mut jobs: Vec<Job> = numbers.iter().map(job).collect();
    jobs[0].deadline = slots;
    jobs
}

/// Gives the jobs the works of a random schedule that leaves no machine idle which a job could use.
pub fn fill(machines: u32, jobs: &mut [Job], random: &mut Random) {
    let last = jobs.iter().map(|job| job.deadline).max().unwrap_or(0);
    for slot in 1..=last {
        fill_slot(machines, slot, jobs, random);
    }
}

fn fill_slot(machines: u32, slot: u32, jobs: &mut [Job], random: &mut Random) {
    let mut here = vec![0; jobs.len()];
    for _ in 0..machines {
        let free = |&j: &usize| jobs[j].deadline >= slot && here[j] < jobs[j].bound;
        let free: Vec<usize> = (0..jobs.len()).filter(free).collect();
        if free.is_empty() {
            break;
        }
        let j = random.pick(&free);
        here[j] += 1;
        jobs[j].work += 1;
    }
}

/// Different job numbers, close together or anywhere, in any order.
fn numbers(n: usize, random: &mut Random) -> Vec<u32> {
    let greatest = random.pick(&[n as u32 + 2, 65_535]);
    let mut numbers = Vec::new();
    while numbers.len() < n {
        let number = random.within(1, greatest);
        if !numbers.contains(&number) {
            numbers.push(number);
        }
    }
    numbers
}
