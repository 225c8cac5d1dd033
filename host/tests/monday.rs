//! How free the first slots are: what a plan does in slots 1 to b is the work that no schedule can do
//! in the slots after them, by the independent max-flow.

use host::ffi::by_numbers;
use host::flow;
use host::lists::{self, List};
use host::model::{show, show_plan, Job, Row};
use host::random::{cases, Random};
use host::rule;

/// The work of a plan in slots 1 to b.
fn work_by(b: u32, plan: &[Row]) -> u32 {
    let done = |row: &Row| row[..b as usize].iter().map(|&m| u32::from(m)).sum::<u32>();
    plan.iter().map(done).sum()
}

/// The least work of a schedule in slots 1 to b.
fn least_by(b: u32, machines: u32, jobs: &[Job]) -> u32 {
    let whole: u32 = jobs.iter().map(|job| job.work).sum();
    whole - flow::work_after(b, machines, jobs)
}

/// The b, from 0 to the greatest deadline, at which the plan does more than it must.
fn too_much(machines: u32, jobs: &[Job], plan: &[Row]) -> Option<u32> {
    let last = jobs.iter().map(|job| job.deadline).max().unwrap_or(0);
    (0..=last).find(|&b| work_by(b, plan) != least_by(b, machines, jobs))
}

/// Examines lists until this many were planned.
fn examine_plans(seed: u64, count: usize, list: fn(&mut Random) -> List) {
    let mut random = Random::new(seed);
    let mut planned = 0;
    while planned < count {
        let (machines, jobs) = list(&mut random);
        let Ok(plan) = by_numbers(machines, &jobs) else {
            continue;
        };
        planned += 1;
        if let Some(b) = too_much(machines, &jobs, &plan) {
            let shown = show(machines, &jobs);
            panic!("slots 1 to {b}\n{shown}\n{}", show_plan(&jobs, &plan));
        }
    }
}

#[test]
fn plans_of_small_lists_do_the_least() {
    examine_plans(31, cases(3_500), lists::small);
}

#[test]
fn plans_of_tight_lists_do_the_least() {
    examine_plans(32, cases(1_500), lists::tight);
}

#[test]
fn plans_at_the_limits_do_the_least() {
    examine_plans(33, cases(5), lists::at_the_limits);
}

/// A valid plan that starts as early as it can is noticed: one job of work 1 and deadline 2.
#[test]
fn an_early_plan_is_caught() {
    let job = Job {
        number: 1,
        work: 1,
        deadline: 2,
        bound: 1,
    };
    assert_eq!(too_much(1, &[job], &rule::plan(1, &[job])), None);
    let mut early: Row = [0; 168];
    early[0] = 1;
    assert_eq!(too_much(1, &[job], &[early]), Some(1));
}
