//! Random lists: the library against the max-flow, the rule and the refusal order, and the same
//! comparison against two planners that are wrong.

use host::ffi::{self, by_bytes, by_numbers, Answer, Said};
use host::lists::{self, List};
use host::model::{self, bytes, numbers, show, show_plan, Job, Row};
use host::random::{cases, Random};
use host::{flow, ladder, rule};

/// What can be wrong with what a planner says.
#[derive(Debug, PartialEq)]
enum Fault {
    YesWithoutSchedule,
    NoDespiteSchedule,
    NotValid(String),
    NotTheRule,
}

/// Compares what a planner says of a list, its plan or no, with the max-flow and the rule.
fn compare(machines: u32, jobs: &[Job], said: Option<&Vec<Row>>) -> Result<(), Fault> {
    let plan = match (flow::fits(machines, jobs), said) {
        (false, None) => return Ok(()),
        (false, Some(_)) => return Err(Fault::YesWithoutSchedule),
        (true, None) => return Err(Fault::NoDespiteSchedule),
        (true, Some(plan)) => plan,
    };
    if let Some(what) = model::fault(machines, jobs, plan) {
        return Err(Fault::NotValid(what));
    }
    if *plan != rule::plan(machines, jobs) {
        return Err(Fault::NotTheRule);
    }
    Ok(())
}

fn show_said(machines: u32, jobs: &[Job], said: &Said) -> String {
    let said = match said {
        Ok(plan) => show_plan(jobs, plan),
        Err(refusal) => format!("{refusal:?}"),
    };
    format!("{}\n{said}", show(machines, jobs))
}

/// Everything that is asked of the library about one list; answers whether it fits.
fn examine(machines: u32, jobs: &[Job], random: &mut Random) -> Result<bool, String> {
    let said = by_bytes(machines, jobs);
    let shown = || show_said(machines, jobs, &said);
    if let Err(fault) = compare(machines, jobs, said.as_ref().ok()) {
        let rule = show_plan(jobs, &rule::plan(machines, jobs));
        return Err(format!("{fault:?}\n{}\nthe rule gives\n{rule}", shown()));
    }
    let shortage = ladder::least_short(machines, jobs);
    let expected = shortage.map(|(boundary, amount)| Answer::refusal(7, boundary, amount));
    if said.as_ref().err() != expected.as_ref() {
        return Err(format!("{}\nin place of {expected:?}", shown()));
    }
    let again = by_numbers(machines, jobs);
    if again != said {
        let again = show_said(machines, jobs, &again);
        return Err(format!("bytes: {}\nnumbers: {again}", shown()));
    }
    for b in [0, random.within(1, 16), random.within(17, 168)] {
        let room = ffi::room(machines, &bytes(&numbers(jobs)), b);
        if room != Ok(ladder::room_at(machines, jobs, b)) {
            return Err(format!("room at {b}: {room:?}\n{}", show(machines, jobs)));
        }
    }

    let mut order: Vec<usize> = (0..jobs.len()).collect();
    random.shuffle(&mut order);
    let permuted: Vec<Job> = order.iter().map(|&i| jobs[i]).collect();
    let moved = said
        .clone()
        .map(|plan| order.iter().map(|&i| plan[i]).collect());
    let again = by_numbers(machines, &permuted);
    if again != moved {
        let again = show_said(machines, &permuted, &again);
        return Err(format!("{}\nin another order: {again}", shown()));
    }
    Ok(said.is_ok())
}

/// Examines this many lists; a quarter of them at least must fit, and a quarter not.
fn examine_lists(seed: u64, count: usize, list: fn(&mut Random) -> List) {
    let mut random = Random::new(seed);
    let mut fitting = 0;
    for index in 0..count {
        let (machines, jobs) = list(&mut random);
        match examine(machines, &jobs, &mut random) {
            Ok(fits) => fitting += usize::from(fits),
            Err(what) => panic!("list {index}: {what}"),
        }
    }
    println!("{count} lists, {fitting} fit");
    assert!(4 * fitting >= count && 4 * fitting <= 3 * count);
}

#[test]
fn small_lists() {
    examine_lists(1, cases(12_500), lists::small);
}

#[test]
fn tight_lists() {
    examine_lists(2, cases(7_500), lists::tight);
}

#[test]
fn lists_at_the_limits() {
    examine_lists(3, cases(120), lists::at_the_limits);
}

/// How the comparison faults a planner that says yes exactly where it finishes every job.
fn fault_of(planner: fn(u32, &[Job]) -> Vec<Row>, (machines, jobs): &List) -> Option<Fault> {
    let plan = planner(*machines, jobs);
    let done = |row: &Row| row.iter().copied().map(u32::from).sum::<u32>();
    let finished = jobs
        .iter()
        .zip(&plan)
        .all(|(job, row)| done(row) == job.work);
    compare(*machines, jobs, finished.then_some(&plan)).err()
}

#[test]
fn wrong_planners_are_caught() {
    let p7 = (2, model::jobs(&[1, 2, 2, 2, 2, 3, 3, 1]));
    let p8 = (3, model::jobs(&[1, 4, 2, 3, 2, 2, 2, 1]));
    let lost = Some(Fault::NoDespiteSchedule);
    assert_eq!(fault_of(rule::earliest_deadline, &p7), lost);
    assert_eq!(fault_of(rule::greatest_work, &p8), lost);
    assert_eq!(fault_of(rule::plan, &p7), None);
    assert_eq!(fault_of(rule::plan, &p8), None);

    let (mut random, count) = (Random::new(4), cases(2_000));
    let (mut by_deadline, mut by_work) = (0, 0);
    for _ in 0..count {
        let list = lists::tight(&mut random);
        assert_eq!(fault_of(rule::plan, &list), None);
        by_deadline += usize::from(fault_of(rule::earliest_deadline, &list) == lost);
        by_work += usize::from(fault_of(rule::greatest_work, &list) == lost);
    }
    println!("{count} lists: earliest deadline loses {by_deadline}, greatest work {by_work}");
    assert!(by_deadline > 0 && by_work > 0);
}
