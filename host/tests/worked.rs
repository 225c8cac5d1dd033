//! 01's worked lists P1 to P10 and its list limits, on the library and on what it is compared with.

use host::ffi::{self, Answer, Said};
use host::model::{bytes, jobs, show, show_plan, Job, SLOTS};
use host::{flow, ladder, rule};

/// A list, what 01 says of it, and the rooms that 01 names.
struct Worked {
    name: &'static str,
    machines: u32,
    jobs: &'static [u32],
    refusal: Option<Answer>,
    rooms: &'static [(u32, i32)],
    /// As 01 prints it, where 01 states the plan.
    plan: Option<&'static str>,
}

const WORKED: &[Worked] = &[
    Worked {
        name: "P1",
        machines: 3,
        jobs: &[1, 4, 3, 2, 2, 3, 2, 3, 3, 2, 3, 1],
        refusal: None,
        rooms: &[(0, 0), (2, 0), (3, 0)],
        plan: Some("job=1\nrun=2:2,3:2\njob=2\nrun=1:2,2:1\njob=3\nrun=1:1,3:1\n"),
    },
    Worked {
        name: "P2",
        machines: 2,
        jobs: &[1, 4, 2, 2, 2, 1, 3, 1],
        refusal: None,
        rooms: &[(2, 0)],
        plan: None,
    },
    Worked {
        name: "P3",
        machines: 2,
        jobs: &[1, 4, 2, 2, 2, 2, 3, 1],
        refusal: Some(Answer::refusal(7, 2, 1)),
        rooms: &[(2, -1)],
        plan: None,
    },
    Worked {
        name: "P4",
        machines: 2,
        jobs: &[1, 4, 2, 2, 2, 3, 3, 1],
        refusal: Some(Answer::refusal(7, 2, 2)),
        rooms: &[(2, -2), (3, -1)],
        plan: None,
    },
    Worked {
        name: "P5",
        machines: 2,
        jobs: &[1, 10, 3, 5],
        refusal: Some(Answer::refusal(7, 3, 4)),
        rooms: &[(0, 0), (3, -4)],
        plan: None,
    },
    Worked {
        name: "P6",
        machines: 64,
        jobs: &[1, 5, 2, 2],
        refusal: Some(Answer::refusal(7, 0, 1)),
        rooms: &[(0, -1)],
        plan: None,
    },
    Worked {
        name: "P6 with work 4",
        machines: 64,
        jobs: &[1, 4, 2, 2],
        refusal: None,
        rooms: &[(0, 0)],
        plan: Some("job=1\nrun=1:2,2:2\n"),
    },
    Worked {
        name: "P7",
        machines: 2,
        jobs: &[1, 2, 2, 2, 2, 3, 3, 1],
        refusal: None,
        rooms: &[],
        plan: Some("job=1\nrun=1:1,2:1\njob=2\nrun=1:1,2:1,3:1\n"),
    },
    Worked {
        name: "P8",
        machines: 3,
        jobs: &[1, 4, 2, 3, 2, 2, 2, 1],
        refusal: None,
        rooms: &[],
        plan: Some("job=1\nrun=1:2,2:2\njob=2\nrun=1:1,2:1\n"),
    },
    Worked {
        name: "P9",
        machines: 1,
        jobs: &[],
        refusal: None,
        rooms: &[(168, 168)],
        plan: Some(""),
    },
    Worked {
        name: "P10",
        machines: 2,
        jobs: &[1, 3, 2, 1, 2, 4, 2, 2],
        refusal: Some(Answer::refusal(7, 0, 1)),
        rooms: &[(0, -1), (2, -3)],
        plan: None,
    },
];

/// What both plan calls say of a list; they must say the same.
fn ask(machines: u32, jobs: &[Job]) -> Said {
    let said = ffi::by_bytes(machines, jobs);
    let again = ffi::by_numbers(machines, jobs);
    assert!(
        said == again,
        "bytes and numbers differ: {}",
        show(machines, jobs)
    );
    said
}

#[test]
fn the_library_says_what_01_says() {
    for case in WORKED {
        let (name, jobs) = (case.name, jobs(case.jobs));
        let said = ask(case.machines, &jobs);
        assert_eq!(said.as_ref().err(), case.refusal.as_ref(), "{name}");
        if let (Some(stated), Ok(plan)) = (case.plan, said) {
            assert_eq!(show_plan(&jobs, &plan), stated, "{name}");
        }
        for &(boundary, room) in case.rooms {
            let said = ffi::room(case.machines, &bytes(case.jobs), boundary);
            assert_eq!(said, Ok(room), "{name}, room at {boundary}");
        }
    }
}

#[test]
fn the_independent_programs_say_what_01_says() {
    for case in WORKED {
        let (name, jobs, list) = (case.name, jobs(case.jobs), bytes(case.jobs));
        let fits = flow::fits(case.machines, &jobs);
        assert_eq!(fits, case.refusal.is_none(), "{name}");
        let answer = case.refusal.unwrap_or(Answer::YES);
        let said = ladder::plan_bytes(case.machines, &list, 336 * jobs.len());
        assert_eq!(said, answer, "{name}");
        let said = ladder::plan_numbers(case.machines, case.jobs, 168 * jobs.len());
        assert_eq!(said, answer, "{name}");
        if let Some(stated) = case.plan {
            let plan = rule::plan(case.machines, &jobs);
            assert_eq!(show_plan(&jobs, &plan), stated, "{name}");
        }
        for &(boundary, room) in case.rooms {
            let said = ladder::room(case.machines, &list, boundary);
            assert_eq!(said, Ok(room), "{name}, room at {boundary}");
        }
    }
}

/// The answer to a list of one job.
fn ask_one(machines: u32, job: [u32; 4]) -> Answer {
    ask(machines, &jobs(&job)).err().unwrap_or(Answer::YES)
}

#[test]
fn limits_of_the_fields() {
    let refused = |field| Answer::refusal(4, 0, field);
    assert_eq!(ask_one(1, [65_535, 1, 1, 1]), Answer::YES);
    assert_eq!(ask_one(1, [65_536, 1, 1, 1]), refused(1));
    assert_eq!(ask_one(1, [0, 1, 1, 1]), refused(1));
    // In range, though no room can do more than 64 × 168 of it.
    let hopeless = Answer::refusal(7, 0, 60_000 - 64 * 168);
    assert_eq!(ask_one(64, [1, 60_000, 168, 64]), hopeless);
    assert_eq!(ask_one(1, [1, 60_000, 168, 64]), hopeless);
    assert_eq!(ask_one(64, [1, 60_001, 168, 64]), refused(2));
    assert_eq!(ask_one(64, [1, 0, 168, 64]), refused(2));
    assert_eq!(ask_one(1, [1, 168, 168, 1]), Answer::YES);
    assert_eq!(ask_one(1, [1, 168, 169, 1]), refused(3));
    assert_eq!(ask_one(1, [1, 168, 0, 1]), refused(3));
    assert_eq!(ask_one(64, [1, 10_752, 168, 64]), Answer::YES);
    assert_eq!(ask_one(64, [1, 10_752, 168, 65]), refused(4));
    assert_eq!(ask_one(64, [1, 10_752, 168, 0]), refused(4));
    assert_eq!(ask_one(0, [1, 1, 1, 1]), Answer::refusal(1, 0, 0));
    assert_eq!(ask_one(65, [1, 1, 1, 1]), Answer::refusal(1, 0, 0));
}

#[test]
fn limits_of_the_list() {
    let list = |n| jobs(&(1..=n).flat_map(|i| [i, 336, 168, 2]).collect::<Vec<_>>());
    let said = ask(64, &list(32));
    assert!(
        said == Ok(vec![[2; SLOTS]; 32]),
        "all 64 machines in all 168 slots"
    );
    assert_eq!(ask(64, &list(33)), Err(Answer::refusal(3, 0, 0)));
    // The greatest shortage that a 7 can name.
    let hopeless = jobs(&(1..=32).flat_map(|i| [i, 60_000, 1, 1]).collect::<Vec<_>>());
    let refusal = Answer::refusal(7, 0, 32 * 59_999);
    assert_eq!(ask(64, &hopeless), Err(refusal));
}

#[test]
fn the_last_slot_has_its_own_place() {
    let jobs = jobs(&[2, 1, 168, 1, 1, 1, 1, 1]);
    let plan = ask(1, &jobs).expect("it fits");
    assert_eq!(
        show_plan(&jobs, &plan),
        "job=2\nrun=168:1\njob=1\nrun=1:1\n"
    );
}

#[test]
fn limits_of_the_boundary() {
    let list = bytes(&[1, 60_000, 168, 64]);
    assert_eq!(ffi::room(1, &list, 168), Ok(168 - 60_000));
    assert_eq!(ffi::room(1, &list, 169), Err(Answer::refusal(9, 0, 0)));
    assert_eq!(ffi::room(64, &[], 168), Ok(10_752));
    assert_eq!(ffi::room(64, &[], 169), Err(Answer::refusal(9, 0, 0)));
    // The least room that there is stands at boundary 1.
    let jobs: Vec<_> = (1..=32).flat_map(|i| [i, 60_000, 1, 1]).collect();
    assert_eq!(ffi::room(1, &bytes(&jobs), 0), Ok(-32 * 59_999));
    assert_eq!(ffi::room(1, &bytes(&jobs), 1), Ok(1 - 32 * 60_000));
    assert_eq!(ffi::room(1, &bytes(&jobs), 168), Ok(168 - 32 * 60_000));
}

#[test]
fn an_empty_list_writes_nothing() {
    assert_eq!(ffi::plan_bytes(1, &[], &mut []), Answer::YES);
    assert_eq!(ffi::plan_numbers(1, &[], &mut []), Answer::YES);
    let (mut plan, mut plan_numbers) = ([0xa5; 400], [0xa5a5; 200]);
    assert_eq!(ffi::plan_bytes(64, &[], &mut plan), Answer::YES);
    assert_eq!(ffi::plan_numbers(64, &[], &mut plan_numbers), Answer::YES);
    assert_eq!((plan, plan_numbers), ([0xa5; 400], [0xa5a5; 200]));
}
