//! Before anything is timed, both sides must give the same answers and write the same bytes: on all
//! that is timed, on random lists, desks and files, and on such as are refused.

use crate::inputs::{Inputs, List};
use crate::program::{self, Files};
use fast::{desk, list};
use host::call::{on_library, Call, GIVEN_BYTES};
use host::damage::DAMAGES;
use host::desk::Desk;
use host::ffi::{self, Answer};
use host::histories::{play, Manner, CROWDED, ORDINARY, WIDE};
use host::ladder::GREATEST;
use host::model::{bytes, show, Job};
use host::random::{Any, Random};
use host::record::encode;
use host::{files, lists, records};

const LISTS: usize = 1_000;
const HISTORIES: usize = 20;
const UNSOUND_RECORDS: usize = 10;
const FILES: usize = 50;

pub fn plans(inputs: &Inputs, random: &mut Random) {
    let sizes = inputs.by_jobs.iter().chain(&inputs.by_slots);
    for list in sizes.flat_map(|size| &size.lists).chain(&inputs.full) {
        takes_up_the_room(list);
        plan(list, random);
    }
    for list in &inputs.small {
        plan(list, random);
    }
    for i in 0..LISTS {
        plan(&List::new(lists::small(random)), random);
        plan(&List::new(lists::tight(random)), random);
        if i % 20 == 0 {
            plan(&List::new(lists::at_the_limits(random)), random);
        }
    }
}

/// It is planned, and the plan uses every machine of every slot.
fn takes_up_the_room(list: &List) {
    let mut plan = vec![0; 168 * list.jobs.len()];
    let answer = ffi::plan_numbers(list.machines, &list.rows, &mut plan);
    let in_use: u32 = plan.iter().copied().map(u32::from).sum();
    let last = list.jobs.iter().map(|job| job.deadline).max();
    let room = last.map(|slot| list.machines * slot);
    assert_eq!((answer, Some(in_use)), (Answer::YES, room));
}

/// A list as it is and damaged.
fn plan(list: &List, random: &mut Random) {
    let List { machines, rows, .. } = list;
    let n = list.jobs.len();
    let shown = show(*machines, &list.jobs);
    plan_of(&shown, *machines, rows, 168 * n + random.below(3), random);

    let shorter = (168 * n).saturating_sub(1);
    plan_of(&shown, *machines, rows, shorter, random);
    plan_of(&shown, random.pick(&[0, 65]), rows, 168 * n, random);
    plan_of(&shown, *machines, &damaged(rows, random), 168 * 33, random);
}

/// Rows with a number too few, a job number twice, a field out of range, or too many of them.
fn damaged(rows: &[u32], random: &mut Random) -> Vec<u32> {
    let (mut damaged, n) = (rows.to_vec(), rows.len() / 4);
    match random.below(8) {
        0..=3 if n > 0 => {
            let at = random.below(rows.len());
            damaged[at] = random.outside(1..=GREATEST[at % 4], rows[at]);
        }
        4..=5 if n > 0 => damaged[4 * random.below(n)] = rows[4 * random.below(n)],
        6 => damaged.resize(4 * 33, 1),
        _ => damaged.truncate(rows.len().saturating_sub(1)),
    }
    damaged
}

fn plan_of(shown: &str, machines: u32, rows: &[u32], plan_len: usize, random: &mut Random) {
    let lent: Vec<u16> = any(plan_len, random);
    let [mut verified, mut unverified] = [lent.clone(), lent];
    assert_eq!(
        ffi::plan_numbers(machines, rows, &mut verified),
        list::plan_numbers(machines, rows, &mut unverified),
        "{shown}"
    );
    assert!(verified == unverified, "other plans: {shown}");

    let mut list = bytes(rows);
    list.truncate(list.len() - random.pick(&[0, 0, 0, 1]).min(list.len()));
    let lent: Vec<u8> = any(2 * plan_len, random);
    let [mut verified, mut unverified] = [lent.clone(), lent];
    assert_eq!(
        ffi::plan_bytes(machines, &list, &mut verified),
        list::plan_bytes(machines, &list, &mut unverified),
        "{shown}"
    );
    assert!(verified == unverified, "other plans in bytes: {shown}");
}

fn any<T: Any>(len: usize, random: &mut Random) -> Vec<T> {
    (0..len).map(|_| random.any()).collect()
}

pub fn desks(inputs: &Inputs, random: &mut Random) {
    for admission in &inputs.admissions {
        admit(&admission.record, admission.job);
    }
    for record in &inputs.full_desks {
        run(record, GIVEN_BYTES, random);
    }
    for _ in 0..HISTORIES {
        for manner in [ORDINARY, CROWDED, WIDE] {
            history(&empty(random), manner, random);
        }
        history(&records::sound(random), ORDINARY, random);
        history(&records::near_the_end(random), ORDINARY, random);
    }
    for unsoundness in records::UNSOUND {
        for _ in 0..UNSOUND_RECORDS {
            let record = records::unsound(unsoundness, random);
            let bytes = record.bytes();
            refusals(&bytes, record.clock, random);
            refusals(&bytes[1..], record.clock, random);
        }
    }
}

fn empty(random: &mut Random) -> Desk {
    Desk::open(random.within(1, 64)).expect("a count in range")
}

/// Calls on a desk, and each Admit and each Run of them by both sides.
fn history(start: &Desk, manner: Manner, random: &mut Random) {
    let mut record = encode(start);
    let played = play(start, manner, random, |call, random| {
        match call {
            Call::Admit(job) => admit(&record, job),
            Call::Run { given_len } => run(&record, given_len, random),
            Call::Withdraw(_) | Call::Look { .. } => {}
        }
        let (reply, after) = on_library(&record, call, random)?;
        record = after;
        Ok(reply)
    });
    assert_eq!(played.err(), None);
}

/// A slot, and jobs that other desks would take or refuse, on bytes that are no desk.
fn refusals(record: &[u8], clock: u32, random: &mut Random) {
    let job = Job {
        number: 65_535,
        work: 1,
        deadline: clock.saturating_add(1),
        bound: 1,
    };
    admit(record, job);
    admit(record, Job { work: 0, ..job });
    run(record, GIVEN_BYTES, random);
    run(record, 0, random);
}

fn admit(record: &[u8], job: Job) {
    let [mut verified, mut unverified] = [record.to_vec(), record.to_vec()];
    assert_eq!(
        ffi::admit(&mut verified, job),
        desk::admit(&mut unverified, job),
        "{job:?} on {record:?}"
    );
    assert!(verified == unverified, "{job:?} on {record:?}");
}

fn run(record: &[u8], given_len: usize, random: &mut Random) {
    let [mut verified, mut unverified] = [record.to_vec(), record.to_vec()];
    let lent: Vec<u8> = any(given_len, random);
    let [mut given, mut given_fast] = [lent.clone(), lent];
    assert_eq!(
        ffi::run(&mut verified, &mut given),
        desk::run(&mut unverified, &mut given_fast),
        "Run on {record:?}"
    );
    assert!(verified == unverified, "Run on {record:?}");
    assert!(given == given_fast, "Run on {record:?}");
}

/// The verified program against the unverified text, and both programs on what is timed.
pub fn texts(timed: &Files, random: &mut Random) {
    for (file, code) in [(&timed.long, 3), (&timed.empty, 13)] {
        let [verified, unverified] = program::paths().map(|path| program::printed(&path, file));
        assert!(verified == unverified, "other texts for a timed file");
        let start = format!("result=refused\ncode={code}\n");
        assert!(verified.starts_with(start.as_bytes()), "not a {code}");
    }
    for _ in 0..FILES {
        text(&files::well_formed(random).concat());
    }
    for (_, damage, _) in DAMAGES {
        let mut lines = files::in_range(random);
        damage(&mut lines, random);
        text(&lines.concat());
    }
}

fn text(file: &[u8]) {
    let shown = String::from_utf8_lossy(file);
    let same = host::program::run(file) == fast::text::text(file);
    assert!(same, "other texts for {shown:?}");
}
