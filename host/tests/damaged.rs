//! Damaged calls: whatever is wrong with the arguments, the answer is the first refusal in 01's
//! order, a refusal writes nothing, and no call touches anything around its buffers.

use host::fence::Fenced;
use host::ffi::{self, Answer};
use host::ladder::{self, GREATEST};
use host::lists::{self, List};
use host::model::{bytes, jobs, numbers, rows, rows_of_bytes, show, show_plan, Job, Row};
use host::random::{cases, Any, Random};
use host::rule;
use std::fmt::Debug;

/// One of the two plan calls: the lengths of a row of its list and of its plan, how its list is
/// laid out and its plan is read, the call, and what it must answer.
struct Form<T, P> {
    row: usize,
    plan_row: usize,
    lay_out: fn(&[u32]) -> Vec<T>,
    read: fn(&[P]) -> Vec<Row>,
    ask: fn(u32, &[T], &mut [P]) -> Answer,
    expected: fn(u32, &[T], usize) -> Answer,
}

const BYTES: Form<u8, u8> = Form {
    row: 16,
    plan_row: 336,
    lay_out: bytes,
    read: rows_of_bytes,
    ask: ffi::plan_bytes,
    expected: ladder::plan_bytes,
};
const NUMBERS: Form<u32, u16> = Form {
    row: 4,
    plan_row: 168,
    lay_out: |numbers| numbers.to_vec(),
    read: rows,
    ask: ffi::plan_numbers,
    expected: ladder::plan_numbers,
};

#[derive(Clone, Copy, PartialEq)]
enum Damage {
    Machines,
    Rows,
    Field,
    Twice,
    Length,
    Buffer,
    Boundary,
}
use Damage::*;

/// What is drawn from: the later a refusal comes, the more often its damage.
const PLAN_DAMAGES: [Damage; 10] = [
    Machines, Length, Rows, Field, Field, Twice, Twice, Buffer, Buffer, Buffer,
];
const ROOM_DAMAGES: [Damage; 10] = [
    Machines, Length, Rows, Field, Field, Twice, Twice, Boundary, Boundary, Boundary,
];

/// The arguments of a call, and the rows that its list was made of. The plan calls have no
/// boundary, and Room has no plan.
struct Call<T> {
    machines: u32,
    jobs: Vec<Job>,
    list: Vec<T>,
    plan_len: usize,
    boundary: u32,
}

/// A good call with up to three kinds of damage.
fn damaged<T: Any, P>(
    form: &Form<T, P>,
    mut damages: [Damage; 10],
    random: &mut Random,
) -> Call<T> {
    random.shuffle(&mut damages);
    let damages = &damages[..1 + random.below(3)];
    let (mut machines, good) = good_list(random);
    let mut boundary = random.within(0, 168);
    if damages.contains(&Machines) {
        machines = random.outside(1..=64, machines);
    }
    if damages.contains(&Boundary) {
        boundary = random.outside(0..=168, boundary);
    }
    let jobs = damaged_rows(&good, damages, random);
    let mut list = (form.lay_out)(&numbers(&jobs));
    if damages.contains(&Length) {
        damage_length(&mut list, form.row, random);
    }
    let mut plan_len = form.plan_row * jobs.len().min(40);
    if damages.contains(&Buffer) {
        plan_len = another_plan_len(plan_len, form.plan_row, random);
    }
    Call {
        machines,
        jobs,
        list,
        plan_len,
        boundary,
    }
}

/// The rows of a good list, with such of the damages as are done to rows.
fn damaged_rows(good: &[Job], damages: &[Damage], random: &mut Random) -> Vec<Job> {
    let mut fields = numbers(good);
    if damages.contains(&Rows) {
        add_rows(&mut fields, random);
    }
    if damages.contains(&Field) && !fields.is_empty() {
        damage_fields(&mut fields, random);
    }
    if damages.contains(&Twice) && !fields.is_empty() {
        repeat_numbers(&mut fields, random);
    }
    jobs(&fields)
}

/// Adds rows up to more than a list may have.
fn add_rows(fields: &mut Vec<u32>, random: &mut Random) {
    let n = random.pick(&[33, 34, 40, 256, 256 + fields.len() / 4, 300]);
    while fields.len() < 4 * n {
        fields.extend([random.within(1, 65_535), 1, random.within(1, 168), 1]);
    }
}

fn damage_fields(fields: &mut [u32], random: &mut Random) {
    let n = fields.len() / 4;
    for _ in 0..random.within(1, 3) {
        let (i, field) = (random.below(n), random.below(4));
        let value = &mut fields[4 * i + field];
        *value = random.outside(1..=GREATEST[field], *value);
    }
}

fn repeat_numbers(fields: &mut [u32], random: &mut Random) {
    let n = fields.len() / 4;
    for _ in 0..random.within(1, 2) {
        fields[4 * random.below(n)] = fields[4 * random.below(n)];
    }
}

/// Makes the list shorter or longer, by less than a row.
fn damage_length<T: Any>(list: &mut Vec<T>, row: usize, random: &mut Random) {
    let by = 1 + random.below(row - 1);
    if by <= list.len() && random.one_in(2) {
        list.truncate(list.len() - by);
    } else {
        list.extend((0..by).map(|_| random.any::<T>()));
    }
}

/// Mostly too short for the plan, and otherwise longer than it.
fn another_plan_len(plan_len: usize, plan_row: usize, random: &mut Random) -> usize {
    let less = random.pick(&[1, 2, plan_row, plan_len]).min(plan_len);
    let more = random.pick(&[1, 2, plan_row, 1_000]);
    random.pick(&[plan_len - less, plan_len - less, plan_len + more])
}

/// Short lists and full ones; some fit and some do not.
fn good_list(random: &mut Random) -> List {
    if !random.one_in(8) {
        return lists::small(random);
    }
    let job = |number| Job {
        number,
        work: random.within(1, 6),
        deadline: random.within(1, 168),
        bound: random.within(1, 64),
    };
    let jobs = (1..=32).rev().map(job).collect();
    (random.within(1, 8), jobs)
}

fn same<A: PartialEq + Debug>(said: A, expected: A) -> Result<(), String> {
    if said == expected {
        Ok(())
    } else {
        Err(format!("{said:?} in place of {expected:?}"))
    }
}

/// Makes a plan call and answers its number, or what was wrong with it.
fn plan<T, P>(form: &Form<T, P>, call: &Call<T>, random: &mut Random) -> Result<u32, String>
where
    T: Any + Copy + PartialEq,
    P: Any + Copy + PartialEq,
{
    let mut list = Fenced::new(&call.list, random);
    let mut plan = Fenced::of_length(call.plan_len, random);
    let said = (form.ask)(call.machines, list.lend(), plan.lend());

    same(
        said,
        (form.expected)(call.machines, &call.list, call.plan_len),
    )?;
    list.untouched("list", 0)?;
    if said != Answer::YES {
        plan.untouched("plan", 0)?;
        return Ok(said.number);
    }
    let written = form.plan_row * call.jobs.len();
    plan.untouched("plan", written)?;
    let planned = (form.read)(&plan.lend()[..written]);
    let rule = rule::plan(call.machines, &call.jobs);
    if planned != rule {
        let [planned, rule] = [planned, rule].map(|plan| show_plan(&call.jobs, &plan));
        return Err(format!("planned\n{planned}in place of\n{rule}"));
    }
    Ok(0)
}

/// Makes a Room call and answers its number, or what was wrong with it.
fn room(call: &Call<u8>, random: &mut Random) -> Result<u32, String> {
    let mut list = Fenced::new(&call.list, random);
    let said = ffi::room(call.machines, list.lend(), call.boundary);

    same(said, ladder::room(call.machines, &call.list, call.boundary))?;
    list.untouched("list", 0)?;
    Ok(said.err().map_or(0, |refusal| refusal.number))
}

/// Makes damaged calls; each of the numbers must come up often.
fn run<T: Any, P>(
    seed: u64,
    form: &Form<T, P>,
    damages: [Damage; 10],
    make: impl Fn(&Call<T>, &mut Random) -> Result<u32, String>,
    numbers: &[usize],
) {
    let mut random = Random::new(seed);
    let (mut seen, count) = ([0; 256], cases(12_000));
    for index in 0..count {
        let call = damaged(form, damages, &mut random);
        match make(&call, &mut random) {
            Ok(number) => seen[number as usize] += 1,
            Err(what) => panic!(
                "call {index}: {what}\n{}\nlist length {}, plan length {}, boundary {}",
                show(call.machines, &call.jobs),
                call.list.len(),
                call.plan_len,
                call.boundary
            ),
        }
    }
    for &number in numbers {
        println!("{number}: {}", seen[number]);
        assert!(seen[number] >= count / 100, "too few answers {number}");
    }
}

#[test]
fn damaged_plans_on_bytes() {
    let make = |call: &_, random: &mut _| plan(&BYTES, call, random);
    run(5, &BYTES, PLAN_DAMAGES, make, &[0, 1, 2, 3, 4, 5, 6, 7]);
}

#[test]
fn damaged_plans_on_numbers() {
    let make = |call: &_, random: &mut _| plan(&NUMBERS, call, random);
    run(6, &NUMBERS, PLAN_DAMAGES, make, &[0, 1, 2, 3, 4, 5, 6, 7]);
}

#[test]
fn damaged_rooms() {
    run(7, &BYTES, ROOM_DAMAGES, room, &[0, 1, 2, 3, 4, 5, 9]);
}

/// The order of the refusals, said by hand: machines, list, numbers of the plan buffer, answer.
const ORDER: &[(u32, &[u32], usize, [u32; 3])] = &[
    // 1, 2, 3 come before any row.
    (0, &[0; 5], 0, [1, 0, 0]),
    (65, &[0; 132], 0, [1, 0, 0]),
    (1, &[0; 5], 0, [2, 0, 0]),
    (1, &[0; 129], 0, [2, 0, 0]),
    (1, &[0; 133], 0, [2, 0, 0]),
    (1, &[0; 132], 0, [3, 0, 0]),
    (1, &[0; 128], 0, [4, 0, 1]),
    // The fields of a row in order.
    (1, &[1, 0, 0, 0], 0, [4, 0, 2]),
    (1, &[1, 1, 0, 0], 0, [4, 0, 3]),
    (1, &[1, 1, 1, 0], 0, [4, 0, 4]),
    // A row's 4 before its 5, and both before the next row.
    (1, &[1, 1, 1, 1, 1, 0, 1, 1], 0, [4, 1, 2]),
    (1, &[1, 1, 1, 1, 1, 1, 1, 1, 2, 0, 1, 1], 0, [5, 1, 0]),
    (1, &[1, 1, 1, 1, 2, 0, 1, 1, 1, 1, 1, 1], 0, [4, 1, 2]),
    (
        1,
        &[7, 1, 1, 1, 8, 1, 1, 1, 7, 1, 1, 1, 8, 1, 1, 1],
        0,
        [5, 2, 0],
    ),
    // All 32 bits of a number count.
    (1, &[1, 1, 1, 1, 0x0001_0001, 1, 1, 1], 336, [4, 1, 1]),
    (1, &[1, 0x0001_0001, 1, 1], 168, [4, 0, 2]),
    (1, &[1, 1, 0x0100_0001, 1], 168, [4, 0, 3]),
    (1, &[1, 1, 1, u32::MAX], 168, [4, 0, 4]),
    (0x0001_0001, &[1, 1, 1, 1], 168, [1, 0, 0]),
    // 6 after the rows and before 7.
    (1, &[1, 1, 1, 65], 0, [4, 0, 4]),
    (1, &[1, 1, 1, 1, 1, 1, 1, 1], 0, [5, 1, 0]),
    (2, &[1, 4, 2, 2, 2, 2, 3, 1], 335, [6, 0, 0]),
    (2, &[1, 4, 2, 2, 2, 2, 3, 1], 336, [7, 2, 1]),
    (2, &[1, 4, 2, 2, 2, 1, 3, 1], 335, [6, 0, 0]),
    (2, &[1, 4, 2, 2, 2, 1, 3, 1], 336, [0, 0, 0]),
];

#[test]
fn order_of_the_refusals() {
    for &(machines, list, plan_len, [number, place, amount]) in ORDER {
        let expected = Answer::refusal(number, place, amount);
        let shown = format!("{machines}, {list:?}, {plan_len}");
        let said = ffi::plan_numbers(machines, list, &mut vec![0; plan_len]);
        assert_eq!(said, expected, "numbers: {shown}");
        let said = ffi::plan_bytes(machines, &bytes(list), &mut vec![0; 2 * plan_len]);
        assert_eq!(said, expected, "bytes: {shown}");

        // Room goes the same way up to 5, and has its 9 in place of 6 and 7.
        let room = ffi::room(machines, &bytes(list), 169);
        let refusal = if matches!(number, 1..=5) {
            expected
        } else {
            Answer::refusal(9, 0, 0)
        };
        assert_eq!(room, Err(refusal), "room: {shown}");
    }
}

#[test]
fn lengths_in_bytes() {
    let list = bytes(&[1, 1, 1, 1, 2, 1, 1, 1, 3]);
    for len in 0..=list.len() {
        let expected = Answer::refusal(if len % 16 == 0 { 0 } else { 2 }, 0, 0);
        let said = ffi::plan_bytes(2, &list[..len], &mut [0; 3 * 336]);
        assert_eq!(said, expected, "{len} bytes of a list");
    }
    for len in 0..=338 {
        let expected = Answer::refusal(if len < 336 { 6 } else { 0 }, 0, 0);
        let said = ffi::plan_bytes(2, &list[..16], &mut vec![0; len]);
        assert_eq!(said, expected, "{len} bytes for a plan");
    }
}
