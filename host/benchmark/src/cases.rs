//! The calls that are timed, each made by the verified library and by the unverified one.

use crate::inputs::{Inputs, List, Size, JOBS, SLOTS};
use crate::rounds::{Case, Side};
use fast::{desk, list};
use host::call::GIVEN_BYTES;
use host::ffi::{self, Answer};
use host::flow;
use host::model::Job;
use host::record::RECORD_BYTES;
use std::hint::black_box;

const PLAN_NUMBERS: usize = JOBS * SLOTS as usize;

// Both sides are called through pointers, so that neither is inlined here.
type PlanNumbers = fn(u32, &[u32], &mut [u16]) -> Answer;
type PlanBytes = fn(u32, &[u8], &mut [u8]) -> Answer;
type Admit = fn(&mut [u8], Job) -> Answer;
type Run = fn(&mut [u8], &mut [u8]) -> Answer;

/// Plan on numbers by both sides and by the max-flow, which says yes or no only.
fn plan<'a>(name: impl Into<String>, lists: &'a [List]) -> Case<'a> {
    let by_flow = move || {
        for list in lists {
            black_box(flow::fits(list.machines, black_box(&list.jobs)));
        }
    };
    Case {
        name: name.into(),
        calls: lists.len(),
        sides: vec![
            planning(lists, ffi::plan_numbers),
            planning(lists, list::plan_numbers),
            Box::new(by_flow),
        ],
    }
}

fn planning(lists: &[List], plan: PlanNumbers) -> Side<'_> {
    let mut buffer = vec![0; PLAN_NUMBERS];
    Box::new(move || {
        for list in lists {
            black_box(plan(list.machines, black_box(&list.rows), &mut buffer));
        }
    })
}

fn plan_bytes<'a>(name: &str, lists: &'a [List]) -> Case<'a> {
    let side = |plan: PlanBytes| -> Side<'a> {
        let mut buffer = vec![0; 2 * PLAN_NUMBERS];
        Box::new(move || {
            for list in lists {
                black_box(plan(list.machines, black_box(&list.bytes), &mut buffer));
            }
        })
    };
    Case {
        name: name.into(),
        calls: lists.len(),
        sides: vec![side(ffi::plan_bytes), side(list::plan_bytes)],
    }
}

/// The last job of a full desk admitted. The record is copied for each call, by both sides.
fn admit<'a>(name: &str, inputs: &'a Inputs) -> Case<'a> {
    let side = |admit: Admit| -> Side<'a> {
        let mut record = [0; RECORD_BYTES];
        Box::new(move || {
            for admission in &inputs.admissions {
                record.copy_from_slice(black_box(&admission.record));
                black_box(admit(&mut record, admission.job));
            }
        })
    };
    Case {
        name: name.into(),
        calls: inputs.admissions.len(),
        sides: vec![side(ffi::admit), side(desk::admit)],
    }
}

/// A slot of a full desk. The record is copied for each call, by both sides.
fn run<'a>(name: &str, inputs: &'a Inputs) -> Case<'a> {
    let side = |run: Run| -> Side<'a> {
        let (mut record, mut given) = ([0; RECORD_BYTES], [0; GIVEN_BYTES]);
        Box::new(move || {
            for full in &inputs.full_desks {
                record.copy_from_slice(black_box(full));
                black_box(run(&mut record, &mut given));
            }
        })
    };
    Case {
        name: name.into(),
        calls: inputs.full_desks.len(),
        sides: vec![side(ffi::run), side(desk::run)],
    }
}

/// Every case of the table of calls.
pub fn calls(inputs: &Inputs) -> Vec<Case<'_>> {
    let Inputs { full, small, .. } = inputs;
    vec![
        plan("Plan, full size, on numbers", full),
        plan_bytes("Plan, full size, on bytes", full),
        plan("Plan, small random lists, on numbers", small),
        admit("Admit, the 32nd job", inputs),
        run("Run, 32 jobs", inputs),
    ]
}

/// Plan on lists that grow.
pub fn growth<'a>(what: &str, sizes: &'a [Size]) -> Vec<Case<'a>> {
    let case = |size: &'a Size| plan(format!("{} {what}", size.size), &size.lists);
    sizes.iter().map(case).collect()
}
