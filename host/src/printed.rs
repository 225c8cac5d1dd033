//! What the program must print for any bytes: the independent reader, then the order of the refusals,
//! then the rule.

use crate::ffi::Answer;
use crate::jobfile;
use crate::ladder;
use crate::lists::List;
use crate::model::{numbers, show_plan, SLOTS};
use crate::rule;

/// The list of a file that has a plan, or the refusal: 14, 13, 1, 3, row by row 4 and 5, then 7.
fn planned(file: &[u8]) -> Result<List, Answer> {
    let (machines, jobs) = jobfile::read(file)?;
    // Whole rows and a plan buffer that is long enough: the program has no 2 and no 6.
    match ladder::plan_numbers(machines, &numbers(&jobs), SLOTS * jobs.len()) {
        Answer::YES => Ok((machines, jobs)),
        refusal => Err(refusal),
    }
}

pub fn answer(file: &[u8]) -> Answer {
    planned(file).err().unwrap_or(Answer::YES)
}

pub fn text(file: &[u8]) -> String {
    match planned(file) {
        Ok((machines, jobs)) => {
            let runs = show_plan(&jobs, &rule::plan(machines, &jobs));
            format!("machines={machines}\nresult=plan\n{runs}")
        }
        Err(refusal) => refused(refusal),
    }
}

fn refused(refusal: Answer) -> String {
    let Answer {
        number,
        place,
        amount,
    } = refusal;
    format!("result=refused\ncode={number}\nat={place}\namount={amount}\n")
}
