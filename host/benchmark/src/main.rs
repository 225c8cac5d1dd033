//! The verified planner, desk and reader timed against unverified ones on the same inputs.
//! docs/BENCHMARK.md says what is measured and how.

mod cases;
mod clock;
mod inputs;
mod program;
mod report;
mod rounds;
mod same;
mod stack;

use crate::inputs::{longest_file, Inputs};
use crate::program::Files;
use crate::rounds::{measure, Case};
use host::random::Random;
use std::env;

const SEED: u64 = 1;
const ROUNDS: usize = 25;

fn main() {
    let Some(rounds) = rounds_asked() else {
        eprintln!("usage: benchmark [ROUNDS]");
        std::process::exit(2);
    };
    let mut random = Random::new(SEED);
    let inputs = Inputs::draw(&mut random);
    let files = Files::new(&longest_file()).expect("files in the temporary folder");

    same::plans(&inputs, &mut random);
    same::desks(&inputs, &mut random);
    same::texts(&files, &mut random);
    println!("Both sides give the same answers. Medians of {rounds} rounds, seed {SEED}:");

    let mut calls = measure(rounds, cases::calls(&inputs));
    calls.push(program::reading("Reader, 4 KiB", rounds, &files));
    report::calls(&calls);
    report::max_flow(&calls);
    report::growth(&measure(rounds, cases::growth("jobs", &inputs.by_jobs)));
    report::growth(&measure(rounds, cases::growth("slots", &inputs.by_slots)));
    let depths: Vec<_> = cases::calls(&inputs).into_iter().map(depths).collect();
    report::stack(&depths);
}

/// The only argument, which may be left out.
fn rounds_asked() -> Option<usize> {
    match env::args().nth(1) {
        Some(rounds) => rounds.parse().ok().filter(|&rounds| rounds > 0),
        None => Some(ROUNDS),
    }
}

/// The stack that a case's calls need, verified and not.
fn depths(mut case: Case) -> (String, [usize; 2]) {
    let depths = [0, 1].map(|side| stack::depth(&mut case.sides[side]));
    (case.name, depths)
}
