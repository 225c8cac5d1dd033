//! Times taken in rounds: in each round every side of every case has its turn, so that whatever slows
//! the machine down for a while slows down both sides of a ratio.

use crate::clock::{time, Seconds};

/// A pass over all inputs of a case.
pub type Side<'a> = Box<dyn FnMut() + 'a>;

/// The same calls made by several sides, the verified one first.
pub struct Case<'a> {
    pub name: String,
    /// How many calls a pass makes.
    pub calls: usize,
    pub sides: Vec<Side<'a>>,
}

/// For each side its time per call in each round.
pub struct Times {
    pub name: String,
    sides: Vec<Vec<Seconds>>,
}

impl Times {
    pub fn new(name: String, sides: Vec<Vec<Seconds>>) -> Times {
        Times { name, sides }
    }

    pub fn sides(&self) -> usize {
        self.sides.len()
    }

    pub fn median(&self, side: usize) -> Seconds {
        median(self.sides[side].clone())
    }

    /// How many times the verified side's time is another's: the median of the rounds.
    pub fn ratio(&self, side: usize) -> f64 {
        median(self.ratios(side))
    }

    /// What the ratios of the middle half of the rounds lie between.
    pub fn spread(&self, side: usize) -> (f64, f64) {
        let ratios = sorted(self.ratios(side));
        let quarter = ratios.len() / 4;
        (ratios[quarter], ratios[ratios.len() - 1 - quarter])
    }

    fn ratios(&self, side: usize) -> Vec<f64> {
        let of_round = |(verified, other): (&Seconds, &Seconds)| verified / other;
        let rounds = self.sides[0].iter().zip(&self.sides[side]);
        rounds.map(of_round).collect()
    }
}

fn median(values: Vec<f64>) -> f64 {
    let values = sorted(values);
    (values[(values.len() - 1) / 2] + values[values.len() / 2]) / 2.0
}

fn sorted(mut values: Vec<f64>) -> Vec<f64> {
    values.sort_by(f64::total_cmp);
    values
}

/// Long against the clock's own time and short against the machine's moods.
const TURN: Seconds = 4e-3;

pub fn measure(rounds: usize, mut cases: Vec<Case>) -> Vec<Times> {
    let passes: Vec<Vec<usize>> = cases
        .iter_mut()
        .map(|case| case.sides.iter_mut().map(passes_in_a_turn).collect())
        .collect();
    let mut times: Vec<Times> = cases
        .iter()
        .map(|case| Times::new(case.name.clone(), vec![Vec::new(); case.sides.len()]))
        .collect();
    for round in 0..rounds {
        for ((case, passes), times) in cases.iter_mut().zip(&passes).zip(&mut times) {
            for turn in 0..case.sides.len() {
                // Another side starts in each round.
                let side = (turn + round) % case.sides.len();
                let spent = time(|| repeat(passes[side], &mut case.sides[side]));
                times.sides[side].push(spent / (passes[side] * case.calls) as f64);
            }
        }
    }
    times
}

fn repeat(passes: usize, side: &mut Side) {
    for _ in 0..passes {
        side();
    }
}

/// Doubles the passes until they fill a turn. It warms up caches and branches, too.
fn passes_in_a_turn(side: &mut Side) -> usize {
    let mut passes = 1;
    while time(|| repeat(passes, side)) < TURN {
        passes *= 2;
    }
    passes
}
