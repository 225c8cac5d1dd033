//! The tables, as Markdown.

use crate::clock::Seconds;
use crate::rounds::Times;

const UNVERIFIED: usize = 1;
const MAX_FLOW: usize = 2;

pub fn calls(times: &[Times]) {
    head(&["case", "verified", "unverified", "ratio", "middle half"]);
    for case in times {
        let (from, to) = case.spread(UNVERIFIED);
        row(&[
            &case.name,
            &shown(case.median(0)),
            &shown(case.median(UNVERIFIED)),
            &figures(case.ratio(UNVERIFIED)),
            &format!("{} to {}", figures(from), figures(to)),
        ]);
    }
}

/// The cases that the max-flow has a side in.
pub fn max_flow(times: &[Times]) {
    head(&["case", "verified", "max-flow", "ratio"]);
    for case in times.iter().filter(|case| case.sides() > MAX_FLOW) {
        row(&[
            &case.name,
            &shown(case.median(0)),
            &shown(case.median(MAX_FLOW)),
            &figures(case.ratio(MAX_FLOW)),
        ]);
    }
}

/// Each time with what it is of the time in the first row.
pub fn growth(times: &[Times]) {
    head(&["Plan", "verified", "grown", "unverified", "grown", "ratio"]);
    for case in times {
        let grown = |side| format!("×{}", figures(case.median(side) / times[0].median(side)));
        row(&[
            &case.name,
            &shown(case.median(0)),
            &grown(0),
            &shown(case.median(UNVERIFIED)),
            &grown(UNVERIFIED),
            &figures(case.ratio(UNVERIFIED)),
        ]);
    }
}

/// The names of the calls, with the bytes of stack that each side wrote to.
pub fn stack(depths: &[(String, [usize; 2])]) {
    head(&["stack", "verified", "unverified"]);
    for (name, [verified, unverified]) in depths {
        row(&[name, &format!("{verified} B"), &format!("{unverified} B")]);
    }
}

fn head(titles: &[&str]) {
    println!();
    row(titles);
    row(&vec!["---"; titles.len()]);
}

fn row(cells: &[&str]) {
    println!("| {} |", cells.join(" | "));
}

fn shown(time: Seconds) -> String {
    let units = [(1e-3, "ms"), (1e-6, "µs"), (1e-9, "ns")];
    let (unit, name) = units
        .into_iter()
        .find(|(unit, _)| time >= *unit)
        .unwrap_or(units[2]);
    format!("{} {name}", figures(time / unit))
}

/// Three figures, or all of a greater number's.
fn figures(value: f64) -> String {
    let digits = match value {
        v if v < 9.995 => 2,
        v if v < 99.95 => 1,
        _ => 0,
    };
    format!("{value:.digits$}")
}
