//! Job files with every line good and the numbers in range or not: random ones that a reader must
//! take, and such as have just so many bytes.

use crate::jobfile::{LONGEST_LABEL, MOST_BYTES};
use crate::ladder::GREATEST;
use crate::lists::{self, List};
use crate::model::{jobs, numbers, Job};
use crate::random::Random;

/// The lines of a file, each with its newline.
pub type Lines = Vec<Vec<u8>>;

pub fn size(lines: &Lines) -> usize {
    lines.iter().map(Vec::len).sum()
}

pub fn machines_line(machines: u32) -> Vec<u8> {
    format!("machines={machines}\n").into_bytes()
}

/// The five lines of a job.
pub fn group(job: &Job, label: &[u8]) -> [Vec<u8>; 5] {
    [
        format!("job={}\n", job.number).into_bytes(),
        format!("work={}\n", job.work).into_bytes(),
        format!("deadline={}\n", job.deadline).into_bytes(),
        format!("bound={}\n", job.bound).into_bytes(),
        label_line(label),
    ]
}

fn label_line(label: &[u8]) -> Vec<u8> {
    [b"label=", label, b"\n"].concat()
}

/// A job of 39 bytes, which is the least.
pub fn smallest_group() -> [Vec<u8>; 5] {
    let job = Job {
        number: 1,
        work: 1,
        deadline: 1,
        bound: 1,
    };
    group(&job, b"")
}

/// Adds smallest groups up to just this many bytes. There must be place for two.
pub fn fill(lines: &mut Lines, len: usize) {
    while size(lines) + 39 <= len {
        lines.extend(smallest_group());
    }
    // Fewer than 39 bytes are missing, and the last two labels, still empty, take up to 48.
    for at in [lines.len() - 1, lines.len() - 6] {
        let more = (len - size(lines)).min(LONGEST_LABEL);
        lines[at] = label_line(&vec![b'x'; more]);
    }
    assert_eq!(size(lines), len);
}

/// A list as a file with random labels.
pub fn written(machines: u32, jobs: &[Job], random: &mut Random) -> Lines {
    let mut lines = vec![machines_line(machines)];
    for job in jobs {
        lines.extend(group(job, &label(random)));
    }
    lines
}

/// Printable bytes, at times such as could be taken for a line of its own.
pub fn label(random: &mut Random) -> Vec<u8> {
    if random.one_in(8) {
        return random
            .pick(&[&b"job=1"[..], b"label=", b"machines=2", b" ", b"=", b"~"])
            .to_vec();
    }
    let len = random.below(LONGEST_LABEL + 1);
    printable(len, random)
}

pub fn printable(len: usize, random: &mut Random) -> Vec<u8> {
    (0..len).map(|_| random.within(0x20, 0x7e) as u8).collect()
}

/// One job at least, every number in range, and about as often a plan as none.
pub fn in_range(random: &mut Random) -> Lines {
    loop {
        let (machines, jobs) = small_list(random);
        if !jobs.is_empty() {
            return written(machines, &jobs, random);
        }
    }
}

fn small_list(random: &mut Random) -> List {
    if random.one_in(2) {
        lists::small(random)
    } else {
        lists::tight(random)
    }
}

/// Any number of jobs that a file has place for, and at times numbers that are refused.
pub fn well_formed(random: &mut Random) -> Lines {
    let (mut machines, good) = if random.one_in(64) {
        lists::at_the_limits(random)
    } else {
        small_list(random)
    };
    let mut fields = numbers(&good);
    if random.one_in(16) {
        machines = outside(64, machines, random);
    }
    if random.one_in(12) {
        let n = random.within(32, 45);
        for number in good.len() as u32..n {
            fields.extend([number + 1, 1, random.within(1, 168), 1]);
        }
    }
    let n = fields.len() / 4;
    if random.one_in(8) && n > 0 {
        let (row, field) = (random.below(n), random.below(4));
        let value = &mut fields[4 * row + field];
        *value = outside(GREATEST[field], *value, random);
    }
    if random.one_in(6) && n > 0 {
        fields[4 * random.below(n)] = fields[4 * random.below(n)];
    }
    let lines = written(machines, &jobs(&fields), random);
    assert!(size(&lines) <= MOST_BYTES);
    lines
}

/// A number that a file can hold, out of the range from 1. Many look right to a reader that keeps
/// 8 or 16 bits.
fn outside(greatest: u32, value: u32, random: &mut Random) -> u32 {
    let numbers = [
        0,
        greatest + 1,
        greatest + 2,
        value + (1 << 8),
        value + (1 << 16),
        9_999_999,
        random.within(1_000_000, 9_999_999),
    ];
    loop {
        let number = random.pick(&numbers);
        if number == 0 || number > greatest {
            return number;
        }
    }
}
