//! The program `plan` but for its reading and writing: a job file's bytes in, the printed text out.

use crate::jobs::{MOST_JOBS, MOST_MACHINES, SLOTS};
use crate::list;
use host::ffi::Answer;

pub const MOST_BYTES: usize = 4_096;
const LONGEST_LABEL: usize = 24;
const MOST_DIGITS: usize = 7;
/// How the lines of a group start, but for its label.
const KEYS: [&[u8]; 4] = [b"job=", b"work=", b"deadline=", b"bound="];

pub fn text(file: &[u8]) -> Vec<u8> {
    let mut plan = [0; SLOTS * MOST_JOBS];
    match planned(file, &mut plan) {
        Ok(list) => plan_text(&list, &plan),
        Err(refusal) => refusal_text(refusal),
    }
}

/// What a job file holds: all groups are counted, and the rows of the first 32 are kept.
struct List {
    machines: u32,
    groups: usize,
    rows: [u32; 4 * MOST_JOBS],
}

impl List {
    fn rows(&self) -> &[u32] {
        &self.rows[..4 * self.groups]
    }
}

fn planned(file: &[u8], plan: &mut [u16]) -> Result<List, Answer> {
    let list = read(file)?;
    if list.groups > MOST_JOBS {
        let good_count = (1..=MOST_MACHINES).contains(&list.machines);
        return Err(Answer::refusal(if good_count { 3 } else { 1 }, 0, 0));
    }
    match list::plan_numbers(list.machines, list.rows(), plan) {
        Answer::YES => Ok(list),
        refusal => Err(refusal),
    }
}

/// One pass over the bytes. Whatever is wrong is wrong with the line that is due: 13 with it, or 14.
fn read(file: &[u8]) -> Result<List, Answer> {
    if file.len() > MOST_BYTES {
        return Err(Answer::refusal(14, 0, 0));
    }
    let mut lines = Lines {
        rest: file,
        line: 1,
    };
    let mut list = List {
        machines: lines.number(b"machines=")?,
        groups: 0,
        rows: [0; 4 * MOST_JOBS],
    };
    while !lines.rest.is_empty() {
        for (field, key) in KEYS.into_iter().enumerate() {
            let value = lines.number(key)?;
            if let Some(place) = list.rows.get_mut(4 * list.groups + field) {
                *place = value;
            }
        }
        lines.label()?;
        list.groups += 1;
    }
    Ok(list)
}

/// The bytes from a line on, and its number from 1.
struct Lines<'a> {
    rest: &'a [u8],
    line: u32,
}

impl Lines<'_> {
    fn bad(&self) -> Answer {
        Answer::refusal(13, self.line, 0)
    }

    fn next(&mut self, value: usize, len: usize) {
        self.rest = &self.rest[value + len + 1..];
        self.line += 1;
    }

    /// A line of a key and a number.
    fn number(&mut self, key: &[u8]) -> Result<u32, Answer> {
        let text = self.rest.strip_prefix(key).ok_or(self.bad())?;
        let mut value = 0;
        let mut len = 0;
        while let Some(digit) = text.get(len).map(|byte| byte.wrapping_sub(b'0')) {
            if digit > 9 || len == MOST_DIGITS {
                break;
            }
            value = 10 * value + u32::from(digit);
            len += 1;
        }
        let zero_before = len > 1 && text[0] == b'0';
        if len == 0 || zero_before || text.get(len) != Some(&b'\n') {
            return Err(self.bad());
        }
        self.next(key.len(), len);
        Ok(value)
    }

    fn label(&mut self) -> Result<(), Answer> {
        const KEY: &[u8] = b"label=";
        let text = self.rest.strip_prefix(KEY).ok_or(self.bad())?;
        let printable = |byte: &&u8| (0x20..=0x7e).contains(*byte);
        let len = text
            .iter()
            .take(LONGEST_LABEL)
            .take_while(printable)
            .count();
        if text.get(len) != Some(&b'\n') {
            return Err(self.bad());
        }
        self.next(KEY.len(), len);
        Ok(())
    }
}

fn plan_text(list: &List, plan: &[u16]) -> Vec<u8> {
    let mut text = Vec::with_capacity(1 << 15);
    write_line(&mut text, b"machines=", list.machines);
    text.extend(b"result=plan\n");
    for (row, machines) in list.rows().chunks_exact(4).zip(plan.chunks_exact(SLOTS)) {
        write_line(&mut text, b"job=", row[0]);
        write_run(&mut text, machines);
    }
    text
}

fn write_run(text: &mut Vec<u8>, machines: &[u16]) {
    text.extend(b"run=");
    let mut comma = false;
    for (slot, &machines) in (1..).zip(machines) {
        if machines > 0 {
            if comma {
                text.push(b',');
            }
            write_number(text, slot);
            text.push(b':');
            write_number(text, machines.into());
            comma = true;
        }
    }
    text.push(b'\n');
}

fn refusal_text(refusal: Answer) -> Vec<u8> {
    let mut text = b"result=refused\n".to_vec();
    write_line(&mut text, b"code=", refusal.number);
    write_line(&mut text, b"at=", refusal.place);
    write_line(&mut text, b"amount=", refusal.amount);
    text
}

fn write_line(text: &mut Vec<u8>, key: &[u8], number: u32) {
    text.extend(key);
    write_number(text, number);
    text.push(b'\n');
}

fn write_number(text: &mut Vec<u8>, mut number: u32) {
    let mut digits = [0; 10];
    let mut from = digits.len();
    loop {
        from -= 1;
        digits[from] = b'0' + (number % 10) as u8;
        number /= 10;
        if number == 0 {
            break;
        }
    }
    text.extend(&digits[from..]);
}
