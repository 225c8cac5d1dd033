//! Job files by 01's words, in a way of its own: the bytes are cut at the newlines, and each line is
//! judged by its place alone.

use crate::ffi::Answer;
use crate::lists::List;
use crate::model::jobs;

pub const MOST_BYTES: usize = 4_096;
pub const LONGEST_LABEL: usize = 24;
const GREATEST_NUMBER: u32 = 9_999_999;

/// How the lines of a group start, in their order; the label is the last.
const KEYS: [&[u8]; 5] = [b"job=", b"work=", b"deadline=", b"bound=", b"label="];

/// The machine count and the rows of all groups, whatever their numbers are and however many there
/// are; or 14, or 13 with the first bad line.
pub fn read(file: &[u8]) -> Result<List, Answer> {
    if file.len() > MOST_BYTES {
        return Err(Answer::refusal(14, 0, 0));
    }
    let mut lines: Vec<&[u8]> = file.split(|&byte| byte == b'\n').collect();
    let unended = lines.pop().expect("no cut leaves one piece");

    let mut numbers = Vec::new();
    for (index, line) in lines.iter().enumerate() {
        numbers.extend(read_line(index, line).ok_or(bad_line(index))?);
    }
    // A line without its newline and a line that a group still lacks are both the next one.
    if !unended.is_empty() || lines.len() % 5 != 1 {
        return Err(bad_line(lines.len()));
    }
    Ok((numbers[0], jobs(&numbers[1..])))
}

/// 13; lines are named from 1.
fn bad_line(index: usize) -> Answer {
    Answer::refusal(13, index as u32 + 1, 0)
}

/// The number on a good line, or no number on a good label's line.
fn read_line(index: usize, line: &[u8]) -> Option<Option<u32>> {
    let (key, is_label) = match index {
        0 => (&b"machines="[..], false),
        _ => (KEYS[(index - 1) % 5], index % 5 == 0),
    };
    let text = line.strip_prefix(key)?;
    if is_label {
        label(text).then_some(None)
    } else {
        number(text).map(Some)
    }
}

/// A number stands just as it would be printed. So there is no sign and no zero before it.
fn number(text: &[u8]) -> Option<u32> {
    let text = std::str::from_utf8(text).ok()?;
    let number: u32 = text.parse().ok()?;
    (number <= GREATEST_NUMBER && number.to_string() == text).then_some(number)
}

fn label(text: &[u8]) -> bool {
    text.len() <= LONGEST_LABEL && text.iter().all(|byte| (0x20..=0x7e).contains(byte))
}
