//! The ways to damage a job file. Some of them leave it good: they are just inside a limit.

use crate::files::{fill, group, label, machines_line, printable, smallest_group, Lines};
use crate::jobfile::MOST_BYTES;
use crate::model::Job;
use crate::random::Random;
use std::ops::Range;

/// A name, what is done to a file of `files::in_range`, and the numbers that the program can then
/// answer.
pub type Damage = (&'static str, fn(&mut Lines, &mut Random), &'static [u32]);

const BAD: &[u32] = &[13];
const GOOD: &[u32] = &[0, 7];
const GOOD_OR_BAD: &[u32] = &[0, 7, 13];
const OUT_OF_RANGE: &[u32] = &[1, 4];
const MACHINES: &[u32] = &[1];
const ROWS: &[u32] = &[3];
const TWICE: &[u32] = &[5];
const TOO_LONG: &[u32] = &[14];
const NO_JOBS: &[u32] = &[0];
/// What a change of one byte can make of a file.
const BY_A_BYTE: &[u32] = &[0, 1, 4, 5, 7, 13];

#[rustfmt::skip]
pub const DAMAGES: &[Damage] = &[
    // Lines that are missing, too many, or not in their places.
    ("the machines line missing", machines_missing, BAD),
    ("a job line missing", missing::<JOB>, BAD),
    ("a work line missing", missing::<WORK>, BAD),
    ("a deadline line missing", missing::<DEADLINE>, BAD),
    ("a bound line missing", missing::<BOUND>, BAD),
    ("a label line missing", missing::<LABEL>, BAD),
    ("a whole group missing", group_missing, GOOD),
    ("a line twice", line_twice, BAD),
    ("a group twice", group_twice, TWICE),
    ("two neighbours swapped", neighbours_swapped, BAD),
    ("two lines swapped", two_lines_swapped, GOOD_OR_BAD),
    ("two groups swapped", two_groups_swapped, GOOD),
    ("the lines in any order", lines_shuffled, GOOD_OR_BAD),
    ("an empty line at the start", empty_line_at_the_start, BAD),
    ("an empty line in the middle", empty_line_in_the_middle, BAD),
    ("an empty line at the end", empty_line_at_the_end, BAD),
    ("something before the first line", something_before, BAD),
    ("something after the last line", something_after, BAD),
    // Ends of lines.
    ("the last line unended", last_line_unended, BAD),
    ("a CR before a newline", cr_before_newline, BAD),
    ("a CR for a newline", cr_for_newline, BAD),
    ("a CR before every newline", cr_before_every_newline, BAD),
    // Keys.
    ("a key with a capital letter", capital_in_key, BAD),
    ("a key without its =", equals_missing, BAD),
    ("another byte for a key's =", equals_changed, BAD),
    ("a number after two =", two_equals, BAD),
    // Numbers.
    ("a leading zero", leading_zero, BAD),
    ("an empty number", empty_number, BAD),
    ("a number of 7 digits", seven_digits, OUT_OF_RANGE),
    ("a number of 8 digits", eight_digits, BAD),
    ("a number that is right in its low bits", right_in_low_bits, BAD),
    ("a number 0", zero, OUT_OF_RANGE),
    ("a sign before a number", sign, BAD),
    ("a space in a number's line", space_in_number_line, BAD),
    ("a tab in a number", in_number::<b'\t'>, BAD),
    ("the byte before 0 in a number", in_number::<b'/'>, BAD),
    ("the byte after 9 in a number", in_number::<b':'>, BAD),
    ("a letter in a number", in_number::<b'e'>, BAD),
    ("machines=0", machines::<0>, MACHINES),
    ("machines=1", machines::<1>, GOOD),
    ("machines=64", machines::<64>, GOOD),
    ("machines=65", machines::<65>, MACHINES),
    // Labels.
    ("a label of 0 bytes", label_of::<0>, GOOD),
    ("a label of 24 bytes", label_of::<24>, GOOD),
    ("a label of 25 bytes", label_of::<25>, BAD),
    ("a label of 256 bytes", label_of::<256>, BAD),
    ("a tab in a label", in_label::<b'\t'>, BAD),
    ("a CR in a label", in_label::<b'\r'>, BAD),
    ("byte 0x1F in a label", in_label::<0x1f>, BAD),
    ("byte 0x20 in a label", in_label::<0x20>, GOOD),
    ("an = in a label", in_label::<b'='>, GOOD),
    ("byte 0x7E in a label", in_label::<0x7e>, GOOD),
    ("byte 0x7F in a label", in_label::<0x7f>, BAD),
    ("byte 0x80 in a label", in_label::<0x80>, BAD),
    ("byte 0xFF in a label", in_label::<0xff>, BAD),
    // Sizes.
    ("an empty file", empty_file, BAD),
    ("the machines line only", machines_only, NO_JOBS),
    ("4,096 bytes", bytes::<4_096>, ROWS),
    ("4,096 bytes with a bad line", bytes_and_a_bad_line::<4_096>, BAD),
    ("4,097 bytes", bytes::<4_097>, TOO_LONG),
    ("4,097 bytes with a bad line", bytes_and_a_bad_line::<4_097>, TOO_LONG),
    ("4,096 bytes and a newline", bytes_and_a_newline, TOO_LONG),
    ("far too many bytes", far_too_many_bytes, TOO_LONG),
    ("32 groups", groups::<32>, GOOD),
    ("32 groups and a part of one", unfinished_33rd_group, BAD),
    ("33 groups", groups::<33>, ROWS),
    ("34 groups", groups::<34>, ROWS),
    ("104 groups", smallest_groups::<104>, ROWS),
    ("105 groups", smallest_groups::<105>, TOO_LONG),
    ("33 groups and numbers out of range", groups_out_of_range, ROWS),
    ("33 groups and no machines", groups_and_no_machines, MACHINES),
    ("33 groups, no machines and then a bad line", bad_line_after_33rd_group, BAD),
    // Damage that knows nothing of lines.
    ("a NUL byte", nul, BAD),
    ("random bytes", random_bytes, BAD),
    ("random bytes of a job file", random_bytes_of_a_file, BAD),
    ("a file cut short", cut_short, GOOD_OR_BAD),
    ("a byte changed", byte_changed, BY_A_BYTE),
    ("a byte inserted", byte_inserted, BY_A_BYTE),
    ("a byte removed", byte_removed, BY_A_BYTE),
];

/// Damages that can be done to any bytes, and so on top of another.
pub const TO_ANY_BYTES: [fn(&mut Lines, &mut Random); 5] =
    [nul, cut_short, byte_changed, byte_inserted, byte_removed];

/// The places of a group's lines.
const JOB: usize = 0;
const WORK: usize = 1;
const DEADLINE: usize = 2;
const BOUND: usize = 3;
const LABEL: usize = 4;

/// The first group, one in the middle, or the last.
fn a_group(lines: &Lines, random: &mut Random) -> usize {
    let n = lines.len() / 5;
    random.pick(&[0, n / 2, n - 1])
}

fn lines_of(group: usize) -> Range<usize> {
    1 + 5 * group..6 + 5 * group
}

/// Where a line of this kind stands.
fn a_line(kind: usize, lines: &Lines, random: &mut Random) -> usize {
    lines_of(a_group(lines, random)).start + kind
}

/// A line that has a number.
fn number_line<'a>(lines: &'a mut Lines, random: &mut Random) -> &'a mut Vec<u8> {
    if random.one_in(5) {
        return &mut lines[0];
    }
    let kind = random.pick(&[JOB, WORK, DEADLINE, BOUND]);
    let at = a_line(kind, lines, random);
    &mut lines[at]
}

fn label_line<'a>(lines: &'a mut Lines, random: &mut Random) -> &'a mut Vec<u8> {
    let at = a_line(LABEL, lines, random);
    &mut lines[at]
}

fn any_line<'a>(lines: &'a mut Lines, random: &mut Random) -> &'a mut Vec<u8> {
    let at = random.below(lines.len());
    &mut lines[at]
}

/// Where the number or the label of a line stands.
fn text(line: &[u8]) -> Range<usize> {
    let equals = line.iter().position(|&byte| byte == b'=');
    1 + equals.expect("a line has its =")..line.len() - 1
}

fn set_text(line: &mut Vec<u8>, new: &[u8]) {
    let old = text(line);
    line.splice(old, new.iter().copied());
}

fn number(line: &[u8]) -> u32 {
    let digits = std::str::from_utf8(&line[text(line)]).expect("digits");
    digits.parse().expect("a number")
}

/// Puts a byte into a line's text, at either end too.
fn into_text(line: &mut Vec<u8>, byte: u8, random: &mut Random) {
    let Range { start, end } = text(line);
    line.insert(start + random.below(end - start + 1), byte);
}

// Lines that are missing, too many, or not in their places.

fn machines_missing(lines: &mut Lines, _: &mut Random) {
    lines.remove(0);
}

fn missing<const KIND: usize>(lines: &mut Lines, random: &mut Random) {
    lines.remove(a_line(KIND, lines, random));
}

fn group_missing(lines: &mut Lines, random: &mut Random) {
    lines.drain(lines_of(a_group(lines, random)));
}

fn line_twice(lines: &mut Lines, random: &mut Random) {
    let at = random.below(lines.len());
    lines.insert(at, lines[at].clone());
}

fn group_twice(lines: &mut Lines, random: &mut Random) {
    lines.extend_from_within(lines_of(a_group(lines, random)));
}

fn neighbours_swapped(lines: &mut Lines, random: &mut Random) {
    let at = random.below(lines.len() - 1);
    lines.swap(at, at + 1);
}

fn two_lines_swapped(lines: &mut Lines, random: &mut Random) {
    let n = lines.len();
    lines.swap(random.below(n), random.below(n));
}

fn two_groups_swapped(lines: &mut Lines, random: &mut Random) {
    let [one, other] = [a_group(lines, random), a_group(lines, random)].map(lines_of);
    one.zip(other).for_each(|(a, b)| lines.swap(a, b));
}

fn lines_shuffled(lines: &mut Lines, random: &mut Random) {
    random.shuffle(lines);
}

fn empty_line_at_the_start(lines: &mut Lines, _: &mut Random) {
    lines.insert(0, b"\n".to_vec());
}

fn empty_line_in_the_middle(lines: &mut Lines, random: &mut Random) {
    lines.insert(1 + random.below(lines.len() - 1), b"\n".to_vec());
}

fn empty_line_at_the_end(lines: &mut Lines, _: &mut Random) {
    lines.push(b"\n".to_vec());
}

fn something_before(lines: &mut Lines, random: &mut Random) {
    // The last one is the mark that some editors put before UTF-8.
    let some = random.pick(&[&b" "[..], b"#\n", b"jobs=2\n", b"\xef\xbb\xbf"]);
    lines.insert(0, some.to_vec());
}

fn something_after(lines: &mut Lines, random: &mut Random) {
    let some = random.pick(&[&b" "[..], b"#\n", b"end\n", b"job=1", b"\x1a"]);
    lines.push(some.to_vec());
}

// Ends of lines.

fn last_line_unended(lines: &mut Lines, _: &mut Random) {
    lines.last_mut().expect("a line").pop();
}

fn cr_before_newline(lines: &mut Lines, random: &mut Random) {
    let line = any_line(lines, random);
    line.insert(line.len() - 1, b'\r');
}

fn cr_for_newline(lines: &mut Lines, random: &mut Random) {
    *any_line(lines, random).last_mut().expect("a newline") = b'\r';
}

fn cr_before_every_newline(lines: &mut Lines, _: &mut Random) {
    for line in lines {
        line.insert(line.len() - 1, b'\r');
    }
}

// Keys.

fn capital_in_key(lines: &mut Lines, random: &mut Random) {
    let line = any_line(lines, random);
    let key = text(line).start - 1;
    line[random.below(key)].make_ascii_uppercase();
}

/// Not in a label's line: the label could start with an = of its own.
fn equals_missing(lines: &mut Lines, random: &mut Random) {
    let line = number_line(lines, random);
    line.remove(text(line).start - 1);
}

fn equals_changed(lines: &mut Lines, random: &mut Random) {
    let line = any_line(lines, random);
    let equals = text(line).start - 1;
    line[equals] = random.pick(b" :-_\t");
}

fn two_equals(lines: &mut Lines, random: &mut Random) {
    let line = number_line(lines, random);
    line.insert(text(line).start, b'=');
}

// Numbers.

fn leading_zero(lines: &mut Lines, random: &mut Random) {
    let line = number_line(lines, random);
    line.insert(text(line).start, b'0');
}

fn empty_number(lines: &mut Lines, random: &mut Random) {
    set_text(number_line(lines, random), b"");
}

fn seven_digits(lines: &mut Lines, random: &mut Random) {
    let number = random.within(1_000_000, 9_999_999);
    set_text(number_line(lines, random), number.to_string().as_bytes());
}

fn eight_digits(lines: &mut Lines, random: &mut Random) {
    let number = random.within(10_000_000, 99_999_999);
    set_text(number_line(lines, random), number.to_string().as_bytes());
}

/// To catch a reader that counts round 2^32 or 2^64.
fn right_in_low_bits(lines: &mut Lines, random: &mut Random) {
    let line = number_line(lines, random);
    let number = u128::from(number(line)) + random.pick(&[1 << 32, 1 << 64]);
    set_text(line, number.to_string().as_bytes());
}

fn zero(lines: &mut Lines, random: &mut Random) {
    set_text(number_line(lines, random), b"0");
}

fn sign(lines: &mut Lines, random: &mut Random) {
    let line = number_line(lines, random);
    line.insert(text(line).start, random.pick(b"+-"));
}

fn space_in_number_line(lines: &mut Lines, random: &mut Random) {
    let line = number_line(lines, random);
    line.insert(random.below(line.len()), b' ');
}

fn in_number<const BYTE: u8>(lines: &mut Lines, random: &mut Random) {
    into_text(number_line(lines, random), BYTE, random);
}

fn machines<const COUNT: u32>(lines: &mut Lines, _: &mut Random) {
    lines[0] = machines_line(COUNT);
}

// Labels.

fn label_of<const LEN: usize>(lines: &mut Lines, random: &mut Random) {
    let label = printable(LEN, random);
    set_text(label_line(lines, random), &label);
}

/// The label is cut by one byte first if it is full.
fn in_label<const BYTE: u8>(lines: &mut Lines, random: &mut Random) {
    let line = label_line(lines, random);
    let label = line[text(line)].to_vec();
    set_text(line, &label[..label.len().min(23)]);
    into_text(line, BYTE, random);
}

// Sizes.

fn empty_file(lines: &mut Lines, _: &mut Random) {
    lines.clear();
}

fn machines_only(lines: &mut Lines, _: &mut Random) {
    lines.truncate(1);
}

fn bytes<const LEN: usize>(lines: &mut Lines, _: &mut Random) {
    fill(lines, LEN);
}

/// A capital letter leaves the size as it is.
fn bytes_and_a_bad_line<const LEN: usize>(lines: &mut Lines, random: &mut Random) {
    fill(lines, LEN);
    capital_in_key(lines, random);
}

fn bytes_and_a_newline(lines: &mut Lines, _: &mut Random) {
    fill(lines, MOST_BYTES);
    lines.push(b"\n".to_vec());
}

fn far_too_many_bytes(lines: &mut Lines, random: &mut Random) {
    // The last two look like an empty file, or like one of 4,096 bytes, in 16 bits.
    let len = random.pick(&[4_098, 8_192, 8_193, 20_000, 65_536, 65_536 + 4_096]);
    fill(lines, len);
}

/// Keeps the machines, with other jobs: this many, with different numbers, in any order.
fn groups<const N: u32>(lines: &mut Lines, random: &mut Random) {
    let mut numbers: Vec<u32> = (1..=N).collect();
    random.shuffle(&mut numbers);
    lines.truncate(1);
    for number in numbers {
        let job = Job {
            number,
            work: random.within(1, 12),
            deadline: random.within(2, 168),
            bound: random.within(6, 64),
        };
        lines.extend(group(&job, &label(random)));
    }
}

fn smallest_groups<const N: usize>(lines: &mut Lines, _: &mut Random) {
    lines.truncate(1);
    for _ in 0..N {
        lines.extend(smallest_group());
    }
}

fn unfinished_33rd_group(lines: &mut Lines, random: &mut Random) {
    groups::<33>(lines, random);
    lines.truncate(lines_of(32).start + random.pick(&[WORK, DEADLINE, BOUND, LABEL]));
}

fn groups_out_of_range(lines: &mut Lines, random: &mut Random) {
    groups::<33>(lines, random);
    let row = random.pick(&[0, 16, 31, 32]);
    let at = lines_of(row).start + random.pick(&[JOB, WORK, DEADLINE, BOUND]);
    set_text(&mut lines[at], b"0");
}

fn groups_and_no_machines(lines: &mut Lines, random: &mut Random) {
    groups::<33>(lines, random);
    machines::<0>(lines, random);
}

fn bad_line_after_33rd_group(lines: &mut Lines, random: &mut Random) {
    groups::<34>(lines, random);
    machines::<0>(lines, random);
    let at = lines_of(33).start + random.pick(&[JOB, WORK, DEADLINE, BOUND, LABEL]);
    lines[at].insert(0, b' ');
}

// Damage that knows nothing of lines.

/// Does something to the bytes as a whole.
fn to_bytes(lines: &mut Lines, change: impl FnOnce(&mut Vec<u8>)) {
    let mut bytes = lines.concat();
    change(&mut bytes);
    *lines = vec![bytes];
}

/// Any byte, more often one that has a meaning in a job file.
fn a_byte(random: &mut Random) -> u8 {
    if random.one_in(3) {
        random.any()
    } else {
        random.pick(b"0123456789=\nmachinesjobworkdeadlineboundlabel")
    }
}

fn nul(lines: &mut Lines, random: &mut Random) {
    to_bytes(lines, |bytes| {
        bytes.insert(random.below(bytes.len() + 1), 0)
    });
}

fn random_bytes(lines: &mut Lines, random: &mut Random) {
    let len = random.below(MOST_BYTES + 1);
    *lines = vec![(0..len).map(|_| random.any()).collect()];
}

fn random_bytes_of_a_file(lines: &mut Lines, random: &mut Random) {
    let len = random.below(200);
    *lines = vec![(0..len).map(|_| a_byte(random)).collect()];
}

fn cut_short(lines: &mut Lines, random: &mut Random) {
    to_bytes(lines, |bytes| bytes.truncate(random.below(bytes.len() + 1)));
}

fn byte_changed(lines: &mut Lines, random: &mut Random) {
    to_bytes(lines, |bytes| {
        if !bytes.is_empty() {
            let at = random.below(bytes.len());
            bytes[at] = a_byte(random);
        }
    });
}

fn byte_inserted(lines: &mut Lines, random: &mut Random) {
    to_bytes(lines, |bytes| {
        bytes.insert(random.below(bytes.len() + 1), a_byte(random))
    });
}

fn byte_removed(lines: &mut Lines, random: &mut Random) {
    to_bytes(lines, |bytes| {
        if !bytes.is_empty() {
            bytes.remove(random.below(bytes.len()));
        }
    });
}
