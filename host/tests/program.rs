//! The program `plan`, run on job files: such as have their printed text written out here, and random
//! and damaged ones, compared byte by byte with the independent printer. The printer must print the
//! texts written out here too.

use host::damage::{DAMAGES, TO_ANY_BYTES};
use host::files::{self, group, machines_line, Lines};
use host::lists;
use host::model::jobs;
use host::random::{cases, Random};
use host::{printed, program};
use std::thread;

/// 01's file; each test of one bad line puts it in here.
const P1: &str = "\
machines=3
job=1
work=4
deadline=3
bound=2
label=boot
job=2
work=3
deadline=2
bound=3
label=
job=3
work=2
deadline=3
bound=1
label=a
";
const P1_PRINTED: &str = "\
machines=3
result=plan
job=1
run=2:2,3:2
job=2
run=1:2,2:1
job=3
run=1:1,3:1
";

/// A file with this in place of a line (from 1) and its newline.
fn with(file: impl AsRef<[u8]>, line: usize, new: impl AsRef<[u8]>) -> Vec<u8> {
    let lines = file.as_ref().split_inclusive(|&byte| byte == b'\n');
    let mut lines: Vec<&[u8]> = lines.collect();
    lines[line - 1] = new.as_ref();
    lines.concat()
}

fn p1_with(line: usize, new: impl AsRef<[u8]>) -> Vec<u8> {
    with(P1, line, new)
}

fn followed_by(file: impl AsRef<[u8]>, more: impl AsRef<[u8]>) -> Vec<u8> {
    [file.as_ref(), more.as_ref()].concat()
}

/// A line of P1 without its newline.
fn p1_line(line: usize) -> &'static str {
    P1.lines().nth(line - 1).expect("P1 has 16 lines")
}

/// A file of these jobs, four numbers each, with empty labels.
fn file(machines: u32, numbers: &[u32]) -> Vec<u8> {
    let mut lines = vec![machines_line(machines)];
    for job in jobs(numbers) {
        lines.extend(group(&job, b""));
    }
    lines.concat()
}

/// A file of this many jobs that take one machine in one slot each.
fn file_of(machines: u32, n: u32) -> Vec<u8> {
    let numbers: Vec<u32> = (1..=n).flat_map(|i| [i, 1, 168, 1]).collect();
    file(machines, &numbers)
}

/// What keeps the program from printing this text, if anything does.
fn difference(file: &[u8], text: &str) -> Option<String> {
    let printed = program::run(file);
    (printed != text.as_bytes()).then(|| {
        let printed = String::from_utf8_lossy(&printed);
        let file = file.escape_ascii();
        format!("printed\n{printed}in place of\n{text}for \"{file}\"")
    })
}

/// The program prints just this, and so does the independent printer.
#[track_caller]
fn prints(file: impl AsRef<[u8]>, text: &str) {
    let file = file.as_ref();
    let shown = file.escape_ascii();
    assert_eq!(printed::text(file), text, "the printer, for \"{shown}\"");
    if let Some(what) = difference(file, text) {
        panic!("{what}");
    }
}

#[track_caller]
fn refuses(file: impl AsRef<[u8]>, [number, place, amount]: [u32; 3]) {
    let text = format!("result=refused\ncode={number}\nat={place}\namount={amount}\n");
    prints(file, &text);
}

/// The file has its first bad line here.
#[track_caller]
fn bad_at(line: usize, file: impl AsRef<[u8]>) {
    refuses(file, [13, line as u32, 0]);
}

// What is printed.

#[test]
fn the_file_of_p1_prints_its_plan() {
    prints(P1, P1_PRINTED);
}

#[test]
fn a_file_without_jobs_prints_an_empty_plan() {
    prints("machines=3\n", "machines=3\nresult=plan\n");
    prints("machines=64\n", "machines=64\nresult=plan\n");
}

#[test]
fn a_refusal_prints_four_lines_and_no_more() {
    prints("", "result=refused\ncode=13\nat=1\namount=0\n");
    let too_long = "x".repeat(4_097);
    prints(too_long, "result=refused\ncode=14\nat=0\namount=0\n");
    let no_machines = "machines=0\n";
    prints(no_machines, "result=refused\ncode=1\nat=0\namount=0\n");
    let too_many = file_of(3, 33);
    prints(too_many, "result=refused\ncode=3\nat=0\namount=0\n");
    let no_bound = file(3, &[1, 1, 1, 0]);
    prints(no_bound, "result=refused\ncode=4\nat=0\namount=4\n");
    let twice = file(3, &[1, 1, 1, 1, 1, 1, 1, 1]);
    prints(twice, "result=refused\ncode=5\nat=1\namount=0\n");
    let short = file(2, &[1, 10, 3, 5]);
    prints(short, "result=refused\ncode=7\nat=3\namount=4\n");
}

#[test]
fn the_worked_lists_print_what_01_says_of_them() {
    let [p2, p3, p4] = [1, 2, 3].map(|work| file(2, &[1, 4, 2, 2, 2, work, 3, 1]));
    prints(
        p2,
        "machines=2\nresult=plan\njob=1\nrun=1:2,2:2\njob=2\nrun=3:1\n",
    );
    refuses(p3, [7, 2, 1]);
    refuses(p4, [7, 2, 2]);
    let p5 = file(2, &[1, 10, 3, 5]);
    refuses(p5, [7, 3, 4]);
    let [p6, p6_with_work_4] = [5, 4].map(|work| file(64, &[1, work, 2, 2]));
    refuses(p6, [7, 0, 1]);
    prints(
        p6_with_work_4,
        "machines=64\nresult=plan\njob=1\nrun=1:2,2:2\n",
    );
    let p7 = file(2, &[1, 2, 2, 2, 2, 3, 3, 1]);
    prints(
        p7,
        "machines=2\nresult=plan\njob=1\nrun=1:1,2:1\njob=2\nrun=1:1,2:1,3:1\n",
    );
    let p8 = file(3, &[1, 4, 2, 3, 2, 2, 2, 1]);
    prints(
        p8,
        "machines=3\nresult=plan\njob=1\nrun=1:2,2:2\njob=2\nrun=1:1,2:1\n",
    );
    let p9 = "machines=1\n";
    prints(p9, "machines=1\nresult=plan\n");
    let p10 = file(2, &[1, 3, 2, 1, 2, 4, 2, 2]);
    refuses(p10, [7, 0, 1]);
}

#[test]
fn other_labels_print_the_same_text() {
    for label in [
        "",
        " ",
        "zzz",
        "job=9",
        "=",
        "label=",
        "exactly 24 bytes, spaces",
    ] {
        let line = format!("label={label}\n");
        for at in [6, 11, 16] {
            prints(p1_with(at, &line), P1_PRINTED);
        }
        let all = with(with(p1_with(6, &line), 11, &line), 16, &line);
        prints(all, P1_PRINTED);
    }
}

#[test]
fn jobs_in_another_order_print_the_same_runs_in_that_order() {
    let lines: Vec<&str> = P1.split_inclusive('\n').collect();
    let jobs = [1, 6, 11].map(|first| lines[first..first + 5].concat());
    let runs = [
        "job=1\nrun=2:2,3:2\n",
        "job=2\nrun=1:2,2:1\n",
        "job=3\nrun=1:1,3:1\n",
    ];
    for [a, b, c] in [
        [0, 1, 2],
        [0, 2, 1],
        [1, 0, 2],
        [1, 2, 0],
        [2, 0, 1],
        [2, 1, 0],
    ] {
        let file = ["machines=3\n", &jobs[a], &jobs[b], &jobs[c]].concat();
        let text = ["machines=3\nresult=plan\n", runs[a], runs[b], runs[c]].concat();
        prints(file, &text);
    }
}

#[test]
fn the_longest_plan_is_printed_whole() {
    // 32 jobs in every slot, and no more than three of them can have ten machines.
    let bound = |i: u32| if i < 3 { 10 } else { 1 };
    let job = |i: u32| [65_535 - i, 168 * bound(i), 168, bound(i)];
    let mut text = String::from("machines=64\nresult=plan\n");
    for i in 0..32 {
        let pairs = (1..=168).map(|slot| format!("{slot}:{}", bound(i)));
        let pairs: Vec<String> = pairs.collect();
        text += &format!("job={}\nrun={}\n", 65_535 - i, pairs.join(","));
    }
    assert_eq!(text.len(), 29_776);
    prints(file(64, &(0..32).flat_map(job).collect::<Vec<_>>()), &text);
}

#[test]
fn a_file_that_arrives_in_pieces_is_read_whole() {
    for at in [1, 60, 132] {
        let (head, tail) = P1.as_bytes().split_at(at);
        let printed = program::run_in_pieces(&[head, tail]);
        assert_eq!(String::from_utf8_lossy(&printed), P1_PRINTED, "cut at {at}");
    }
    // 4,096 bytes are no reason to stop: the one that is too many may still come.
    let printed = program::run_in_pieces(&[&[b'x'; 4_096], b"x"]);
    let too_long = "result=refused\ncode=14\nat=0\namount=0\n";
    assert_eq!(String::from_utf8_lossy(&printed), too_long);
}

// Lines that are missing, too many, or not in their places.

#[test]
fn a_missing_line_is_bad_where_it_should_stand() {
    for line in 1..=16 {
        bad_at(line, p1_with(line, ""));
    }
}

#[test]
fn a_swapped_line_is_bad_where_the_first_of_both_should_stand() {
    for line in 1..=15 {
        let swapped = format!("{}\n{}\n", p1_line(line + 1), p1_line(line));
        bad_at(line, with(p1_with(line + 1, ""), line, swapped));
    }
}

#[test]
fn a_line_that_stands_twice_is_bad_the_second_time() {
    for line in 1..=16 {
        let twice = format!("{0}\n{0}\n", p1_line(line));
        bad_at(line + 1, p1_with(line, twice));
    }
}

#[test]
fn an_empty_line_is_bad_at_the_start_in_the_middle_and_at_the_end() {
    for line in 1..=16 {
        bad_at(line, p1_with(line, format!("\n{}\n", p1_line(line))));
        bad_at(line, p1_with(line, "\n"));
    }
    bad_at(17, followed_by(P1, "\n"));
    bad_at(17, followed_by(P1, "\n\n"));
    bad_at(2, "machines=3\n\n");
}

#[test]
fn a_file_that_stops_inside_a_group_is_bad_at_the_next_line() {
    bad_at(3, "machines=3\njob=1\n");
    bad_at(4, "machines=3\njob=1\nwork=1\n");
    bad_at(5, "machines=3\njob=1\nwork=1\ndeadline=1\n");
    bad_at(6, "machines=3\njob=1\nwork=1\ndeadline=1\nbound=1\n");
    bad_at(18, followed_by(P1, "job=4\n"));
}

#[test]
fn an_empty_file_is_bad_at_line_1() {
    bad_at(1, "");
    bad_at(1, "\n");
    bad_at(1, "\n\n");
}

#[test]
fn something_after_the_last_group_is_bad() {
    bad_at(17, followed_by(P1, " "));
    bad_at(17, followed_by(P1, "x"));
    bad_at(17, followed_by(P1, "end\n"));
    bad_at(17, followed_by(P1, "job=4"));
    bad_at(2, "machines=3\nmachines=3\n");
}

// Ends of lines.

#[test]
fn a_last_line_without_its_newline_is_bad() {
    for line in 1..=16 {
        let ended = P1.split_inclusive('\n').take(line).collect::<String>();
        bad_at(line, ended.trim_end_matches('\n'));
    }
}

#[test]
fn a_carriage_return_makes_any_line_bad() {
    for line in 1..=16 {
        bad_at(line, p1_with(line, format!("{}\r\n", p1_line(line))));
        bad_at(line, p1_with(line, format!("{}\r", p1_line(line))));
    }
    bad_at(1, P1.replace('\n', "\r\n"));
    bad_at(1, P1.replace('\n', "\r"));
}

// Keys.

#[test]
fn a_key_is_just_its_bytes() {
    for line in 1..=16 {
        let (key, text) = p1_line(line).split_once('=').expect("a line has its =");
        let bad = [
            format!("{}={text}\n", key.to_uppercase()),
            format!("{}={text}\n", &key[1..]),
            format!("{}={text}\n", &key[..key.len() - 1]),
            format!("{key}s={text}\n"),
            format!("x{key}={text}\n"),
            format!("{key}{text}\n"),
            format!("{key}:{text}\n"),
            format!("{key} ={text}\n"),
            format!(" {key}={text}\n"),
            format!("={text}\n"),
            format!("{key}\n"),
        ];
        for new in bad {
            bad_at(line, p1_with(line, new));
        }
    }
}

// Numbers.

/// Each line of P1 that has a number, with another text for it, is bad.
#[track_caller]
fn no_number(text: &str) {
    for line in (1..=16).filter(|line| ![6, 11, 16].contains(line)) {
        let (key, _) = p1_line(line).split_once('=').expect("a line has its =");
        bad_at(line, p1_with(line, format!("{key}={text}\n")));
    }
}

#[test]
fn an_empty_number_is_bad() {
    no_number("");
}

#[test]
fn a_leading_zero_is_bad_and_a_single_0_is_a_number() {
    for text in ["01", "00", "0000001", "00000001"] {
        no_number(text);
    }
    refuses(p1_with(1, "machines=0\n"), [1, 0, 0]);
    refuses(p1_with(2, "job=0\n"), [4, 0, 1]);
    refuses(p1_with(8, "work=0\n"), [4, 1, 2]);
    refuses(p1_with(14, "deadline=0\n"), [4, 2, 3]);
    refuses(p1_with(15, "bound=0\n"), [4, 2, 4]);
}

#[test]
fn eight_digits_are_bad_and_seven_are_a_number() {
    // The long ones are 1 in 32 and in 64 bits.
    for text in ["10000000", "99999999", "4294967297", "18446744073709551617"] {
        no_number(text);
    }
    refuses(p1_with(1, "machines=1000000\n"), [1, 0, 0]);
    refuses(p1_with(1, "machines=9999999\n"), [1, 0, 0]);
    refuses(p1_with(2, "job=1000000\n"), [4, 0, 1]);
    refuses(p1_with(8, "work=9999999\n"), [4, 1, 2]);
    refuses(p1_with(14, "deadline=9999999\n"), [4, 2, 3]);
    refuses(p1_with(15, "bound=9999999\n"), [4, 2, 4]);
}

#[test]
fn a_sign_is_bad() {
    for text in ["+1", "-1", "-0", "+", "-"] {
        no_number(text);
    }
}

#[test]
fn a_space_or_a_tab_in_a_number_is_bad() {
    for text in [" 1", "1 ", "1 1", " ", "\t1", "1\t", "1\t1", "\t"] {
        no_number(text);
    }
}

#[test]
fn anything_but_a_digit_in_a_number_is_bad() {
    // The first two stand just before 0 and just after 9.
    for text in [
        "/", ":", "1/", "1:", "1.0", "1,0", "1_0", "0x1", "1e1", "=1", "one",
    ] {
        no_number(text);
    }
    bad_at(3, p1_with(3, b"work=\xb2\n"));
    bad_at(3, p1_with(3, b"work=1\xff\n"));
    // Digits to Unicode, and bytes above 0x7E here.
    bad_at(3, p1_with(3, "work=\u{0664}\n"));
}

#[test]
fn every_machine_count_from_1_to_64_is_taken_and_no_other() {
    for machines in 1..=64 {
        let line = format!("machines={machines}\n");
        prints(&line, &format!("{line}result=plan\n"));
    }
    for machines in [0, 65, 66, 100, 257, 65_537] {
        refuses(format!("machines={machines}\n"), [1, 0, 0]);
        refuses(file_of(machines, 2), [1, 0, 0]);
    }
}

#[test]
fn numbers_at_their_limits_are_taken_and_those_beyond_are_refused() {
    let plan = |number| format!("machines=1\nresult=plan\njob={number}\nrun=168:1\n");
    prints(file(1, &[1, 1, 168, 64]), &plan(1));
    prints(file(1, &[65_535, 1, 168, 64]), &plan(65_535));
    refuses(file(1, &[65_536, 1, 168, 64]), [4, 0, 1]);
    refuses(file(1, &[65_537, 1, 168, 64]), [4, 0, 1]);
    refuses(file(1, &[1, 60_000, 168, 64]), [7, 0, 60_000 - 64 * 168]);
    refuses(file(1, &[1, 60_001, 168, 64]), [4, 0, 2]);
    refuses(file(1, &[1, 65_537, 168, 64]), [4, 0, 2]);
    refuses(file(1, &[1, 1, 169, 64]), [4, 0, 3]);
    refuses(file(1, &[1, 1, 257, 64]), [4, 0, 3]);
    refuses(file(1, &[1, 1, 168, 65]), [4, 0, 4]);
    refuses(file(1, &[1, 1, 168, 257]), [4, 0, 4]);
}

// Labels.

#[test]
fn a_label_of_24_bytes_is_good_and_one_of_25_is_bad() {
    for len in 0..=24 {
        let line = format!("label={}\n", "x".repeat(len));
        prints(p1_with(6, line), P1_PRINTED);
    }
    for len in [25, 26, 256, 280] {
        let line = format!("label={}\n", "x".repeat(len));
        bad_at(6, p1_with(6, &line));
        bad_at(16, p1_with(16, &line));
    }
}

#[test]
fn a_label_has_bytes_from_0x20_to_0x7e_and_no_other() {
    for byte in (0..=255).filter(|&byte| byte != b'\n') {
        for label in [&[byte, b'x'][..], &[byte; 24]] {
            let file = p1_with(16, [b"label=", label, b"\n"].concat());
            match byte {
                0x20..=0x7e => prints(file, P1_PRINTED),
                _ => bad_at(16, file),
            }
        }
    }
    // A newline ends the label, and its other half is no job line.
    bad_at(7, p1_with(6, "label=bo\not\n"));
}

#[test]
fn a_tab_in_a_label_is_bad() {
    bad_at(6, p1_with(6, "label=\tboot\n"));
    bad_at(11, p1_with(11, "label=\t\n"));
    bad_at(16, p1_with(16, "label=a\t\n"));
}

// Sizes.

/// 104 jobs of 39 bytes, which is the least, with the last two labels so long.
fn file_of_104(machines_line: &str, labels: [usize; 2]) -> String {
    let group = |label: usize| {
        let label = "x".repeat(label);
        format!("job=1\nwork=1\ndeadline=1\nbound=1\nlabel={label}\n")
    };
    let [one, other] = labels.map(group);
    machines_line.to_owned() + &group(0).repeat(102) + &one + &other
}

#[test]
fn a_file_of_4096_bytes_is_read_and_one_of_4097_is_not() {
    let [longest, too_long] = [5, 6].map(|label| file_of_104("machines=3\n", [24, label]));
    assert_eq!([longest.len(), too_long.len()], [4_096, 4_097]);
    refuses(&longest, [3, 0, 0]);
    refuses(&too_long, [14, 0, 0]);
    refuses(followed_by(&longest, "\n"), [14, 0, 0]);
    refuses(longest.replace("machines=3", "machines=0"), [1, 0, 0]);

    // Bad lines, first or last.
    bad_at(1, longest.replace("machines", "machineS"));
    bad_at(521, followed_by(longest.trim_end(), "x"));
    bad_at(1, "x".repeat(4_096));
    bad_at(1, "\n".repeat(4_096));
    refuses(too_long.replace("machines", "machineS"), [14, 0, 0]);
    refuses("x".repeat(4_097), [14, 0, 0]);
    refuses("\n".repeat(4_097), [14, 0, 0]);
}

#[test]
fn a_file_of_any_greater_length_is_a_14() {
    for len in [4_098, 5_000, 8_192, 8_193, 65_536, 65_537, 69_632, 200_000] {
        refuses("\n".repeat(len), [14, 0, 0]);
        refuses(P1.repeat(len / P1.len() + 1), [14, 0, 0]);
    }
    // Read up to 4,096 bytes, this is a good file.
    let longest = file_of_104("machines=3\n", [24, 5]);
    refuses(followed_by(&longest, &longest), [14, 0, 0]);
}

#[test]
fn thirty_two_groups_are_planned_and_more_are_a_3() {
    let runs = |n| (1..=n).map(|i| format!("job={i}\nrun={}:1\n", 169 - i));
    let text = |n| format!("machines=1\nresult=plan\n{}", runs(n).collect::<String>());
    prints(file_of(1, 31), &text(31));
    prints(file_of(1, 32), &text(32));
    for n in [33, 34, 40, 64, 65] {
        refuses(file_of(1, n), [3, 0, 0]);
    }
    refuses(file_of_104("machines=1\n", [0, 0]), [3, 0, 0]);
    // Jobs 1 and 2 again: a 5, were they not too many.
    let two = &file_of(1, 2)["machines=1\n".len()..];
    refuses(followed_by(file_of(1, 31), two), [3, 0, 0]);
}

#[test]
fn an_unfinished_33rd_group_is_a_13() {
    let full = file_of(1, 32);
    let four_lines = "job=33\nwork=1\ndeadline=1\nbound=1\n";
    bad_at(163, followed_by(&full, "job=33\n"));
    bad_at(166, followed_by(&full, four_lines));
    let unended = four_lines.to_owned() + "label=";
    bad_at(166, followed_by(&full, unended));
}

#[test]
fn a_bad_line_after_the_33rd_group_is_a_13() {
    bad_at(167, followed_by(file_of(1, 33), "\n"));
    bad_at(167, followed_by(file_of(1, 33), "job=034\n"));
    for line in 167..=171 {
        bad_at(line, with(file_of(1, 34), line, "x\n"));
    }
    bad_at(522, followed_by(file_of_104("machines=1\n", [0, 0]), "\n"));
}

// Damage that knows nothing of lines.

#[test]
fn a_nul_byte_is_bad_anywhere() {
    for line in 1..=16 {
        bad_at(line, p1_with(line, format!("\0{}\n", p1_line(line))));
        bad_at(line, p1_with(line, format!("{}\0\n", p1_line(line))));
    }
    bad_at(16, followed_by(P1.trim_end(), "\0"));
    bad_at(17, followed_by(P1, "\0"));
    bad_at(1, "\0");
}

#[test]
fn bytes_that_are_no_job_file_are_bad_at_line_1() {
    let files: [&[u8]; 12] = [
        b"\xff",
        b"\xff\xfe\n\0",
        b"=\n",
        b"3\n",
        b"machines",
        b"machines=",
        b"machines=\n",
        b"machines=three\n",
        b"machines = 3\n",
        b"machine=3\n",
        b"\xef\xbb\xbfmachines=3\n",
        b"# a plan\nmachines=3\n",
    ];
    for file in files {
        bad_at(1, file);
    }
}

#[test]
fn a_file_cut_short_is_bad_at_the_line_that_is_cut_or_missing() {
    // It is whole after the machines line, which has 11 bytes, and after each group.
    let ends = [11, 54, 93, 133];
    assert_eq!(P1.len(), 133);
    let blocks = P1_PRINTED.split_inclusive('\n').collect::<Vec<_>>();
    for len in 0..=133 {
        let cut = &P1[..len];
        match ends.iter().position(|&end| end == len) {
            Some(jobs) => prints(cut, &blocks[..2 + 2 * jobs].concat()),
            None => bad_at(1 + cut.matches('\n').count(), cut),
        }
    }
}

#[test]
fn a_changed_newline_joins_two_lines() {
    for line in (1..=16).filter(|line| ![6, 11].contains(line)) {
        bad_at(line, p1_with(line, format!("{} ", p1_line(line))));
    }
    // A label takes in the job line, so that the group after it lacks it.
    bad_at(7, p1_with(6, "label=boot "));
    bad_at(12, p1_with(11, "label= "));
}

#[test]
fn a_changed_digit_is_another_number() {
    refuses(p1_with(1, "machines=0\n"), [1, 0, 0]);
    refuses(p1_with(5, "bound=0\n"), [4, 0, 4]);
    refuses(p1_with(7, "job=1\n"), [5, 1, 0]);
    refuses(p1_with(7, "job=3\n"), [5, 2, 0]);
    refuses(p1_with(3, "work=5\n"), [7, 2, 1]);
    refuses(p1_with(3, "work=9\n"), [7, 0, 3]);
    prints(
        p1_with(1, "machines=9\n"),
        "machines=9\nresult=plan\njob=1\nrun=2:2,3:2\njob=2\nrun=2:3\njob=3\nrun=2:1,3:1\n",
    );
    // A greater number for job 1 gives up its place in the ties.
    prints(
        p1_with(2, "job=9\n"),
        "machines=3\nresult=plan\njob=9\nrun=1:2,3:2\njob=2\nrun=2:3\njob=3\nrun=1:1,3:1\n",
    );
}

// The order of the refusals.

#[test]
fn a_13_comes_before_1_3_4_5_and_7() {
    bad_at(2, "machines=0\n\n");
    bad_at(16, with(p1_with(1, "machines=65\n"), 16, "label\n"));
    bad_at(167, followed_by(file_of(1, 33), "x"));
    bad_at(16, with(p1_with(2, "job=0\n"), 16, "label\n"));
    bad_at(16, with(p1_with(3, "work=60001\n"), 16, "label=a"));
    bad_at(16, with(p1_with(4, "deadline=169\n"), 16, ""));
    bad_at(17, with(p1_with(5, "bound=65\n"), 16, "label=a\n\n"));
    bad_at(15, with(p1_with(7, "job=1\n"), 15, "bound=01\n"));
    bad_at(15, with(p1_with(3, "work=9\n"), 15, "bound=+1\n"));
}

#[test]
fn the_first_of_two_bad_lines_is_named() {
    for line in 1..=15 {
        bad_at(line, with(p1_with(line, "x\n"), line + 1, "x\n"));
        bad_at(line, with(p1_with(line, "x\n"), 16, "label=a"));
    }
}

#[test]
fn a_1_comes_before_3_4_5_and_7() {
    for machines in [0, 65] {
        refuses(file_of(machines, 33), [1, 0, 0]);
        refuses(file(machines, &[0, 0, 0, 0]), [1, 0, 0]);
        refuses(file(machines, &[1, 1, 1, 1, 1, 1, 1, 1]), [1, 0, 0]);
        refuses(file(machines, &[1, 2, 1, 1]), [1, 0, 0]);
    }
    refuses(file_of_104("machines=65\n", [0, 0]), [1, 0, 0]);
}

#[test]
fn a_3_comes_before_any_row() {
    refuses(file(1, &[0; 4 * 33]), [3, 0, 0]);
    refuses(file(1, &[1; 4 * 33]), [3, 0, 0]);
    refuses(file(1, &[0; 4 * 32]), [4, 0, 1]);
    refuses(file(1, &[1; 4 * 32]), [5, 1, 0]);
}

#[test]
fn rows_come_in_file_order_and_are_named_from_0() {
    // The fields of a row in order, then its number.
    refuses(file(1, &[0, 0, 0, 0]), [4, 0, 1]);
    refuses(file(1, &[1, 0, 0, 0]), [4, 0, 2]);
    refuses(file(1, &[1, 1, 0, 0]), [4, 0, 3]);
    refuses(file(1, &[1, 1, 1, 0]), [4, 0, 4]);
    refuses(file(1, &[1, 1, 1, 1, 1, 0, 1, 1]), [4, 1, 2]);
    refuses(file(1, &[1, 1, 1, 1, 1, 1, 1, 65]), [4, 1, 4]);
    // Then the next row, and a 7 after all of them.
    refuses(file(1, &[1, 1, 1, 1, 1, 1, 1, 1, 2, 0, 1, 1]), [5, 1, 0]);
    refuses(file(1, &[1, 1, 1, 1, 2, 0, 1, 1, 1, 1, 1, 1]), [4, 1, 2]);
    refuses(file(1, &[7, 1, 1, 1, 8, 1, 1, 1, 7, 1, 1, 1]), [5, 2, 0]);
    refuses(file(1, &[1, 60_000, 1, 1, 2, 1, 169, 1]), [4, 1, 3]);
    refuses(file(1, &[1, 60_000, 1, 1, 1, 1, 1, 1]), [5, 1, 0]);
    refuses(file(1, &[1, 60_000, 1, 1, 2, 1, 1, 1]), [7, 0, 59_999]);
    // The last of 32 rows.
    let mut rows: Vec<u32> = (1..=32).flat_map(|i| [i, 1, 168, 1]).collect();
    rows[4 * 31] = 1;
    refuses(file(1, &rows), [5, 31, 0]);
    rows[4 * 31 + 3] = 0;
    refuses(file(1, &rows), [4, 31, 4]);
}

// Random files.

/// A file, and how it came about.
struct Case {
    name: String,
    file: Vec<u8>,
}

impl Case {
    fn new(name: String, lines: Lines) -> Case {
        Case {
            name,
            file: lines.concat(),
        }
    }

    fn number(&self) -> u32 {
        printed::answer(&self.file).number
    }

    /// What the program prints against the independent printer.
    fn fault(&self) -> Option<String> {
        let what = difference(&self.file, &printed::text(&self.file))?;
        Some(format!("{}: {what}", self.name))
    }
}

/// Runs the program on all files, two at a time; each of the numbers must come up often.
fn run(cases: &[Case], numbers: &[u32]) {
    let half = cases.len().div_ceil(2);
    let first_fault = |part: &[Case]| part.iter().find_map(Case::fault);
    thread::scope(|scope| {
        let threads: Vec<_> = cases
            .chunks(half)
            .map(|part| scope.spawn(move || first_fault(part)))
            .collect();
        for thread in threads {
            if let Some(what) = thread.join().expect("it ends without a panic") {
                panic!("{what}");
            }
        }
    });
    println!("{} files", cases.len());
    for &number in numbers {
        let seen = cases.iter().filter(|case| case.number() == number).count();
        println!("{number}: {seen}");
        assert!(seen >= cases.len() / 100, "too few answers {number}");
    }
}

#[test]
fn well_formed_files_print_what_the_printer_says() {
    let mut random = Random::new(8);
    let case = |index| Case::new(format!("file {index}"), files::well_formed(&mut random));
    let cases: Vec<Case> = (0..cases(1_000)).map(case).collect();
    run(&cases, &[0, 1, 3, 4, 5, 7]);
}

#[test]
fn damaged_files_print_what_the_printer_says() {
    let mut random = Random::new(9);
    let mut all = Vec::new();
    for (name, damage, can_give) in DAMAGES {
        for index in 0..cases(20) {
            let mut lines = files::in_range(&mut random);
            damage(&mut lines, &mut random);
            let case = Case::new(format!("{name}, {index}"), lines);
            let number = case.number();
            assert!(can_give.contains(&number), "{}: {number}", case.name);
            all.push(case);
        }
    }
    run(&all, &[0, 1, 3, 4, 5, 7, 13, 14]);
}

#[test]
fn files_damaged_more_than_once_print_what_the_printer_says() {
    let mut random = Random::new(10);
    let case = |index| {
        let (name, damage, _) = random.pick(DAMAGES);
        let mut lines = files::in_range(&mut random);
        damage(&mut lines, &mut random);
        for _ in 0..random.within(1, 3) {
            random.pick(&TO_ANY_BYTES)(&mut lines, &mut random);
        }
        Case::new(format!("{name} and more, {index}"), lines)
    };
    let cases: Vec<Case> = (0..cases(500)).map(case).collect();
    run(&cases, &[13, 14]);
}

/// What is printed, with the blocks of the jobs sorted.
fn by_job(file: &[u8]) -> Vec<String> {
    let printed = String::from_utf8(program::run(file)).expect("text");
    let mut blocks: Vec<String> = printed.split("job=").map(str::to_owned).collect();
    blocks.sort_unstable();
    blocks
}

#[test]
fn the_order_of_the_jobs_and_their_labels_play_no_part_in_the_runs() {
    let mut random = Random::new(11);
    for _ in 0..cases(100) {
        let (machines, mut jobs) = lists::tight(&mut random);
        let file = files::written(machines, &jobs, &mut random).concat();
        random.shuffle(&mut jobs);
        let other = files::written(machines, &jobs, &mut random).concat();
        let shown = other.escape_ascii();
        assert_eq!(by_job(&file), by_job(&other), "for \"{shown}\"");
    }
}
