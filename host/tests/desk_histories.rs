//! Random histories of calls on a desk. The library must answer like the independent desk, answer
//! by answer and byte by byte; and a ledger that sees only calls and answers must find demand 3
//! kept.

use host::call::{self, Call, Reply, Told};
use host::desk::{Desk, SEATS};
use host::fence::Fenced;
use host::ffi::{self, Answer};
use host::histories::{ledger_of, play, History, Manner, CROWDED, ORDINARY, WIDE};
use host::model::{Job, Row, SLOTS};
use host::random::{cases, Random};
use host::record::{self, RECORD_BYTES};
use host::{records, rule};
use std::collections::BTreeMap;

/// How often each call got each number; 0 is a yes.
#[derive(Default)]
struct Tally {
    answers: BTreeMap<(&'static str, u32), usize>,
    /// Jobs admitted with the number of one that was done before its due slot.
    came_back: usize,
}

fn name(call: &Call) -> &'static str {
    match call {
        Call::Admit(_) => "admit",
        Call::Withdraw(_) => "withdraw",
        Call::Look { .. } => "look",
        Call::Run { .. } => "run",
    }
}

impl Tally {
    fn count(&mut self, start: &Desk, history: &History) {
        let mut ledger = ledger_of(start);
        for (call, reply) in history {
            let number = reply.map_or_else(|refusal| refusal.number, |_| 0);
            *self.answers.entry((name(call), number)).or_default() += 1;
            if let (Call::Admit(job), Ok(_)) = (call, reply) {
                self.came_back += usize::from(ledger.entry(job.number).is_some());
            }
            ledger.note(call, reply);
        }
    }

    /// Each of these must have come up this often.
    fn expect(&self, least: usize, answers: &[(&'static str, u32)]) {
        for answer in answers {
            let count = self.answers.get(answer).copied().unwrap_or(0);
            println!("{answer:?} came up {count} times");
            assert!(count >= least, "{answer:?} came up {count} times");
        }
    }
}

/// A history on the library from the record of this desk on, and the record after each call.
fn on_library(
    start: &Desk,
    manner: Manner,
    random: &mut Random,
) -> Result<(History, Vec<Vec<u8>>), String> {
    let mut records = vec![record::encode(start)];
    let history = play(start, manner, random, |call, random| {
        let before = &records[records.len() - 1];
        let (reply, after) = call::on_library(before, call, random)?;
        records.push(after);
        Ok(reply)
    })?;
    Ok((history, records))
}

/// The first call that goes otherwise than on the independent desk.
fn compare(start: &Desk, history: &History, records: &[Vec<u8>]) -> Result<(), String> {
    let mut desk = start.clone();
    for (index, (call, reply)) in history.iter().enumerate() {
        let before = desk.clone();
        let expected = call::on_desk(&mut desk, *call);
        if *reply != expected {
            return Err(format!(
                "call {index}, {call:?} on {before:?}:\n{reply:?} in place of\n{expected:?}"
            ));
        }
        if records[index + 1] != record::encode(&desk) {
            return Err(format!("call {index}, {call:?} on {before:?}: the record"));
        }
    }
    Ok(())
}

/// The first answer that breaks demand 3. After the start, neither desk nor record is seen.
fn demand_three(start: &Desk, history: &History) -> Result<(), String> {
    let mut ledger = ledger_of(start);
    for (index, (call, reply)) in history.iter().enumerate() {
        if let Some(fault) = ledger.fault(call, reply) {
            return Err(format!("demand 3, call {index}, {call:?}: {fault}"));
        }
        ledger.note(call, reply);
    }
    Ok(())
}

/// Plays this many histories on the library and judges each in both ways.
fn examine(seed: u64, count: usize, manner: Manner, start: impl Fn(&mut Random) -> Desk) -> Tally {
    let mut random = Random::new(seed);
    let mut tally = Tally::default();
    for index in 0..count {
        let start = start(&mut random);
        let (history, records) = on_library(&start, manner, &mut random)
            .unwrap_or_else(|what| panic!("history {index}: {what}"));
        let judged = [
            compare(&start, &history, &records),
            demand_three(&start, &history),
        ];
        let faults: Vec<String> = judged.into_iter().filter_map(Result::err).collect();
        assert!(
            faults.is_empty(),
            "history {index} from {start:?}\n{}",
            faults.join("\n")
        );
        tally.count(&start, &history);
    }
    tally
}

/// Opens a desk at the library; its record must be that of the independent desk.
fn open(least: u32, greatest: u32, random: &mut Random) -> Desk {
    let machines = random.within(least, greatest);
    let desk = Desk::open(machines).expect("the count is in range");
    let mut record = Fenced::of_length(RECORD_BYTES, random);
    assert_eq!(ffi::open(machines, record.lend()), Answer::YES);
    assert!(
        record.lend() == record::encode(&desk),
        "a new desk of {machines}"
    );
    desk
}

#[test]
fn histories_in_small_rooms_answer_like_the_independent_desk_and_keep_demand_three() {
    let count = cases(1_500);
    let tally = examine(12, count, ORDINARY, |random| open(1, 5, random));
    let often = [("admit", 0), ("admit", 7), ("run", 0), ("withdraw", 0)];
    tally.expect(5 * count, &often);
    let seldom = [("admit", 4), ("admit", 5), ("withdraw", 10), ("run", 6)];
    tally.expect(count, &seldom);
    tally.expect(count, &[("look", 0), ("look", 6), ("look", 10)]);
    println!("{} numbers came back", tally.came_back);
    assert!(tally.came_back >= count / 8);
}

#[test]
fn histories_of_crowded_desks_answer_like_the_independent_desk_and_keep_demand_three() {
    let count = cases(250);
    let tally = examine(13, count, CROWDED, |random| open(2, 16, random));
    let all = [("admit", 0), ("admit", 5), ("admit", 7), ("admit", 8)];
    tally.expect(count, &all);
    tally.expect(count, &[("run", 0), ("withdraw", 0), ("look", 0)]);
}

#[test]
fn histories_near_the_last_clock_answer_like_the_independent_desk_and_keep_demand_three() {
    let count = cases(400);
    let tally = examine(14, count, ORDINARY, records::near_the_end);
    let all = [("admit", 0), ("admit", 4), ("admit", 7), ("withdraw", 0)];
    tally.expect(count, &all);
    tally.expect(count, &[("run", 0), ("run", 6), ("run", 11)]);
}

#[test]
fn histories_of_wide_jobs_answer_like_the_independent_desk_and_keep_demand_three() {
    let count = cases(10);
    let tally = examine(15, count, WIDE, |random| open(1, 64, random));
    let all = [("admit", 0), ("admit", 7), ("run", 0), ("withdraw", 0)];
    tally.expect(count, &all);
}

/// A desk that is wrong in one call, on the data of the independent one.
type WrongDesk = fn(&mut Desk, Call) -> Reply;

/// 01's wrong programs and wrong roads, as far as demand 3 forbids them.
const WRONG_DESKS: [(&str, WrongDesk); 6] = [
    ("says 7 to every job", says_7),
    ("says yes to every job", says_yes),
    ("gives out nothing", gives_nothing),
    ("works in slot 1 and pretends later", pretends),
    ("runs the earliest deadline first", earliest_deadline),
    ("runs the greatest remaining work first", greatest_work),
];

fn says_7(desk: &mut Desk, call: Call) -> Reply {
    match call {
        Call::Admit(_) => Err(Answer::refusal(7, desk.clock, 1)),
        call => call::on_desk(desk, call),
    }
}

fn says_yes(desk: &mut Desk, call: Call) -> Reply {
    match (call, call::on_desk(desk, call)) {
        (Call::Admit(_), Err(refusal)) if refusal.number == 7 => Ok(Told::Yes),
        (_, reply) => reply,
    }
}

fn gives_nothing(desk: &mut Desk, call: Call) -> Reply {
    run_by(|_, jobs| vec![[0; SLOTS]; jobs.len()], desk, call)
}

fn pretends(desk: &mut Desk, call: Call) -> Reply {
    let clock = desk.clock;
    match call::on_desk(desk, call) {
        Ok(Told::Given(given)) if clock > 0 => {
            Ok(Told::Given(given.map(|(number, _)| (number, 0))))
        }
        reply => reply,
    }
}

fn earliest_deadline(desk: &mut Desk, call: Call) -> Reply {
    run_by(rule::earliest_deadline, desk, call)
}

fn greatest_work(desk: &mut Desk, call: Call) -> Reply {
    run_by(rule::greatest_work, desk, call)
}

/// Runs slots by another rule. A job that was due leaves, done or not.
fn run_by(rule: fn(u32, &[Job]) -> Vec<Row>, desk: &mut Desk, call: Call) -> Reply {
    if !matches!(call, Call::Run { .. }) {
        return call::on_desk(desk, call);
    }
    let plan = rule(desk.machines, &desk.jobs());
    let mut given = [(0, 0); SEATS];
    for ((held, row), pair) in desk.held.iter_mut().zip(plan).zip(&mut given) {
        *pair = (held.number, u32::from(row[0]));
        held.left -= pair.1;
    }
    desk.clock += 1;
    let clock = desk.clock;
    desk.held
        .retain(|held| held.left > 0 && held.deadline > clock);
    Ok(Told::Given(given))
}

/// How many histories of a desk the ledger faults.
fn faulted(desk: WrongDesk, count: usize) -> usize {
    let mut random = Random::new(16);
    let mut is_faulted = || {
        let start = Desk::open(random.within(1, 5)).expect("the count is in range");
        let mut now = start.clone();
        let ask = |call, _: &mut Random| Ok(desk(&mut now, call));
        let history = play(&start, ORDINARY, &mut random, ask).expect("no library is asked");
        demand_three(&start, &history).is_err()
    };
    (0..count).filter(|_| is_faulted()).count()
}

#[test]
fn the_ledger_faults_wrong_desks_and_not_the_independent_one() {
    let count = cases(200);
    assert_eq!(faulted(call::on_desk, count), 0);
    for (name, desk) in WRONG_DESKS {
        let faulted = faulted(desk, count);
        println!("a desk that {name}: {faulted} of {count} histories");
        assert!(faulted > 0, "a desk that {name}");
    }
}
