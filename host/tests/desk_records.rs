//! Records of every kind: a sound one is served as on the independent desk, and anything else is a
//! 12 from every call and stays as it is.

use host::call::{self, Call, FIGURES_BYTES, GIVEN_BYTES};
use host::desk::{FURTHEST, LAST_CLOCK};
use host::ffi::Answer;
use host::model::{bytes, numbers_of_bytes, Job};
use host::random::{cases, Random};
use host::record::{self, Record, RECORD_BYTES};
use host::records::{self, Unsoundness, UNSOUND};

const NOT_SOUND: Answer = Answer::refusal(12, 0, 0);

/// One call of each kind, with arguments that a desk like this one may well be asked with. Any
/// bytes may stand behind the record, so its numbers may be anything.
fn one_of_each(record: &Record, random: &mut Random) -> [Call; 4] {
    let slots = random.within(1, FURTHEST);
    let mut number = || match random.below(3) {
        0 => random.within(0, 65_535),
        _ => random.pick(&record.seats[..record.used().max(1)]).number,
    };
    let [to_admit, to_withdraw, to_look_at] = [number(), number(), number()];
    let job = Job {
        number: to_admit,
        work: random.within(1, 12),
        deadline: record.clock.wrapping_add(random.pick(&[1, 2, 4, 8, slots])),
        bound: random.within(1, 6),
    };
    [
        Call::Admit(job),
        Call::Withdraw(to_withdraw),
        Call::Look {
            number: to_look_at,
            figures_len: FIGURES_BYTES + random.below(3) - 1,
        },
        Call::Run {
            given_len: GIVEN_BYTES + random.below(3) - 1,
        },
    ]
}

/// Makes the calls, each on the record as it is, and compares all with the independent desk. The
/// numbers of the replies are counted.
fn compare(
    record: &[u8],
    calls: [Call; 4],
    random: &mut Random,
    seen: &mut [usize; 13],
) -> Result<(), String> {
    for call in calls {
        let (said, after) =
            call::on_library(record, call, random).map_err(|what| format!("{call:?}: {what}"))?;
        let (expected, expected_after) = call::on_record(record, call);
        if said != expected {
            return Err(format!("{call:?}: {said:?} in place of {expected:?}"));
        }
        if after != expected_after {
            return Err(format!("{call:?}: the record afterwards"));
        }
        seen[said.map_or_else(|refusal| refusal.number, |_| 0) as usize] += 1;
    }
    Ok(())
}

/// Draws records and compares; each of these numbers must come up once in 20 records at least.
fn examine(seed: u64, count: usize, draw: impl Fn(&mut Random) -> Record, numbers: &[usize]) {
    let mut random = Random::new(seed);
    let mut seen = [0; 13];
    for index in 0..count {
        let record = draw(&mut random);
        let calls = one_of_each(&record, &mut random);
        if let Err(what) = compare(&record.bytes(), calls, &mut random, &mut seen) {
            panic!("record {index}, {what}\n{}", show(&record));
        }
    }
    for &number in numbers {
        println!("{number}: {}", seen[number]);
        assert!(seen[number] >= count / 20, "too few answers {number}");
    }
}

/// Without the unused seats at the end.
fn show(record: &Record) -> String {
    let last = record
        .seats
        .iter()
        .rposition(|seat| *seat != Default::default());
    let seats = &record.seats[..last.map_or(0, |last| last + 1)];
    format!(
        "machines {}, clock {}, {seats:#?}",
        record.machines, record.clock
    )
}

#[test]
fn sound_records_are_served_as_on_the_independent_desk() {
    let draw = |random: &mut _| Record::of(&records::sound(random));
    examine(17, cases(4_000), draw, &[0, 5, 6, 7, 10]);
}

/// A sound record with one of its numbers moved, mostly by 1 or to a limit. Many are sound still.
fn moved(random: &mut Random) -> Record {
    let desk = records::sound(random);
    let mut numbers = numbers_of_bytes(&record::encode(&desk));
    let at = match random.below(8) {
        0 => random.below(numbers.len()),
        _ => random.below(2 + 6 * desk.held.len()),
    };
    let limits = [0, 1, 64, 65, 168, 169, 60_000, 65_535, 65_536, LAST_CLOCK];
    numbers[at] = match random.below(5) {
        0 => random.pick(&limits),
        1 => numbers[at].wrapping_add(random.within(2, 9)),
        2 | 3 => numbers[at].wrapping_add(1),
        _ => numbers[at].wrapping_sub(1),
    };
    Record::read(&bytes(&numbers)).expect("the length is right")
}

#[test]
fn a_record_with_one_number_moved_is_judged_as_by_the_independent_desk() {
    examine(18, cases(6_000), moved, &[0, 6, 7, 10, 12]);
}

/// A record with just this wrong, and so not a desk.
fn damaged(unsoundness: &Unsoundness, random: &mut Random) -> Record {
    let record = records::unsound(unsoundness, random);
    let (name, sound) = (unsoundness.0, record.desk().is_some());
    assert!(!sound, "{name}: a sound record\n{}", show(&record));
    record
}

#[test]
fn a_record_with_one_thing_wrong_is_a_12_from_every_call_and_stays() {
    let mut random = Random::new(19);
    for unsoundness in UNSOUND {
        for _ in 0..cases(200) {
            let record = damaged(unsoundness, &mut random);
            let calls = one_of_each(&record, &mut random);
            is_a_12(&record.bytes(), calls, &mut random)
                .unwrap_or_else(|what| panic!("{}: {what}\n{}", unsoundness.0, show(&record)));
        }
    }
}

/// Every call says 12 and leaves the bytes.
fn is_a_12(record: &[u8], calls: [Call; 4], random: &mut Random) -> Result<(), String> {
    for call in calls {
        let (said, _) = call::on_library(record, call, random)?;
        if said != Err(NOT_SOUND) {
            return Err(format!("{call:?}: {said:?}"));
        }
    }
    Ok(())
}

#[test]
fn random_bytes_are_a_12_from_every_call_and_stay() {
    let mut random = Random::new(20);
    for index in 0..cases(1_000) {
        let bytes = records::any_bytes(RECORD_BYTES, &mut random);
        let record = Record::read(&bytes).expect("the length is right");
        let calls = one_of_each(&record, &mut random);
        is_a_12(&bytes, calls, &mut random)
            .unwrap_or_else(|what| panic!("bytes {index}: {what}\n{}", show(&record)));
    }
}

#[test]
fn a_record_of_another_length_is_a_12_from_every_call_and_stays() {
    let mut random = Random::new(21);
    let longer = [1_552, 776 + 1_024, 65_536 + 776];
    for len in (0..2 * RECORD_BYTES).chain(longer) {
        if len == RECORD_BYTES {
            continue;
        }
        // Cut short, or with zeros after it.
        let record = Record::of(&records::to_damage(&mut random));
        let calls = one_of_each(&record, &mut random);
        let mut bytes = record.bytes();
        bytes.resize(len, 0);
        is_a_12(&bytes, calls, &mut random).unwrap_or_else(|what| panic!("{len} bytes: {what}"));
    }
}
