//! The desk by hand: 01's D1 call by call, the limits of D2, the order of the refusals, and the
//! buffers. Each reply is written out here, and both the library and the independent desk must give
//! it.

use host::call::{self, Call, Reply, Told, FIGURES_BYTES, GIVEN_BYTES};
use host::desk::Desk;
use host::fence::Fenced;
use host::ffi::{self, Answer};
use host::model::{bytes, Job};
use host::random::Random;
use host::record::{self, RECORD_BYTES};

/// A record of the library beside the independent desk.
struct Both {
    record: Vec<u8>,
    desk: Desk,
    random: Random,
}

impl Both {
    #[track_caller]
    fn open(machines: u32) -> Both {
        let mut record = [0xa5; RECORD_BYTES];
        assert_eq!(ffi::open(machines, &mut record), Answer::YES);
        Both {
            record: record.to_vec(),
            desk: Desk::open(machines).expect("the count is in range"),
            random: Random::new(8),
        }
    }

    /// A desk whose record is written for it.
    fn at(machines: u32, clock: u32, seats: &[[u32; 6]]) -> Both {
        let record = numbers(machines, clock, seats);
        Both {
            desk: record::decode(&record).expect("the record is sound"),
            record,
            random: Random::new(9),
        }
    }

    #[track_caller]
    fn replies(&mut self, call: Call, reply: Reply) {
        let said = call::on_library(&self.record, call, &mut self.random);
        let (said, record) = said.unwrap_or_else(|what| panic!("{call:?}: {what}"));
        assert_eq!(said, reply, "the library, {call:?}");
        self.record = record;
        let said = call::on_desk(&mut self.desk, call);
        assert_eq!(said, reply, "the independent desk, {call:?}");
        let same = self.record == record::encode(&self.desk);
        assert!(same, "the records after {call:?} differ");
    }

    #[track_caller]
    fn refuses(&mut self, call: Call, [number, place, amount]: [u32; 3]) {
        self.replies(call, Err(Answer::refusal(number, place, amount)));
    }

    #[track_caller]
    fn admits(&mut self, job: [u32; 4]) {
        self.replies(admit(job), Ok(Told::Yes));
    }

    #[track_caller]
    fn withdraws(&mut self, number: u32, left: u32) {
        self.replies(Call::Withdraw(number), Ok(Told::Left(left)));
    }

    /// Remaining work, deadline, bound and leeway.
    #[track_caller]
    fn shows(&mut self, number: u32, figures: [u32; 4]) {
        self.replies(Call::look(number), Ok(Told::Figures(figures)));
    }

    /// The pairs of the held jobs; all after them are zero.
    #[track_caller]
    fn gives(&mut self, pairs: &[(u32, u32)]) {
        let mut given = [(0, 0); 32];
        given[..pairs.len()].copy_from_slice(pairs);
        self.replies(Call::RUN, Ok(Told::Given(given)));
    }

    /// The whole record, of which the seats after these are zero.
    #[track_caller]
    fn is(&self, machines: u32, clock: u32, seats: &[[u32; 6]]) {
        let record = numbers(machines, clock, seats);
        assert!(self.record == record, "the library's record");
        let encoded = record::encode(&self.desk);
        assert!(encoded == record, "the independent desk's record");
    }
}

fn admit([number, work, deadline, bound]: [u32; 4]) -> Call {
    Call::Admit(Job {
        number,
        work,
        deadline,
        bound,
    })
}

/// The bytes of a record, by hand. A seat is number, admitted and remaining work, deadline, bound,
/// slots at admission.
fn numbers(machines: u32, clock: u32, seats: &[[u32; 6]]) -> Vec<u8> {
    let mut numbers = vec![machines, clock];
    numbers.extend(seats.iter().flatten());
    numbers.resize(194, 0);
    bytes(&numbers)
}

// What 01 says.

#[test]
fn d1_goes_call_by_call_as_01_says() {
    let mut desk = Both::open(2);
    desk.is(2, 0, &[]);
    desk.admits([1, 4, 2, 2]);
    desk.is(2, 0, &[[1, 4, 4, 2, 2, 2]]);
    desk.refuses(admit([2, 2, 3, 1]), [7, 2, 1]);
    desk.is(2, 0, &[[1, 4, 4, 2, 2, 2]]);
    desk.admits([2, 1, 3, 1]);
    desk.is(2, 0, &[[1, 4, 4, 2, 2, 2], [2, 1, 1, 3, 1, 3]]);
    desk.shows(1, [4, 2, 2, 100]);
    desk.shows(2, [1, 3, 1, 300]);

    desk.gives(&[(1, 2), (2, 0)]);
    desk.is(2, 1, &[[1, 4, 2, 2, 2, 2], [2, 1, 1, 3, 1, 3]]);
    // The leeway is of the admitted work and the slots at admission: it stays.
    desk.shows(1, [2, 2, 2, 100]);
    desk.shows(2, [1, 3, 1, 300]);
    desk.gives(&[(1, 2), (2, 0)]);
    desk.is(2, 2, &[[2, 1, 1, 3, 1, 3]]);
    desk.gives(&[(2, 1)]);
    desk.is(2, 3, &[]);
}

#[test]
fn an_empty_desk_only_moves_its_clock() {
    let mut desk = Both::open(64);
    desk.gives(&[]);
    desk.is(64, 1, &[]);
    desk.gives(&[]);
    desk.is(64, 2, &[]);
}

#[test]
fn jobs_are_kept_by_rising_number_and_gaps_are_closed() {
    let mut desk = Both::open(4);
    desk.admits([300, 1, 9, 1]);
    desk.admits([7, 2, 9, 1]);
    desk.admits([65_535, 3, 9, 1]);
    desk.admits([256, 4, 9, 1]);
    let seat = |number, work| [number, work, work, 9, 1, 9];
    let [a, b, c, d] = [seat(7, 2), seat(256, 4), seat(300, 1), seat(65_535, 3)];
    desk.is(4, 0, &[a, b, c, d]);
    desk.withdraws(256, 4);
    desk.is(4, 0, &[a, c, d]);
    desk.withdraws(65_535, 3);
    desk.is(4, 0, &[a, c]);
    desk.withdraws(7, 2);
    desk.is(4, 0, &[c]);
    desk.withdraws(300, 1);
    desk.is(4, 0, &[]);
}

#[test]
fn a_withdrawal_answers_what_remains_and_makes_room() {
    let mut desk = Both::open(1);
    desk.admits([1, 2, 2, 1]);
    desk.gives(&[(1, 1)]);
    desk.refuses(admit([2, 1, 2, 1]), [7, 2, 1]);
    desk.withdraws(1, 1);
    desk.admits([2, 1, 2, 1]);
    desk.is(1, 1, &[[2, 1, 1, 2, 1, 1]]);
}

#[test]
fn a_number_may_come_back_before_its_first_due_slot() {
    let mut desk = Both::open(1);
    desk.admits([1, 1, 2, 1]);
    desk.admits([2, 1, 2, 1]);
    desk.refuses(admit([2, 1, 3, 1]), [5, 0, 0]);
    desk.gives(&[(1, 0), (2, 1)]);
    desk.is(1, 1, &[[1, 1, 1, 2, 1, 2]]);
    // Job 2 is done, though it was due in slot 2. Its number is free for another job.
    desk.refuses(Call::look(2), [10, 0, 0]);
    desk.admits([2, 1, 3, 1]);
    desk.shows(2, [1, 3, 1, 200]);
    desk.gives(&[(1, 1), (2, 0)]);
    desk.gives(&[(2, 1)]);
    desk.is(1, 3, &[]);
}

#[test]
fn a_slot_is_planned_anew_and_not_taken_from_the_plan_before() {
    let mut desk = Both::open(1);
    desk.admits([1, 1, 3, 3]);
    desk.admits([2, 2, 3, 1]);
    desk.gives(&[(1, 0), (2, 1)]);
    // The old plan went on with job 1. Of two equal run lengths the smaller number is the later.
    desk.gives(&[(1, 0), (2, 1)]);
    desk.gives(&[(1, 1)]);
}

#[test]
fn the_place_of_a_7_is_on_the_clock() {
    let mut desk = Both::at(2, 500, &[[1, 9, 4, 502, 2, 168]]);
    desk.refuses(admit([2, 2, 503, 1]), [7, 502, 1]);
    // Boundary 0: more than the job could do alone.
    desk.refuses(admit([2, 4, 503, 1]), [7, 500, 1]);
    desk.refuses(admit([2, 60_000, 668, 64]), [7, 500, 60_000 - 64 * 168]);
    desk.admits([2, 1, 503, 1]);
}

#[test]
fn a_7_names_the_least_short_boundary_and_no_other_slot() {
    // P5: short in slot 2 too, but no job is due then.
    let mut desk = Both::open(2);
    desk.refuses(admit([1, 10, 3, 5]), [7, 3, 4]);
    // P4: short by 2 at boundary 2 and by 1 at 3.
    desk.admits([1, 4, 2, 2]);
    desk.refuses(admit([2, 3, 3, 1]), [7, 2, 2]);
    // P10: short by 1 at boundary 0 and by 3 at 2.
    let mut desk = Both::open(2);
    desk.admits([2, 4, 2, 2]);
    desk.refuses(admit([1, 3, 2, 1]), [7, 0, 1]);
}

#[test]
fn leeway_is_rounded_down() {
    let mut desk = Both::open(64);
    desk.admits([1, 6, 2, 3]);
    desk.shows(1, [6, 2, 3, 100]);
    // Run length 3 in 5 slots, 7 in 168, 168 in 168.
    desk.admits([2, 5, 5, 2]);
    desk.shows(2, [5, 5, 2, 166]);
    desk.admits([3, 7, 168, 1]);
    desk.shows(3, [7, 168, 1, 2_400]);
    desk.admits([4, 168, 168, 1]);
    desk.shows(4, [168, 168, 1, 100]);
}

// The limits.

#[test]
fn the_33rd_job_is_an_8() {
    let mut desk = Both::open(64);
    for number in 1..=32 {
        desk.admits([number, 1, 168, 1]);
    }
    desk.refuses(admit([33, 1, 168, 1]), [8, 0, 0]);
    desk.withdraws(32, 1);
    desk.admits([33, 1, 168, 1]);
    desk.refuses(admit([32, 1, 168, 1]), [8, 0, 0]);
}

#[test]
fn a_full_room_of_32_jobs_runs_every_machine() {
    let mut desk = Both::open(64);
    for number in 1..=32 {
        desk.admits([number, 336, 168, 2]);
    }
    let pairs: Vec<_> = (1..=32).map(|number| (number, 2)).collect();
    desk.gives(&pairs);
    let seats: Vec<_> = (1..=32)
        .map(|number| [number, 336, 334, 168, 2, 168])
        .collect();
    desk.is(64, 1, &seats);
}

#[test]
fn clock_99_999_runs_and_clock_100_000_is_an_11() {
    let mut desk = Both::at(1, 99_998, &[[1, 2, 2, 100_000, 1, 2]]);
    desk.gives(&[(1, 1)]);
    desk.is(1, 99_999, &[[1, 2, 1, 100_000, 1, 2]]);
    desk.gives(&[(1, 1)]);
    desk.is(1, 100_000, &[]);
    desk.refuses(Call::RUN, [11, 0, 0]);
    desk.is(1, 100_000, &[]);
    // No deadline is left to admit a job with.
    for deadline in [0, 1, 99_999, 100_000, 100_001, 100_168] {
        desk.refuses(admit([1, 1, deadline, 1]), [4, 0, 3]);
    }
    desk.refuses(Call::Withdraw(1), [10, 0, 0]);
    desk.refuses(Call::look(1), [10, 0, 0]);
}

#[test]
fn a_deadline_168_slots_ahead_is_taken_and_169_is_a_4() {
    for clock in [0, 1, 500, 99_831, 99_832] {
        let mut desk = Both::at(1, clock, &[]);
        for deadline in [0, clock, clock + 169, clock + 170, u32::MAX] {
            desk.refuses(admit([1, 1, deadline, 1]), [4, 0, 3]);
        }
        desk.admits([1, 1, clock + 168, 1]);
        desk.admits([2, 1, clock + 1, 1]);
        desk.is(
            1,
            clock,
            &[[1, 1, 1, clock + 168, 1, 168], [2, 1, 1, clock + 1, 1, 1]],
        );
    }
}

#[test]
fn no_deadline_is_above_100_000() {
    for clock in [99_832, 99_833, 99_900, 99_999] {
        let mut desk = Both::at(1, clock, &[]);
        desk.refuses(admit([1, 1, 100_001, 1]), [4, 0, 3]);
        desk.refuses(admit([1, 1, clock + 168 + 1, 1]), [4, 0, 3]);
        desk.admits([1, 1, 100_000, 1]);
        desk.is(1, clock, &[[1, 1, 1, 100_000, 1, 100_000 - clock]]);
    }
}

#[test]
fn the_other_fields_of_a_job_have_their_limits_too() {
    let mut desk = Both::open(64);
    for number in [0, 65_536, 0x0001_0001, u32::MAX] {
        desk.refuses(admit([number, 1, 1, 1]), [4, 0, 1]);
    }
    for work in [0, 60_001, 0x0001_0001, u32::MAX] {
        desk.refuses(admit([1, work, 1, 1]), [4, 0, 2]);
    }
    for bound in [0, 65, 257, u32::MAX] {
        desk.refuses(admit([1, 1, 1, bound]), [4, 0, 4]);
    }
    desk.refuses(admit([1, 60_000, 168, 64]), [7, 0, 60_000 - 64 * 168]);
    desk.admits([65_535, 64 * 168, 168, 64]);
    desk.is(64, 0, &[[65_535, 64 * 168, 64 * 168, 168, 64, 168]]);
    desk.shows(65_535, [64 * 168, 168, 64, 100]);
}

#[test]
fn a_number_that_no_job_can_have_is_a_10() {
    let mut desk = Both::open(2);
    desk.admits([1, 1, 9, 1]);
    // Number 0 is no job's, though free seats have it.
    for number in [0, 2, 65_535, 65_536, 0x0001_0001, u32::MAX] {
        desk.refuses(Call::Withdraw(number), [10, 0, 0]);
        desk.refuses(Call::look(number), [10, 0, 0]);
    }
    desk.is(2, 0, &[[1, 1, 1, 9, 1, 9]]);
}

// The order of the refusals, and the buffers.

#[test]
fn an_admission_is_refused_by_4_then_5_then_8_then_7() {
    let mut desk = Both::open(1);
    desk.admits([1, 168, 168, 1]);
    // The fields in order, all of them before a number that is held.
    desk.refuses(admit([0, 0, 0, 0]), [4, 0, 1]);
    desk.refuses(admit([1, 0, 0, 0]), [4, 0, 2]);
    desk.refuses(admit([1, 1, 0, 0]), [4, 0, 3]);
    desk.refuses(admit([1, 1, 1, 0]), [4, 0, 4]);
    desk.refuses(admit([1, 60_000, 1, 1]), [5, 0, 0]);
    desk.refuses(admit([2, 60_000, 1, 1]), [7, 0, 59_999]);

    let mut full = Both::open(32);
    for number in 1..=32 {
        full.admits([number, 168, 168, 1]);
    }
    full.refuses(admit([1, 1, 169, 1]), [4, 0, 3]);
    full.refuses(admit([33, 1, 1, 65]), [4, 0, 4]);
    full.refuses(admit([32, 60_000, 1, 1]), [5, 0, 0]);
    full.refuses(admit([33, 60_000, 1, 1]), [8, 0, 0]);
}

#[test]
fn figures_need_16_bytes_and_given_256() {
    let mut desk = Both::at(2, 7, &[[3, 4, 4, 9, 2, 2]]);
    for figures_len in 0..=3 * FIGURES_BYTES {
        let call = Call::Look {
            number: 3,
            figures_len,
        };
        if figures_len < 16 {
            desk.refuses(call, [6, 0, 0]);
        } else {
            desk.replies(call, Ok(Told::Figures([4, 9, 2, 100])));
        }
    }
    for given_len in 0..GIVEN_BYTES {
        desk.refuses(Call::Run { given_len }, [6, 0, 0]);
    }
    desk.is(2, 7, &[[3, 4, 4, 9, 2, 2]]);
    let mut given = [(0, 0); 32];
    given[0] = (3, 2);
    desk.replies(Call::Run { given_len: 256 }, Ok(Told::Given(given)));
    desk.is(2, 8, &[[3, 4, 2, 9, 2, 2]]);
    desk.replies(Call::Run { given_len: 257 }, Ok(Told::Given(given)));
    desk.is(2, 9, &[]);
    for given_len in [258, 300, 512, 1_000] {
        desk.replies(Call::Run { given_len }, Ok(Told::Given([(0, 0); 32])));
    }
}

#[test]
fn a_short_buffer_is_a_6_after_12_and_before_10_and_11() {
    let short_look = Call::Look {
        number: 1,
        figures_len: 15,
    };
    let short_run = Call::Run { given_len: 255 };
    let mut desk = Both::at(1, 100_000, &[]);
    desk.refuses(short_look, [6, 0, 0]);
    desk.refuses(short_run, [6, 0, 0]);

    let unsound = numbers(0, 100_000, &[]);
    let mut random = Random::new(10);
    for call in [short_look, short_run] {
        let (reply, _) = call::on_library(&unsound, call, &mut random).expect("nothing touched");
        assert_eq!(reply, Err(Answer::refusal(12, 0, 0)));
    }
}

#[test]
fn open_takes_1_to_64_machines_and_one_record() {
    let mut random = Random::new(11);
    for machines in [0, 1, 2, 63, 64, 65, 256, 257, 0x0001_0001, u32::MAX] {
        for len in [0, 1, 4, 772, 775, 776, 777, 780, 1_552] {
            let mut record = Fenced::of_length(len, &mut random);
            let said = ffi::open(machines, record.lend());
            let number = match (Desk::open(machines), len) {
                (Err(refusal), _) => refusal.number,
                (Ok(_), RECORD_BYTES) => 0,
                (Ok(_), _) => 6,
            };
            let shown = format!("{machines} machines in {len} bytes");
            assert_eq!(said, Answer::refusal(number, 0, 0), "{shown}");
            let may = if number == 0 { RECORD_BYTES } else { 0 };
            assert_eq!(record.untouched("record", may), Ok(()), "{shown}");
            if number == 0 {
                assert!(record.lend() == numbers(machines, 0, &[]), "{shown}");
            }
        }
    }
    assert_eq!(Desk::open(0), Err(Answer::refusal(1, 0, 0)));
    assert_eq!(Desk::open(65), Err(Answer::refusal(1, 0, 0)));
    assert!(Desk::open(1).is_ok() && Desk::open(64).is_ok());
}
