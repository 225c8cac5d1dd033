//! Calls on a desk as data, made on the library and on the independent desk.

use crate::desk::{Desk, Figures, Given, SEATS};
use crate::fence::Fenced;
use crate::ffi::{self, Answer};
use crate::model::{numbers_of_bytes, Job};
use crate::random::Random;
use crate::record;
use std::array;

pub const FIGURES_BYTES: usize = 16;
pub const GIVEN_BYTES: usize = 8 * SEATS;

/// A call's name and arguments; of a buffer, the length that is lent.
#[derive(Clone, Copy, Debug, PartialEq)]
pub enum Call {
    Admit(Job),
    Withdraw(u32),
    Look { number: u32, figures_len: usize },
    Run { given_len: usize },
}

impl Call {
    /// A Look with just the buffer that it needs.
    pub const fn look(number: u32) -> Call {
        Call::Look {
            number,
            figures_len: FIGURES_BYTES,
        }
    }

    /// A Run with just the buffer that it needs.
    pub const RUN: Call = Call::Run {
        given_len: GIVEN_BYTES,
    };
}

/// What a call tells besides its yes.
#[derive(Clone, Copy, Debug, PartialEq)]
pub enum Told {
    /// Nothing.
    Yes,
    /// The remaining work of a job that was withdrawn.
    Left(u32),
    Figures(Figures),
    Given(Given),
}

pub type Reply = Result<Told, Answer>;

/// Makes a call on the library, with a fence around every buffer. Answers what it said and what the
/// record is afterwards, or which byte it changed and had no business to.
pub fn on_library(
    record: &[u8],
    call: Call,
    random: &mut Random,
) -> Result<(Reply, Vec<u8>), String> {
    let mut desk = Fenced::new(record, random);
    let reply = match call {
        Call::Admit(job) => yes(ffi::admit(desk.lend(), job)),
        Call::Withdraw(number) => ffi::withdraw(desk.lend(), number).map(Told::Left),
        Call::Look {
            number,
            figures_len,
        } => {
            let mut figures = Fenced::of_length(figures_len, random);
            let answer = ffi::look(desk.lend(), number, figures.lend());
            let written = written(answer, &mut figures, "figures", FIGURES_BYTES)?;
            yes(answer).map(|_| Told::Figures(array::from_fn(|i| written[i])))
        }
        Call::Run { given_len } => {
            let mut given = Fenced::of_length(given_len, random);
            let answer = ffi::run(desk.lend(), given.lend());
            let written = written(answer, &mut given, "given", GIVEN_BYTES)?;
            let pair = |i| (written[2 * i], written[2 * i + 1]);
            yes(answer).map(|_| Told::Given(array::from_fn(pair)))
        }
    };
    let may_change = reply.is_ok() && !matches!(call, Call::Look { .. });
    desk.untouched("record", if may_change { record.len() } else { 0 })?;
    Ok((reply, desk.lend().to_vec()))
}

/// What the independent desk says of a call at the window, and the record afterwards.
pub fn on_record(record: &[u8], call: Call) -> (Reply, Vec<u8>) {
    match record::decode(record) {
        Some(mut desk) => (on_desk(&mut desk, call), record::encode(&desk)),
        None => (Err(Answer::refusal(12, 0, 0)), record.to_vec()),
    }
}

/// The same with a desk in place of its record. A buffer that is too short comes before 10 and 11.
pub fn on_desk(desk: &mut Desk, call: Call) -> Reply {
    match call {
        Call::Admit(job) => desk.admit(job).map(|()| Told::Yes),
        Call::Withdraw(number) => desk.withdraw(number).map(Told::Left),
        Call::Look { figures_len, .. } if figures_len < FIGURES_BYTES => Err(TOO_SHORT),
        Call::Look { number, .. } => desk.look(number).map(Told::Figures),
        Call::Run { given_len } if given_len < GIVEN_BYTES => Err(TOO_SHORT),
        Call::Run { .. } => desk.run().map(Told::Given),
    }
}

const TOO_SHORT: Answer = Answer::refusal(6, 0, 0);

fn yes(answer: Answer) -> Reply {
    match answer {
        Answer::YES => Ok(Told::Yes),
        refusal => Err(refusal),
    }
}

/// The numbers that a yes wrote into a buffer, as many bytes as it needs and no more; a refusal
/// writes none.
fn written(
    answer: Answer,
    buffer: &mut Fenced<u8>,
    name: &str,
    needed: usize,
) -> Result<Vec<u32>, String> {
    let may = if answer == Answer::YES { needed } else { 0 };
    if buffer.lend().len() < may {
        return Err(format!("a yes, though the buffer for {name} is too short"));
    }
    buffer.untouched(name, may)?;
    Ok(numbers_of_bytes(&buffer.lend()[..may]))
}
