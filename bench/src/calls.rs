//! The calls as both implementations make them, with replies that can be held to each other.

use lending_desk::raw;
use reference::{calls, Outcome, Refusal, Reply};

/// Words of an operation of a batch.
const OPERATION: usize = 4;

/// A call with its arguments.
#[derive(Clone, Debug)]
pub enum Call {
    SetUp { kinds: [u8; 16] },
    Begin { handout: u32 },
    Operate { handout: u32, object: u32, operation: u32, key: u32, value: u32 },
    Batch { handout: u32, operations: Vec<u32> },
    Finish { handout: u32 },
    Cancel { handout: u32 },
    Contents { object: u32 },
}

/// What is replied, by the numbers of `include/lending_desk.h`. The last two are owners and their count, answer and
/// value, a batch's answers in one and their count, count and 0, or start and rows.
#[derive(Clone, Copy, Debug, Default, PartialEq, Eq)]
pub struct Said {
    pub refusal: u32,
    pub code: u32,
    pub numbers: [u64; 2],
}

/// Makes a call on a book and a list.
pub type Serve = fn(&Call, &mut [u32], &mut [u8]) -> Said;

#[inline(never)]
pub fn proved(call: &Call, book: &mut [u32], list: &mut [u8]) -> Said {
    let accepted = |reply: raw::Accepted| Said { refusal: reply.refusal, ..Said::default() };
    let ended = |raw::Ended { refusal, code, count }| Said { refusal, code, numbers: [count.into(), 0] };
    match *call {
        Call::SetUp { ref kinds } => accepted(raw::set_up(book, kinds)),
        Call::Begin { handout } => accepted(raw::begin(book, handout)),
        Call::Operate { handout, object, operation, key, value } => {
            let raw::Operated { refusal, code, owners, count, answer, value } =
                raw::operate(book, handout, object, operation, key, value);
            let numbers = if code == 0 { [owners, count.into()] } else { [answer.into(), value.into()] };
            Said { refusal, code, numbers }
        }
        Call::Batch { handout, ref operations } => batched(book, handout, operations),
        Call::Finish { handout } => ended(raw::finish(book, handout, list)),
        Call::Cancel { handout } => ended(raw::cancel(book, handout, list)),
        Call::Contents { object } => {
            let raw::Part { refusal, start, rows } = raw::contents(book, object);
            Said { refusal, code: 0, numbers: [start.into(), rows.into()] }
        }
    }
}

/// In a frame of its own, since its reply is large.
#[inline(never)]
fn batched(book: &mut [u32], handout: u32, operations: &[u32]) -> Said {
    let raw::Batched { refusal, code, owners, count, answers } = raw::batch(book, handout, operations);
    let answers = answers.iter().take(count as usize).map(|answer| (answer.code, answer.value));
    let numbers = if code == 0 { [owners, count.into()] } else { [mixed(answers), count.into()] };
    Said { refusal, code, numbers }
}

/// Makes the operations of a batch one by one, by the proved library, and says what a batch would. All are answered.
#[inline(never)]
pub fn singly(call: &Call, book: &mut [u32], list: &mut [u8]) -> Said {
    let (handout, operations) = match call {
        Call::Batch { handout, operations } => (*handout, operations),
        _ => return proved(call, book, list),
    };
    let mut said = Said { refusal: 0, code: 1, numbers: [0, 0] };
    for words in operations.chunks_exact(OPERATION) {
        let raw::Operated { refusal, code, answer, value, .. } =
            raw::operate(book, handout, words[0], words[1], words[2], words[3]);
        assert_eq!((refusal, code), (0, 1));
        said.numbers = [with_answer(said.numbers[0], (answer, value)), said.numbers[1] + 1];
    }
    said
}

#[inline(never)]
pub fn second(call: &Call, book: &mut [u32], list: &mut [u8]) -> Said {
    match *call {
        Call::SetUp { ref kinds } => apart(|| calls::set_up(book, kinds)),
        Call::Begin { handout } => apart(|| calls::begin(book, handout)),
        Call::Operate { handout, object, operation, key, value } => {
            apart(|| calls::operate(book, handout, object, operation, key, value))
        }
        Call::Batch { handout, ref operations } => apart(|| calls::batch(book, handout, operations)),
        Call::Finish { handout } => apart(|| calls::finish(book, handout, list)),
        Call::Cancel { handout } => apart(|| calls::cancel(book, handout, list)),
        Call::Contents { object } => {
            let rows = contents(book, object);
            let start = (rows.as_ptr() as usize - book.as_ptr() as usize) / 4;
            Said { refusal: 0, code: 0, numbers: [start as u64, rows.len() as u64 / 2] }
        }
    }
}

/// Answers as one number, which others hardly have.
fn mixed(answers: impl Iterator<Item = (u32, u32)>) -> u64 {
    answers.fold(0, with_answer)
}

fn with_answer(all: u64, (code, value): (u32, u32)) -> u64 {
    all.rotate_left(5) ^ (u64::from(code) << 32 | u64::from(value))
}

/// Makes a call in a frame of its own, as the proved library's are made.
#[inline(never)]
fn apart(call: impl FnOnce() -> Outcome) -> Said {
    said(call())
}

#[inline(never)]
fn contents(book: &[u32], object: u32) -> &[u32] {
    calls::contents(book, object)
}

/// Makes no call: what a measurement costs by itself.
#[inline(never)]
pub fn nothing(_: &Call, _: &mut [u32], _: &mut [u8]) -> Said {
    Said::default()
}

fn said(outcome: Outcome) -> Said {
    let accepted = |code, numbers| Said { refusal: 0, code, numbers };
    match outcome {
        Err(refusal) => Said { refusal: Refusal::number(refusal), ..Said::default() },
        Ok(Reply::Ok) => Said::default(),
        Ok(Reply::Wait { owners, count }) => accepted(0, [owners, count.into()]),
        Ok(Reply::Answer { code, value }) => accepted(1, [code.into(), value.into()]),
        Ok(Reply::Answers(answers)) => {
            let answers = answers.as_slice().iter().map(|answer| (answer.code, answer.value));
            accepted(1, [mixed(answers.clone()), answers.len() as u64])
        }
        Ok(Reply::Finished) => accepted(2, [0, 0]),
        Ok(Reply::Committed { count }) => accepted(3, [count as u64, 0]),
        Ok(Reply::Circle { count }) => accepted(4, [count as u64, 0]),
        Ok(Reply::Cancelled { count }) => accepted(5, [count as u64, 0]),
    }
}
