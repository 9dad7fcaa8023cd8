//! One call on two copies of one store: replies, every word and every byte held to each other.

use std::fmt;
use std::panic::{self, AssertUnwindSafe};

use lending_desk::raw;
use reference::call::Call;
use reference::{calls, Answer, Outcome, Refusal, Reply};

use crate::batches::OPERATION;
use crate::common::{line_of, BLANK};
use crate::tally::answers_row;

/// A call, with or without a letter in scripts.
#[derive(Clone, Debug, PartialEq, Eq)]
pub enum AnyCall {
    Lettered(Call),
    /// Contents, and its twin.
    Contents {
        object: u32,
    },
}

impl fmt::Display for AnyCall {
    fn fmt(&self, f: &mut fmt::Formatter<'_>) -> fmt::Result {
        match self {
            AnyCall::Lettered(call) => write!(f, "{}", line_of(call)),
            AnyCall::Contents { object } => write!(f, "contents of {object}"),
        }
    }
}

/// A reply in the numbers that the C interface has for it; what a reply has no number for is 0.
#[derive(Clone, Copy, Debug, PartialEq, Eq)]
pub enum Numbers {
    Accepted(raw::Accepted),
    Operated(raw::Operated),
    Batched(raw::Batched),
    Ended(raw::Ended),
    Part(raw::Part),
}

impl Numbers {
    pub fn refusal(&self) -> u32 {
        match *self {
            Numbers::Accepted(raw::Accepted { refusal })
            | Numbers::Operated(raw::Operated { refusal, .. })
            | Numbers::Batched(raw::Batched { refusal, .. })
            | Numbers::Ended(raw::Ended { refusal, .. })
            | Numbers::Part(raw::Part { refusal, .. }) => refusal,
        }
    }

    /// The reply's row in a tally.
    pub fn row(&self) -> String {
        let company = |others: u32| if others == 0 { "alone" } else { "with others" };
        match *self {
            _ if self.refusal() != 0 => format!("refused {}", self.refusal()),
            Numbers::Accepted(_) => "ok".to_string(),
            Numbers::Operated(raw::Operated { code: 0, count, .. })
            | Numbers::Batched(raw::Batched { code: 0, count, .. }) => {
                format!("wait for {}", if count == 1 { "one" } else { "more than one" })
            }
            Numbers::Operated(raw::Operated { answer, .. }) => format!("answer, code {answer}"),
            Numbers::Batched(raw::Batched { count, .. }) => answers_row(count as usize).to_string(),
            Numbers::Ended(raw::Ended { code: 2, .. }) => "finished".to_string(),
            Numbers::Ended(raw::Ended { code: 3, count, .. }) => format!("committed {}", company(count - 1)),
            Numbers::Ended(raw::Ended { code: 4, count, .. }) => format!("circle {}", company(count)),
            Numbers::Ended(raw::Ended { count, .. }) => format!("cancelled {}", company(count)),
            Numbers::Part(raw::Part { rows: 0, .. }) => "no rows".to_string(),
            Numbers::Part(_) => "rows".to_string(),
        }
    }
}

/// What a desk replies, and the part of the store that contents hands back.
#[derive(Clone, Debug, PartialEq, Eq)]
pub struct Served {
    pub numbers: Numbers,
    pub rows: Vec<u32>,
}

impl Served {
    fn without_rows(numbers: Numbers) -> Served {
        Served { numbers, rows: Vec::new() }
    }
}

/// A desk: it serves a call on a store, with a list for finish and cancel.
pub type Desk = fn(&AnyCall, &mut [u32], &mut [u8]) -> Served;

/// The proved desk, through its C interface.
pub fn proved(call: &AnyCall, store: &mut [u32], list: &mut [u8]) -> Served {
    let numbers = match *call {
        AnyCall::Contents { object } => {
            let part = raw::contents(store, object);
            let rows = store[part.start as usize..][..2 * part.rows as usize].to_vec();
            return Served { numbers: Numbers::Part(part), rows };
        }
        AnyCall::Lettered(ref call) => match *call {
            Call::SetUp { ref kinds } => Numbers::Accepted(raw::set_up(store, kinds)),
            Call::Begin { transaction } => Numbers::Accepted(raw::begin(store, transaction)),
            Call::Operate { transaction, object, operation, key, value } => {
                Numbers::Operated(raw::operate(store, transaction, object, operation, key, value))
            }
            Call::Batch { transaction, ref operations } => Numbers::Batched(raw::batch(store, transaction, operations)),
            Call::Finish { transaction } => Numbers::Ended(raw::finish(store, transaction, list)),
            Call::Cancel { transaction } => Numbers::Ended(raw::cancel(store, transaction, list)),
        },
    };
    Served::without_rows(numbers)
}

/// The second implementation.
pub fn second(call: &AnyCall, store: &mut [u32], list: &mut [u8]) -> Served {
    match *call {
        AnyCall::Lettered(ref call) => Served::without_rows(written(call, call.serve(store, list))),
        AnyCall::Contents { object } => {
            let rows = calls::contents(store, object);
            let part = match calls::contents_count(store, object) {
                Ok(count) => raw::Part { refusal: 0, start: start_of(rows, store), rows: count as u32 },
                Err(refusal) => raw::Part { refusal: refusal.number(), start: 0, rows: 0 },
            };
            Served { numbers: Numbers::Part(part), rows: rows.to_vec() }
        }
    }
}

/// The word of the store at which a part of it starts.
fn start_of(part: &[u32], store: &[u32]) -> u32 {
    let bytes = (part.as_ptr() as usize).wrapping_sub(store.as_ptr() as usize);
    (bytes / std::mem::size_of::<u32>()) as u32
}

/// What operate replies where it has no number for anything.
const ZEROS: raw::Operated = raw::Operated { refusal: 0, code: 0, owners: 0, count: 0, answer: 0, value: 0 };

/// The numbers of an outcome, by `include/lending_desk.h`.
fn written(call: &Call, outcome: Outcome) -> Numbers {
    let refusal = outcome.err().map_or(0, Refusal::number);
    match (call, outcome) {
        (Call::SetUp { .. } | Call::Begin { .. }, Ok(Reply::Ok) | Err(_)) => {
            Numbers::Accepted(raw::Accepted { refusal })
        }
        (Call::Operate { .. }, Ok(Reply::Wait { owners, count })) => {
            Numbers::Operated(raw::Operated { owners, count, ..ZEROS })
        }
        (Call::Operate { .. }, Ok(Reply::Answer { code, value })) => {
            Numbers::Operated(raw::Operated { code: 1, answer: code, value, ..ZEROS })
        }
        (Call::Operate { .. }, Err(_)) => Numbers::Operated(raw::Operated { refusal, ..ZEROS }),
        (Call::Batch { .. }, Ok(Reply::Wait { owners, count })) => {
            Numbers::Batched(raw::Batched { owners, count, ..raw::Batched::default() })
        }
        (Call::Batch { .. }, Ok(Reply::Answers(answers))) => Numbers::Batched(batched(answers.as_slice())),
        (Call::Batch { .. }, Err(_)) => Numbers::Batched(raw::Batched { refusal, ..raw::Batched::default() }),
        (Call::Finish { .. }, Ok(Reply::Finished)) => ended(0, 2, 0),
        (Call::Finish { .. }, Ok(Reply::Committed { count })) => ended(0, 3, count),
        (Call::Finish { .. }, Ok(Reply::Circle { count })) => ended(0, 4, count),
        (Call::Cancel { .. }, Ok(Reply::Cancelled { count })) => ended(0, 5, count),
        (Call::Finish { .. } | Call::Cancel { .. }, Err(_)) => ended(refusal, 0, 0),
        (call, Ok(reply)) => panic!("{reply:?} to {call:?}"),
    }
}

fn batched(answers: &[Answer]) -> raw::Batched {
    let mut reply = raw::Batched { code: 1, count: answers.len() as u32, ..raw::Batched::default() };
    for (place, &Answer { code, value }) in reply.answers.iter_mut().zip(answers) {
        *place = raw::Answer { code, value };
    }
    reply
}

fn ended(refusal: u32, code: u32, count: usize) -> Numbers {
    Numbers::Ended(raw::Ended { refusal, code, count: count as u32 })
}

/// How many words or bytes stand on each side of those lent: an odd number, so that no book starts at a double word.
const BESIDE: usize = 5;

/// Words or bytes lent to a call, between some that aren't.
#[derive(Clone, Debug, PartialEq, Eq)]
struct Lent<T>(Vec<T>);

impl<T: Copy + PartialEq + fmt::Debug> Lent<T> {
    fn new(lent: &[T], beside: T) -> Self {
        let beside = [beside; BESIDE];
        Lent([&beside, lent, &beside].concat())
    }

    fn part(&self) -> &[T] {
        &self.0[BESIDE..self.0.len() - BESIDE]
    }

    fn part_mut(&mut self) -> &mut [T] {
        let end = self.0.len() - BESIDE;
        &mut self.0[BESIDE..end]
    }

    /// The first place at which they differ, if there is one.
    fn difference(&self, other: &Self, what: &str) -> Option<String> {
        if self.0 == other.0 {
            return None;
        }
        let index = (0..self.0.len()).find(|&index| self.0[index] != other.0[index])?;
        let (one, other) = (self.0[index], other.0[index]);
        let place = match index.checked_sub(BESIDE) {
            Some(place) if place < self.part().len() => format!("{what} {place}"),
            _ => format!("a {what} beside those lent"),
        };
        Some(format!("{place} is {one:?} and not {other:?}"))
    }
}

/// All that a call leaves.
#[derive(Clone, Debug, PartialEq, Eq)]
pub struct Left {
    pub served: Served,
    words: Lent<u32>,
    bytes: Lent<u8>,
}

impl Left {
    /// What a desk leaves of copies of a store and a list.
    fn by(desk: Desk, call: &AnyCall, store: &[u32], list: &[u8]) -> Option<Left> {
        let beside = u32::from_ne_bytes([BLANK; 4]);
        let (mut words, mut bytes) = (Lent::new(store, beside), Lent::new(list, BLANK));
        let serve = AssertUnwindSafe(|| desk(call, words.part_mut(), bytes.part_mut()));
        let served = panic::catch_unwind(serve).ok()?;
        Some(Left { served, words, bytes })
    }

    pub fn store(&self) -> &[u32] {
        self.words.part()
    }

    /// How the replies, the words, the bytes and the rows differ, as far as they do.
    fn difference(&self, other: &Left) -> Option<String> {
        let (one, two) = (&self.served, &other.served);
        let numbers = (one.numbers != two.numbers).then(|| format!("{:?} and not {:?}", one.numbers, two.numbers));
        let words = self.words.difference(&other.words, "word");
        let bytes = self.bytes.difference(&other.bytes, "byte");
        let rows = (one.rows != two.rows).then(|| format!("rows {:?} and not {:?}", one.rows, two.rows));
        let differences: Vec<String> = [numbers, words, bytes, rows].into_iter().flatten().collect();
        (!differences.is_empty()).then(|| differences.join("; "))
    }
}

/// Makes a call on two copies of a store and a list, each by a desk: what both leave, or how they differ.
pub fn hold(desks: [Desk; 2], call: &AnyCall, store: &[u32], list: &[u8]) -> Result<Left, String> {
    match desks.map(|desk| Left::by(desk, call, store, list)) {
        [Some(one), Some(other)] => match one.difference(&other) {
            Some(difference) => Err(difference),
            None => Ok(one),
        },
        [one, _] => Err(format!("the {} desk panics", if one.is_none() { "first" } else { "second" })),
    }
}

/// Makes the operations of a batch that was answered singly and in order: how what they are answered and leave differs
/// from what the batch was answered and left.
pub fn hold_singly(desk: Desk, call: &AnyCall, store: &[u32], left: &Left) -> Result<(), String> {
    let (transaction, operations, batched) = match (call, left.served.numbers) {
        (AnyCall::Lettered(Call::Batch { transaction, operations }), Numbers::Batched(batched))
            if batched.code == 1 =>
        {
            (*transaction, operations, batched)
        }
        _ => return Ok(()),
    };
    let mut words = store.to_vec();
    for (answer, operation) in batched.answers.iter().zip(operations.chunks_exact(OPERATION)) {
        let (object, key, value) = (operation[0], operation[2], operation[3]);
        let single = Call::Operate { transaction, object, operation: operation[1], key, value };
        let Served { numbers, .. } = desk(&AnyCall::Lettered(single.clone()), &mut words, &mut []);
        let expected = Numbers::Operated(raw::Operated { code: 1, answer: answer.code, value: answer.value, ..ZEROS });
        if numbers != expected {
            return Err(format!("singly, {}: {numbers:?} and not {expected:?}", line_of(&single)));
        }
    }
    let difference = (0..words.len()).find(|&index| words[index] != left.store()[index]);
    difference.map_or(Ok(()), |index| Err(format!("singly, word {index} is {}", words[index])))
}
