//! The proved lending desk for programs in Rust.
//!
//! A book is a lent slice of [`WORDS`] words; [`set_up`] writes an empty one over any contents. Any slices and any numbers may be handed over: a
//! call that can't be served says why and changes nothing. What each call does is a definition, and that it does so is proved of the library
//! beneath. This package only hands slices over and replies back; a slice is never null, so no null pointer gets there.
//!
//! Calls and replies can be kept in a [`journal`].

use std::ops::Deref;

pub use raw::Answer;

pub mod journal;
pub mod raw;

/// The version of book, calls and replies, for books and programs that outlive one version: 1 is the base's, and each
/// change request raises it.
pub const VERSION: u32 = 6;

/// Words of a book.
pub const WORDS: usize = 3937;

/// How many handouts there can be at a time, numbered from 0.
pub const HANDOUTS: usize = 64;

/// How many objects a book has; set up takes a kind for each: 0 none, 1 stack, 2 set, 3 table.
pub const OBJECTS: usize = 16;

/// The least length of the list lent to finish and cancel.
pub const LIST: usize = 64;

/// How many operations a batch has at the most.
pub const BATCH: usize = 16;

/// Words that an operation of a batch is handed over as.
pub const OPERATION_WORDS: usize = 4;

/// How many numbers a record's call has at the most, which is a batch.
pub const RECORD_ARGUMENTS: usize = 65;

/// Bytes that a record has at the most.
pub const RECORD_BYTES: usize = 488;

/// Bytes of stack that a call takes at the most: measured, and not proved. The library asks for no other memory.
pub const FRAME: usize = 17_408;

/// Why a call is refused, by number; `include/lending_desk.h` has the reasons.
#[derive(Clone, Copy, Debug, PartialEq, Eq, PartialOrd, Ord, Hash)]
pub struct Refusal(pub u32);

/// What operate replies.
#[derive(Clone, Copy, Debug, PartialEq, Eq)]
pub enum Operated {
    /// Nothing was changed: entries of these handouts force a wait.
    Wait(Owners),
    Answered {
        code: u32,
        value: u32,
    },
}

/// An operation of a batch. An argument that it doesn't use may be any number.
#[derive(Clone, Copy, Debug, PartialEq, Eq)]
pub struct Operation {
    pub object: u32,
    pub operation: u32,
    /// Key or item.
    pub key: u32,
    pub value: u32,
}

impl Operation {
    /// As batch is lent it.
    fn words(self) -> [u32; OPERATION_WORDS] {
        let Operation { object, operation, key, value } = self;
        [object, operation, key, value]
    }
}

/// What batch replies.
#[derive(Clone, Copy, Debug, PartialEq, Eq)]
pub enum Batched {
    /// Nothing was changed: entries of these handouts force a wait of one operation or of several.
    Wait(Owners),
    /// Every operation was answered.
    Answered(Answers),
}

/// The answers to a batch, by value: a slice with one for each operation, in order.
#[derive(Clone, Copy, Debug, PartialEq, Eq)]
pub struct Answers {
    answers: [Answer; BATCH],
    count: usize,
}

impl Deref for Answers {
    type Target = [Answer];

    fn deref(&self) -> &[Answer] {
        &self.answers[..self.count]
    }
}

/// The handouts that an operation or a batch waits for, at least one: iterated, they ascend.
#[derive(Clone, Copy, Debug, PartialEq, Eq)]
pub struct Owners {
    set: u64,
    count: u32,
}

impl Owners {
    /// How many there are.
    pub fn count(self) -> usize {
        self.count as usize
    }

    /// Whether a handout is one of them, whatever its number.
    pub fn contains(self, handout: u32) -> bool {
        self.set.checked_shr(handout).map_or(false, |set| set & 1 == 1)
    }

    /// All of them as 64 bits: bit h is handout h.
    pub fn set(self) -> u64 {
        self.set
    }
}

impl IntoIterator for Owners {
    type Item = u32;
    type IntoIter = Ascending;

    fn into_iter(self) -> Ascending {
        Ascending(self.set)
    }
}

/// The handouts of a set that are still to come, the lowest first.
#[derive(Clone, Debug)]
pub struct Ascending(u64);

impl Iterator for Ascending {
    type Item = u32;

    fn next(&mut self) -> Option<u32> {
        let lowest = (self.0 != 0).then(|| self.0.trailing_zeros())?;
        self.0 &= self.0 - 1; // without its lowest bit
        Some(lowest)
    }

    fn size_hint(&self) -> (usize, Option<usize>) {
        let left = self.0.count_ones() as usize;
        (left, Some(left))
    }
}

impl ExactSizeIterator for Ascending {}

/// What finish and cancel reply. The counts are of the handouts that committed, at the front of the list in order of commitment.
#[derive(Clone, Copy, Debug, PartialEq, Eq)]
pub enum Ended {
    Finished,
    Committed { count: usize },
    Circle { count: usize },
    Cancelled { count: usize },
}

/// Writes an empty book over any contents.
pub fn set_up(book: &mut [u32], kinds: &[u8]) -> Result<(), Refusal> {
    accepted(raw::set_up(book, kinds).refusal)
}

/// Opens a handout.
pub fn begin(book: &mut [u32], handout: u32) -> Result<(), Refusal> {
    accepted(raw::begin(book, handout).refusal)
}

/// Answers an operation of an open handout and enters it in the log, unless it must wait.
pub fn operate(
    book: &mut [u32],
    handout: u32,
    object: u32,
    operation: u32,
    key: u32,
    value: u32,
) -> Result<Operated, Refusal> {
    let reply = raw::operate(book, handout, object, operation, key, value);
    accepted(reply.refusal)?;
    Ok(match reply.code {
        0 => Operated::Wait(Owners { set: reply.owners, count: reply.count }),
        _ => Operated::Answered { code: reply.answer, value: reply.value },
    })
}

/// Answers operations of an open handout in order, each seeing those before it, and enters them in the log, unless any
/// of them must wait. There are up to [`BATCH`].
pub fn batch(book: &mut [u32], handout: u32, operations: &[Operation]) -> Result<Batched, Refusal> {
    // Past the limit the library looks at the number alone, and one more tells it as well as all of them.
    let mut words = [0; (BATCH + 1) * OPERATION_WORDS];
    for (words, operation) in words.chunks_exact_mut(OPERATION_WORDS).zip(operations) {
        words.copy_from_slice(&operation.words());
    }
    let length = operations.len().min(BATCH + 1) * OPERATION_WORDS;
    let reply = raw::batch(book, handout, &words[..length]);
    accepted(reply.refusal)?;
    Ok(match reply.code {
        0 => Batched::Wait(Owners { set: reply.owners, count: reply.count }),
        _ => Batched::Answered(Answers { answers: reply.answers, count: reply.count as usize }),
    })
}

/// Finishes an open handout: committed, finished, or cancelled for a circle.
pub fn finish(book: &mut [u32], handout: u32, list: &mut [u8]) -> Result<Ended, Refusal> {
    ended(raw::finish(book, handout, list))
}

/// Cancels an open handout.
pub fn cancel(book: &mut [u32], handout: u32, list: &mut [u8]) -> Result<Ended, Refusal> {
    ended(raw::cancel(book, handout, list))
}

/// The object's rows, two words each: that part of the book itself.
pub fn contents(book: &[u32], object: u32) -> Result<&[u32], Refusal> {
    let part = raw::contents(book, object);
    accepted(part.refusal)?;
    Ok(&book[part.start as usize..][..2 * part.rows as usize])
}

fn accepted(refusal: u32) -> Result<(), Refusal> {
    match refusal {
        0 => Ok(()),
        number => Err(Refusal(number)),
    }
}

fn ended(reply: raw::Ended) -> Result<Ended, Refusal> {
    accepted(reply.refusal)?;
    let count = reply.count as usize;
    Ok(match reply.code {
        2 => Ended::Finished,
        3 => Ended::Committed { count },
        4 => Ended::Circle { count },
        _ => Ended::Cancelled { count },
    })
}
