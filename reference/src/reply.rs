//! What the calls say: replies, and reasons for saying no.

use crate::operations::{Answer, BATCH};

/// Why a call is refused; the discriminant is the paper's number.
#[derive(Clone, Copy, Debug, PartialEq, Eq, PartialOrd, Ord, Hash)]
#[repr(u8)]
pub enum Refusal {
    StoreLength = 1,
    ListLength = 2,
    Kinds = 3,
    Unsound = 4,
    TransactionNumber = 5,
    Live = 6,
    NotActive = 7,
    Object = 8,
    Operation = 9,
    LogFull = 10,
    RowsFull = 11,
    Operations = 12,
}

impl Refusal {
    /// The paper's number.
    pub const fn number(self) -> u32 {
        self as u32
    }
}

/// What a call that is not refused says. Counts, but for a wait's, are of the transactions at the front of the list.
#[derive(Clone, Copy, Debug, PartialEq, Eq)]
pub enum Reply {
    /// Set up and begin.
    Ok,
    Answer {
        code: u32,
        value: u32,
    },
    /// A batch's.
    Answers(Answers),
    /// Told to wait: the owners of the entries that force it, one bit each, and their number.
    Wait {
        owners: u64,
        count: u32,
    },
    /// Pseudo-committed: it still depends on others.
    Finished,
    Committed {
        count: usize,
    },
    /// On a cycle of commit dependencies, and aborted for it.
    Circle {
        count: usize,
    },
    Cancelled {
        count: usize,
    },
}

/// What the operations of a batch are answered, in order.
#[derive(Clone, Copy, Debug, PartialEq, Eq)]
pub struct Answers {
    /// Those past the count are all the same, so that batches answered alike compare equal.
    answers: [Answer; BATCH],
    count: usize,
}

impl Answers {
    /// Those of an empty batch.
    pub fn none() -> Answers {
        Answers { answers: [Answer::NO; BATCH], count: 0 }
    }

    /// Adds the next operation's. There are fewer than a batch may have operations.
    pub fn push(&mut self, answer: Answer) {
        self.answers[self.count] = answer;
        self.count += 1;
    }

    pub fn as_slice(&self) -> &[Answer] {
        &self.answers[..self.count]
    }
}

/// What a call says.
pub type Outcome = Result<Reply, Refusal>;
