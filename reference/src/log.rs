//! The log: the operations of live transactions, oldest first.

use crate::layout::{self, Words, ENTRIES, ENTRY_WORDS, OBJECTS, TRANSACTIONS};
use crate::operations::{Answer, Operation, Request};
use crate::transactions::{only, TransactionSet};

/// A log entry whose numbers are in range, with its key reduced and 0 for unused arguments.
#[derive(Clone, Copy, Debug, PartialEq, Eq)]
pub struct Entry {
    pub transaction: usize,
    pub object: usize,
    pub request: Request,
    pub answer: Answer,
}

impl Entry {
    /// Reads an entry's words; none where they are no such entry.
    fn read(words: &[u32]) -> Option<Entry> {
        let [transaction, object, operation, key, value, code, answer_value]: [u32; ENTRY_WORDS] =
            words.try_into().ok()?;
        let request = Request::new(Operation::from_number(operation)?, key, value);
        let in_range = (transaction as usize) < TRANSACTIONS && (object as usize) < OBJECTS;
        (in_range && request.key == key && request.value == value).then_some(Entry {
            transaction: transaction as usize,
            object: object as usize,
            request,
            answer: Answer { code, value: answer_value },
        })
    }

    fn words(&self) -> [u32; ENTRY_WORDS] {
        let Entry { transaction, object, request, answer } = *self;
        [
            transaction as u32,
            object as u32,
            request.operation.number(),
            request.key,
            request.value,
            answer.code,
            answer.value,
        ]
    }
}

/// How many entries the store says there are: at most `ENTRIES` if it is sound.
pub fn length(store: &Words) -> usize {
    layout::log_length(store) as usize
}

/// The words of the entries there are, and those of the space left; none where the store says there are too many.
pub fn split(store: &Words) -> Option<(&[u32], &[u32])> {
    let length = length(store);
    (length <= ENTRIES).then(|| layout::log(store).split_at(length * ENTRY_WORDS))
}

/// Reads entries: none for each that isn't one.
pub fn read(words: &[u32]) -> impl Iterator<Item = Option<Entry>> + '_ {
    words.chunks_exact(ENTRY_WORDS).map(Entry::read)
}

/// Enters one at the end of a log that isn't full.
pub fn push(store: &mut Words, entry: &Entry) {
    let start = length(store) * ENTRY_WORDS;
    layout::log_mut(store)[start..start + ENTRY_WORDS].copy_from_slice(&entry.words());
    *layout::log_length_mut(store) += 1;
}

/// Carries a transaction's entries into the rows, in order. They stay in the log.
pub fn carry_out(store: &mut Words, transaction: usize) {
    for start in (0..length(store) * ENTRY_WORDS).step_by(ENTRY_WORDS) {
        let words = &layout::log(store)[start..start + ENTRY_WORDS];
        let entry = if owner(words) == transaction { Entry::read(words) } else { None };
        if let Some(Entry { object, request, .. }) = entry {
            request.run(layout::object_mut(store, object));
        }
    }
}

/// Drops the entries of all transactions but those in `live`.
pub fn retain(store: &mut Words, live: TransactionSet) {
    let used = length(store) * ENTRY_WORDS;
    let log = layout::log_mut(store);
    let mut kept = 0;
    for start in (0..used).step_by(ENTRY_WORDS) {
        if live & only(owner(&log[start..])) != 0 {
            log.copy_within(start..start + ENTRY_WORDS, kept);
            kept += ENTRY_WORDS;
        }
    }
    log[kept..used].fill(0);
    *layout::log_length_mut(store) = (kept / ENTRY_WORDS) as u32;
}

/// The transaction that an entry of a sound store belongs to, without reading the rest.
fn owner(words: &[u32]) -> usize {
    words[0] as usize
}
