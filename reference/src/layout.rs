//! Where things stand in the store (the paper's book): its parts, not what they mean.

/// Transactions (the paper's handouts) are numbered below this.
pub const TRANSACTIONS: usize = 64;
pub const OBJECTS: usize = 16;
/// Rows that an object has space for.
pub const ROWS: usize = 64;
/// Entries that the log has space for.
pub const ENTRIES: usize = 256;

pub const ROW_WORDS: usize = 2;
pub const ENTRY_WORDS: usize = 7;

/// Where an object's kind, row count and rows stand among its words.
pub const KIND: usize = 0;
pub const ROW_COUNT: usize = 1;
pub const ROWS_START: usize = 2;
pub const OBJECT_WORDS: usize = ROWS_START + ROWS * ROW_WORDS;

const LOG_LENGTH: usize = 0;
const STATUSES_START: usize = 1;
const OBJECTS_START: usize = STATUSES_START + TRANSACTIONS;
const LOG_START: usize = OBJECTS_START + OBJECTS * OBJECT_WORDS;
/// Words of a store.
pub const WORDS: usize = LOG_START + ENTRIES * ENTRY_WORDS;

const _: () = assert!(OBJECTS_START == 65 && LOG_START == 2145 && WORDS == 3937);

/// The words of a store, their number checked.
pub(crate) type Words = [u32; WORDS];
pub(crate) type StatusWords = [u32; TRANSACTIONS];
pub(crate) type ObjectWords = [u32; OBJECT_WORDS];

pub(crate) fn log_length(store: &Words) -> u32 {
    store[LOG_LENGTH]
}

pub(crate) fn log_length_mut(store: &mut Words) -> &mut u32 {
    &mut store[LOG_LENGTH]
}

pub(crate) fn statuses(store: &Words) -> &StatusWords {
    part(&store[STATUSES_START..])
}

pub(crate) fn statuses_mut(store: &mut Words) -> &mut StatusWords {
    part_mut(&mut store[STATUSES_START..])
}

pub(crate) fn object(store: &Words, object: usize) -> &ObjectWords {
    part(&store[OBJECTS_START + object * OBJECT_WORDS..])
}

/// What a commit writes rows through: the store from that object on, and of that no more than the object.
pub(crate) fn object_mut(store: &mut Words, object: usize) -> &mut ObjectWords {
    part_mut(&mut store[OBJECTS_START + object * OBJECT_WORDS..])
}

/// All the space for log entries.
pub(crate) fn log(store: &Words) -> &[u32] {
    &store[LOG_START..]
}

pub(crate) fn log_mut(store: &mut Words) -> &mut [u32] {
    &mut store[LOG_START..]
}

fn part<const N: usize>(words: &[u32]) -> &[u32; N] {
    words[..N].try_into().expect("a slice of N words")
}

fn part_mut<const N: usize>(words: &mut [u32]) -> &mut [u32; N] {
    (&mut words[..N]).try_into().expect("a slice of N words")
}
