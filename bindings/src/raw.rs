//! The proved library's functions and the structs that they return, as `include/lending_desk.h` declares them.

use crate::{BATCH, LIST, RECORD_ARGUMENTS, RECORD_BYTES};

/// What set up and begin reply.
#[repr(C)]
#[derive(Clone, Copy, Debug, Default, PartialEq, Eq)]
pub struct Accepted {
    pub refusal: u32,
}

/// What operate replies.
#[repr(C)]
#[derive(Clone, Copy, Debug, Default, PartialEq, Eq)]
pub struct Operated {
    pub refusal: u32,
    pub code: u32,
    pub owners: u64,
    pub count: u32,
    pub answer: u32,
    pub value: u32,
}

/// An operation's answer.
#[repr(C)]
#[derive(Clone, Copy, Debug, Default, PartialEq, Eq)]
pub struct Answer {
    pub code: u32,
    pub value: u32,
}

/// What batch replies.
#[repr(C)]
#[derive(Clone, Copy, Debug, Default, PartialEq, Eq)]
pub struct Batched {
    pub refusal: u32,
    pub code: u32,
    pub owners: u64,
    pub count: u32,
    pub answers: [Answer; BATCH],
}

/// What finish and cancel reply.
#[repr(C)]
#[derive(Clone, Copy, Debug, Default, PartialEq, Eq)]
pub struct Ended {
    pub refusal: u32,
    pub code: u32,
    pub count: u32,
}

/// Where the part that contents hands back starts, and how many rows it has.
#[repr(C)]
#[derive(Clone, Copy, Debug, Default, PartialEq, Eq)]
pub struct Part {
    pub refusal: u32,
    pub start: u32,
    pub rows: u32,
}

/// A call and its reply, as a journal has them. What the letter and the reply code don't need isn't looked at.
#[repr(C)]
#[derive(Clone, Copy, Debug, PartialEq, Eq)]
pub struct Record {
    pub letter: u8,
    pub operations: usize,
    pub arguments: [u32; RECORD_ARGUMENTS],
    pub code: u32,
    pub owners: u64,
    pub listed: usize,
    pub numbers: [u32; LIST],
}

impl Default for Record {
    fn default() -> Record {
        let (arguments, numbers) = ([0; RECORD_ARGUMENTS], [0; LIST]);
        Record { letter: 0, operations: 0, arguments, code: 0, owners: 0, listed: 0, numbers }
    }
}

/// A record's bytes.
#[repr(C)]
#[derive(Clone, Copy, Debug, PartialEq, Eq)]
pub struct Written {
    pub refusal: u32,
    pub count: usize,
    pub bytes: [u8; RECORD_BYTES],
}

impl Default for Written {
    fn default() -> Written {
        Written { refusal: 0, count: 0, bytes: [0; RECORD_BYTES] }
    }
}

/// What stands at a place of a journal.
#[repr(C)]
#[derive(Clone, Copy, Debug, Default, PartialEq, Eq)]
pub struct Reading {
    pub refusal: u32,
    pub found: u32,
    pub cause: u32,
    pub place: usize,
    pub record: Record,
}

/// How many records a journal has.
#[repr(C)]
#[derive(Clone, Copy, Debug, Default, PartialEq, Eq)]
pub struct Counted {
    pub refusal: u32,
    pub cause: u32,
    pub place: usize,
    pub records: usize,
}

mod linked {
    use super::{Accepted, Batched, Counted, Ended, Operated, Part, Reading, Record, Written};

    extern "C" {
        pub fn lending_desk_set_up(book: *mut u32, words: usize, kinds: *const u8, count: usize) -> Accepted;
        pub fn lending_desk_begin(book: *mut u32, words: usize, handout: u32) -> Accepted;
        pub fn lending_desk_operate(
            book: *mut u32,
            words: usize,
            handout: u32,
            object: u32,
            operation: u32,
            key: u32,
            value: u32,
        ) -> Operated;
        pub fn lending_desk_batch(
            book: *mut u32,
            words: usize,
            handout: u32,
            operations: *const u32,
            length: usize,
        ) -> Batched;
        pub fn lending_desk_finish(book: *mut u32, words: usize, handout: u32, list: *mut u8, length: usize) -> Ended;
        pub fn lending_desk_cancel(book: *mut u32, words: usize, handout: u32, list: *mut u8, length: usize) -> Ended;
        pub fn lending_desk_contents(book: *const u32, words: usize, object: u32) -> Part;
        pub fn lending_desk_write_record(record: Record) -> Written;
        pub fn lending_desk_next_record(bytes: *const u8, length: usize, at: usize) -> Reading;
        pub fn lending_desk_count_records(bytes: *const u8, length: usize) -> Counted;
    }
}

// The library asks nothing of its arguments but that a slice's words are there to be read and written, which a slice says by its type.

pub fn set_up(book: &mut [u32], kinds: &[u8]) -> Accepted {
    unsafe { linked::lending_desk_set_up(book.as_mut_ptr(), book.len(), kinds.as_ptr(), kinds.len()) }
}

pub fn begin(book: &mut [u32], handout: u32) -> Accepted {
    unsafe { linked::lending_desk_begin(book.as_mut_ptr(), book.len(), handout) }
}

pub fn operate(book: &mut [u32], handout: u32, object: u32, operation: u32, key: u32, value: u32) -> Operated {
    unsafe { linked::lending_desk_operate(book.as_mut_ptr(), book.len(), handout, object, operation, key, value) }
}

/// Four words an operation, in whatever number.
pub fn batch(book: &mut [u32], handout: u32, operations: &[u32]) -> Batched {
    let (words, length) = (operations.as_ptr(), operations.len());
    unsafe { linked::lending_desk_batch(book.as_mut_ptr(), book.len(), handout, words, length) }
}

pub fn finish(book: &mut [u32], handout: u32, list: &mut [u8]) -> Ended {
    unsafe { linked::lending_desk_finish(book.as_mut_ptr(), book.len(), handout, list.as_mut_ptr(), list.len()) }
}

pub fn cancel(book: &mut [u32], handout: u32, list: &mut [u8]) -> Ended {
    unsafe { linked::lending_desk_cancel(book.as_mut_ptr(), book.len(), handout, list.as_mut_ptr(), list.len()) }
}

pub fn contents(book: &[u32], object: u32) -> Part {
    unsafe { linked::lending_desk_contents(book.as_ptr(), book.len(), object) }
}

pub fn write_record(record: Record) -> Written {
    unsafe { linked::lending_desk_write_record(record) }
}

pub fn next_record(bytes: &[u8], at: usize) -> Reading {
    unsafe { linked::lending_desk_next_record(bytes.as_ptr(), bytes.len(), at) }
}

pub fn count_records(bytes: &[u8]) -> Counted {
    unsafe { linked::lending_desk_count_records(bytes.as_ptr(), bytes.len()) }
}
