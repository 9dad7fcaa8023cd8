//! Records of a journal by the library and by the second implementation: written, read and counted, held to each other.

use lending_desk::raw;
use reference::journal::{self, Bad, Cause, Damage, Record, Said};

use crate::common::draws::Draws;
use crate::common::BATCH_LIMIT;
use crate::journal::reply;
use crate::tally::Tally;

/// Numbers at the edges of groups and of limits.
const EDGES: [u32; 18] =
    [0, 1, 2, 5, 15, 16, 63, 64, 65, 127, 128, 255, 16_383, 16_384, 1 << 21, (1 << 28) - 1, 1 << 28, u32::MAX];
/// What counts are beyond the places that there are for what is counted.
const BEYOND: [usize; 6] = [17, 64, 65, 255, 1 << 32, usize::MAX];

/// An implementation, in the numbers of the C interface.
#[derive(Clone, Copy)]
pub struct Library {
    pub write: fn(&raw::Record) -> raw::Written,
    pub next: fn(&[u8], usize) -> raw::Reading,
    pub count: fn(&[u8]) -> raw::Counted,
}

/// The proved library, through its C interface.
pub const PROVED: Library =
    Library { write: |record| raw::write_record(*record), next: raw::next_record, count: raw::count_records };

/// The second implementation.
pub const SECOND: Library = Library { write: write_second, next: next_second, count: count_second };

fn write_second(lent: &raw::Record) -> raw::Written {
    match journal::write(&record_of(lent)) {
        Ok(bytes) => {
            let mut written = raw::Written { count: bytes.len(), ..raw::Written::default() };
            written.bytes[..bytes.len()].copy_from_slice(&bytes);
            written
        }
        Err(Bad) => raw::Written { refusal: journal::ERROR, ..raw::Written::default() },
    }
}

fn next_second(bytes: &[u8], at: usize) -> raw::Reading {
    match journal::next(bytes, at) {
        Ok(Some((record, place))) => {
            raw::Reading { found: 1, place, record: lent_of(&record), ..raw::Reading::default() }
        }
        Ok(None) => raw::Reading::default(),
        Err(Damage { cause, at }) => {
            raw::Reading { refusal: journal::ERROR, cause: number(cause), place: at, ..raw::Reading::default() }
        }
    }
}

fn count_second(bytes: &[u8]) -> raw::Counted {
    match journal::read(bytes) {
        Ok(records) => raw::Counted { records: records.len(), ..raw::Counted::default() },
        Err(Damage { cause, at }) => {
            raw::Counted { refusal: journal::ERROR, cause: number(cause), place: at, records: 0 }
        }
    }
}

/// The causes in the order of the header's numbers, which begin with 1.
pub const CAUSES: [Cause; 8] =
    [Cause::Cut, Cause::Letter, Cause::Code, Cause::Owners, Cause::List, Cause::Batch, Cause::LongForm, Cause::Width];

fn number(cause: Cause) -> u32 {
    1 + CAUSES.iter().position(|&other| other == cause).expect("every cause is listed") as u32
}

// ---- The same record

/// So many of an array's numbers, 0 past its end; of very many, as many as are too many.
fn front(numbers: &[u32], count: usize) -> Vec<u32> {
    numbers.iter().copied().chain(std::iter::repeat(0)).take(count.min(2 * numbers.len())).collect()
}

/// The record that a struct is, whatever stands in the fields that its letter and reply code don't need.
pub fn record_of(lent: &raw::Record) -> Record {
    let operations = if lent.letter == b'G' { lent.operations.min(2 * BATCH_LIMIT) } else { 1 };
    let arguments = match lent.letter {
        b'S' => 16,
        b'I' => 5,
        b'G' => 1 + 4 * operations,
        _ => 1,
    };
    let said = match (lent.letter, lent.code) {
        (b'S' | b'B', _) => Said::Ok,
        (_, 0) => Said::Wait { owners: lent.owners },
        (_, 1) => Said::Answers(front(&lent.numbers, 2 * operations)),
        (_, code) => Said::Listed { code, list: front(&lent.numbers, lent.listed) },
    };
    Record { letter: lent.letter, arguments: front(&lent.arguments, arguments), said }
}

/// A struct that is a record which the reader takes.
fn lent_of(record: &Record) -> raw::Record {
    let mut lent = raw::Record { letter: record.letter, operations: 1, ..raw::Record::default() };
    lent.arguments[..record.arguments.len()].copy_from_slice(&record.arguments);
    if record.letter == b'G' {
        lent.operations = record.arguments.len() / 4;
    }
    let numbers: &[u32] = match record.said {
        Said::Ok => &[],
        Said::Wait { owners } => {
            lent.owners = owners;
            &[]
        }
        Said::Answers(ref answers) => {
            lent.code = 1;
            answers
        }
        Said::Listed { code, ref list } => {
            (lent.code, lent.listed) = (code, list.len());
            list
        }
    };
    lent.numbers[..numbers.len()].copy_from_slice(numbers);
    lent
}

// ---- Held to each other

fn same<T: PartialEq + std::fmt::Debug>(one: T, other: T, what: impl FnOnce() -> String) -> Result<(), String> {
    if one == other {
        Ok(())
    } else {
        Err(format!("{}: {one:?} and not {other:?}", what()))
    }
}

/// Writes a record by both, and reads what is written back by the first.
pub fn hold_written(libraries: [Library; 2], lent: &raw::Record, tally: &mut Tally) -> Result<Option<Vec<u8>>, String> {
    let [written, expected] = libraries.map(|library| (library.write)(lent));
    let record = record_of(lent);
    same(written, expected, || format!("written, {record:?}"))?;
    if written.refusal != 0 {
        tally.add(&cause_row(refused(lent)), 1);
        return Ok(None);
    }
    tally.add(&reply(&record), 1);
    let bytes = written.bytes[..written.count].to_vec();
    let reading = (libraries[0].next)(&bytes, 0);
    let read = (reading.refusal, reading.found, reading.place, record_of(&reading.record));
    same(read, (0, 1, bytes.len(), record), || format!("read back, {bytes:x?}"))?;
    Ok(Some(bytes))
}

/// Why a record has no bytes.
fn refused(lent: &raw::Record) -> Cause {
    match lent.letter {
        b'G' if lent.operations > BATCH_LIMIT => Cause::Batch,
        b'I' | b'G' => Cause::Code,
        b'F' if !(2..=4).contains(&lent.code) => Cause::Code,
        b'C' if lent.code != 5 => Cause::Code,
        b'F' | b'C' => Cause::List,
        _ => Cause::Letter,
    }
}

/// Reads the record at a place of any bytes by both: the place behind it, if there is one.
pub fn hold_read(libraries: [Library; 2], bytes: &[u8], at: usize, tally: &mut Tally) -> Result<Option<usize>, String> {
    let [reading, expected] = libraries.map(|library| (library.next)(bytes, at));
    let told = |reading: &raw::Reading| (reading.refusal, reading.found, reading.cause, reading.place);
    same(told(&reading), told(&expected), || format!("at byte {at}, {bytes:x?}"))?;
    if reading.refusal != 0 {
        tally.add(&cause_row(CAUSES[reading.cause as usize - 1]), 1);
        return Ok(None);
    }
    if reading.found == 0 {
        tally.add("end", 1);
        return Ok(None);
    }
    let record = record_of(&reading.record);
    same(&record, &record_of(&expected.record), || format!("at byte {at}, {bytes:x?}"))?;
    tally.add(&reply(&record), 1);
    Ok(Some(reading.place))
}

/// The row of a refusal with 13, by its cause.
pub fn cause_row(cause: Cause) -> String {
    format!("13, {cause:?}")
}

/// Reads bytes by both, record by record, and counts them.
pub fn hold_file(libraries: [Library; 2], bytes: &[u8], tally: &mut Tally) -> Result<(), String> {
    let mut at = 0;
    while let Some(behind) = hold_read(libraries, bytes, at, tally)? {
        at = behind;
    }
    let [counted, expected] = libraries.map(|library| (library.count)(bytes));
    same(counted, expected, || format!("counted, {bytes:x?}"))
}

// ---- Drawn at random

fn draw_number(draws: &mut Draws) -> u32 {
    match draws.below(4) {
        0 | 1 => draws.below(12) as u32,
        2 => draws.pick(&EDGES),
        _ => draws.word() >> draws.below(32),
    }
}

/// A struct of any numbers: mostly one that has bytes.
pub fn draw_lent(draws: &mut Draws) -> raw::Record {
    let letter = if draws.percent(95) { draws.pick(b"SBIIGGGFFFCC") } else { draws.word() as u8 };
    let mut lent = raw::Record { letter, ..raw::Record::default() };
    lent.arguments.iter_mut().for_each(|argument| *argument = draw_number(draws));
    lent.numbers.iter_mut().for_each(|number| *number = draw_number(draws));
    lent.operations = if draws.percent(90) { draws.below(BATCH_LIMIT + 1) } else { draws.pick(&BEYOND) };
    lent.listed = if draws.percent(90) { draws.pick(&[0, 1, 2, 3, 20, 63, 64]) } else { draws.pick(&BEYOND) };
    lent.owners = match draws.below(4) {
        0 => draws.pick(&[0, 1, 1 << 63, u64::MAX, u64::MAX - 1]),
        1 => 1 << draws.below(64) | 1 << draws.below(64),
        _ => u64::from(draws.word()) << 32 | u64::from(draws.word()),
    };
    lent.code = match letter {
        _ if draws.percent(8) => draw_number(draws),
        b'I' | b'G' => draws.below(2) as u32,
        b'F' => 2 + draws.below(3) as u32,
        b'C' => 5,
        _ => draw_number(draws),
    };
    lent
}

/// Bytes with one of them changed, left out or put in, or one more at the end.
pub fn draw_changed(draws: &mut Draws, bytes: &[u8]) -> Vec<u8> {
    let mut changed = bytes.to_vec();
    let at = draws.below(bytes.len());
    match draws.below(8) {
        0 => changed[at] ^= 1 << draws.below(8),
        1 => changed[at] ^= 0x80,
        2 => drop(changed.remove(at)),
        3 => changed.insert(at, draws.pick(&[0, 1, 0x40, 0x80, 0xFF])),
        4 => changed[at] = draws.pick(&[0, 1, 5, 6, 0x0F, 0x10, 0x11, 0x3F, 0x40, 0x41, 0x7F, 0x80]),
        5 => changed.push(draws.pick(b"SBIGFC\0\x80X")),
        _ => changed[at] = draws.word() as u8,
    }
    changed
}
