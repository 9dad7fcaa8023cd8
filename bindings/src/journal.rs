//! A journal: the records of calls, each a call with its reply, as bytes one behind the other. `docs/JOURNAL.md` has its
//! format.
//!
//! Any bytes may be read: what is no record is told with its cause and its place.

use crate::raw;
use crate::{accepted, Answer, Refusal, OBJECTS, OPERATION_WORDS};

/// What is said to a record that has no bytes.
const BAD_RECORD: Refusal = Refusal(13);

/// A call and its reply. It can say more than a journal can: see [`write()`].
#[derive(Clone, Debug, PartialEq, Eq)]
pub struct Record {
    /// The call's in scripts: `S`, `B`, `I`, `G`, `F` or `C`.
    pub letter: u8,
    /// As in a script's line; a set up has all 16 kinds.
    pub arguments: Vec<u32>,
    pub reply: Reply,
}

/// The reply of a record.
#[derive(Clone, Debug, PartialEq, Eq)]
pub enum Reply {
    /// To set up and begin, for which a journal has none.
    Ok,
    /// For these handouts, as 64 bits: bit h is handout h.
    Wait { owners: u64 },
    /// One answer; to a batch, one for each operation.
    Answered(Vec<Answer>),
    /// To finish and cancel: the reply code, 2 finished, 3 committed, 4 circle, 5 cancelled; and the handouts that
    /// committed, in order.
    Ended { code: u32, list: Vec<u32> },
}

/// Bytes that are no record.
#[derive(Clone, Copy, Debug, PartialEq, Eq)]
pub struct Damage {
    pub cause: Cause,
    /// That of the letter or number that can't be read.
    pub place: usize,
}

/// Why bytes are no record, with the number that the header has for it.
#[derive(Clone, Copy, Debug, PartialEq, Eq, PartialOrd, Ord, Hash)]
pub enum Cause {
    /// They end inside it.
    Cut = 1,
    Letter,
    /// No call of the letter gives the reply code.
    Code,
    /// One is above 63, or not above the one before.
    Owners,
    /// Owners or handouts past 64.
    List,
    /// More than 16 operations.
    Batch,
    /// A number in more groups than it needs.
    LongForm,
    /// A number of more than 32 bits, or of more than five groups.
    Width,
}

/// The bytes of a record; or 13 for one that couldn't be read back: one with another letter, another number of
/// arguments or of answers than its letter has, more than 16 operations, a reply that no call of the letter gets, or a
/// list past 64.
pub fn write(record: &Record) -> Result<Vec<u8>, Refusal> {
    let lent = record.lent();
    if Record::of(&lent) != *record {
        return Err(BAD_RECORD); // the library would be lent another
    }
    let written = raw::write_record(lent);
    accepted(written.refusal)?;
    Ok(written.bytes[..written.count].to_vec())
}

/// The record that starts at a place, and the place behind it; none at the end, as which any place behind it counts.
pub fn next(bytes: &[u8], at: usize) -> Result<Option<(Record, usize)>, Damage> {
    let reading = raw::next_record(bytes, at);
    undamaged(reading.refusal, reading.cause, reading.place)?;
    Ok((reading.found == 1).then(|| (Record::of(&reading.record), reading.place)))
}

/// How many records the bytes are.
pub fn count(bytes: &[u8]) -> Result<usize, Damage> {
    let counted = raw::count_records(bytes);
    undamaged(counted.refusal, counted.cause, counted.place)?;
    Ok(counted.records)
}

/// The records of a journal in turn; behind those before it, damage, and then none.
pub fn records(bytes: &[u8]) -> Records<'_> {
    Records { bytes, at: 0 }
}

/// The records that are still to come.
#[derive(Clone, Debug)]
pub struct Records<'a> {
    bytes: &'a [u8],
    at: usize,
}

impl Iterator for Records<'_> {
    type Item = Result<Record, Damage>;

    fn next(&mut self) -> Option<Self::Item> {
        match next(self.bytes, self.at) {
            Ok(found) => found.map(|(record, behind)| {
                self.at = behind;
                Ok(record)
            }),
            Err(damage) => {
                self.at = self.bytes.len();
                Some(Err(damage))
            }
        }
    }
}

impl Record {
    /// As the library hands it over.
    fn of(lent: &raw::Record) -> Record {
        let operations = if lent.letter == b'G' { lent.operations } else { 1 };
        let arguments = match lent.letter {
            b'S' => OBJECTS,
            b'I' => 1 + OPERATION_WORDS,
            b'G' => operations.saturating_mul(OPERATION_WORDS).saturating_add(1),
            _ => 1,
        };
        let reply = match (lent.letter, lent.code) {
            (b'S' | b'B', _) => Reply::Ok,
            (_, 0) => Reply::Wait { owners: lent.owners },
            (_, 1) => {
                let answers = lent.numbers.chunks_exact(2).take(operations);
                Reply::Answered(answers.map(|pair| Answer { code: pair[0], value: pair[1] }).collect())
            }
            (_, code) => Reply::Ended { code, list: front(&lent.numbers, lent.listed) },
        };
        Record { letter: lent.letter, arguments: front(&lent.arguments, arguments), reply }
    }

    /// As the library is lent it; what there is no place for is left out.
    fn lent(&self) -> raw::Record {
        let operations = self.arguments.len().saturating_sub(1) / OPERATION_WORDS;
        let mut lent = raw::Record { letter: self.letter, operations, ..raw::Record::default() };
        fill(&mut lent.arguments, &self.arguments);
        match self.reply {
            Reply::Ok => {}
            Reply::Wait { owners } => lent.owners = owners,
            Reply::Answered(ref answers) => {
                let numbers: Vec<u32> = answers.iter().flat_map(|answer| [answer.code, answer.value]).collect();
                lent.code = 1;
                fill(&mut lent.numbers, &numbers);
            }
            Reply::Ended { code, ref list } => {
                lent.code = code;
                lent.listed = list.len();
                fill(&mut lent.numbers, list);
            }
        }
        lent
    }
}

/// So many of the numbers, or all.
fn front(numbers: &[u32], count: usize) -> Vec<u32> {
    numbers[..count.min(numbers.len())].to_vec()
}

/// Puts as many of the numbers as there are places for.
fn fill(places: &mut [u32], numbers: &[u32]) {
    places.iter_mut().zip(numbers).for_each(|(place, &number)| *place = number);
}

fn undamaged(refusal: u32, cause: u32, place: usize) -> Result<(), Damage> {
    accepted(refusal).map_err(|_| Damage { cause: Cause::of(cause), place })
}

impl Cause {
    fn of(number: u32) -> Cause {
        match number {
            1 => Cause::Cut,
            2 => Cause::Letter,
            3 => Cause::Code,
            4 => Cause::Owners,
            5 => Cause::List,
            6 => Cause::Batch,
            7 => Cause::LongForm,
            _ => Cause::Width,
        }
    }
}
