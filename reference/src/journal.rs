//! The journal of the day: a record of each call that has a letter and isn't refused, with what was said to it.
//!
//! A file is records one after another and nothing else, so each list of records has one file. A record is its letter
//! as a byte, its arguments and, for all but set up and begin, a reply code with the reply. Every number is in groups
//! of seven bits, lowest first, the top bit set on all groups but the last, in the shortest form.

use std::fmt::Write;
use std::ops::RangeInclusive;

use crate::call::Call;
use crate::layout::{OBJECTS, TRANSACTIONS, WORDS};
use crate::operations::{are_batch, BATCH, OPERATION_WORDS};
use crate::transactions::{members, only};
use crate::{Outcome, Reply};

/// The paper's number of what writer and reader say to a record that is none.
pub const ERROR: u32 = 13;

/// Reply codes.
const WAIT: u32 = 0;
const ANSWERED: u32 = 1;
const FINISHED: u32 = 2;
const COMMITTED: u32 = 3;
const CIRCLE: u32 = 4;
const CANCELLED: u32 = 5;

/// Numbers that an operation has as arguments, its transaction among them, and those of an answer.
const OPERATE_NUMBERS: usize = 1 + OPERATION_WORDS;
const ANSWER_NUMBERS: usize = 2;
/// The most transactions that a list has.
const LISTED: usize = 64;

/// Bits of a group, the bit that says that another group follows, and the most groups of a number.
const GROUP_BITS: usize = 7;
const MORE: u8 = 1 << GROUP_BITS;
const GROUPS: usize = 5;

/// A call and what was said to it. It can say more than a file can: see [`write()`].
#[derive(Clone, Debug, PartialEq, Eq)]
pub struct Record {
    pub letter: u8,
    /// As the script's line has them; a set up's are all 16 kinds.
    pub arguments: Vec<u32>,
    pub said: Said,
}

/// What was said to a call.
#[derive(Clone, Debug, PartialEq, Eq)]
pub enum Said {
    /// To set up and begin, for which a file has nothing.
    Ok,
    /// The owners waited for, one bit each.
    Wait { owners: u64 },
    /// Code and value of each answer.
    Answers(Vec<u32>),
    /// Any other reply code, and the transactions listed.
    Listed { code: u32, list: Vec<u32> },
}

/// Said of a record that the reader would turn away.
#[derive(Clone, Copy, Debug, PartialEq, Eq)]
pub struct Bad;

/// Why bytes are no record.
#[derive(Clone, Copy, Debug, PartialEq, Eq, PartialOrd, Ord, Hash)]
pub enum Cause {
    /// The bytes end inside the record.
    Cut,
    Letter,
    /// A reply code that no call of the letter gives.
    Code,
    /// An owner above 63 or not above the one before.
    Owners,
    /// A list, or a wait's owners, past 64.
    List,
    /// A batch past 16 operations.
    Batch,
    /// A number with a last group that isn't needed.
    LongForm,
    /// A number past 32 bits, or past five groups.
    Width,
}

/// Bytes that are no record, and where the letter or the number stands that cannot be read.
#[derive(Clone, Copy, Debug, PartialEq, Eq)]
pub struct Damage {
    pub cause: Cause,
    pub at: usize,
}

impl Record {
    /// The record of a call that was just made, with the list it handed back; a refused call has none.
    pub fn of(call: &Call, outcome: Outcome, list: &[u8]) -> Option<Record> {
        let said = Said::of(outcome.ok()?, list);
        let (letter, arguments) = match *call {
            Call::SetUp { ref kinds } => (b'S', numbers_of(kinds)),
            Call::Begin { transaction } => (b'B', vec![transaction]),
            Call::Operate { transaction, object, operation, key, value } => {
                (b'I', vec![transaction, object, operation, key, value])
            }
            Call::Batch { transaction, ref operations } => (b'G', [&[transaction][..], operations].concat()),
            Call::Finish { transaction } => (b'F', vec![transaction]),
            Call::Cancel { transaction } => (b'C', vec![transaction]),
        };
        Some(Record { letter, arguments, said })
    }

    /// The call that it is the record of; none where no call has such a letter and such arguments.
    pub fn call(&self) -> Option<Call> {
        Some(match (self.letter, &self.arguments[..]) {
            (b'S', kinds) => {
                Call::SetUp { kinds: kinds.iter().map(|&kind| kind.try_into().ok()).collect::<Option<_>>()? }
            }
            (b'B', &[transaction]) => Call::Begin { transaction },
            (b'I', &[transaction, object, operation, key, value]) => {
                Call::Operate { transaction, object, operation, key, value }
            }
            (b'G', &[transaction, ref operations @ ..]) => Call::Batch { transaction, operations: operations.to_vec() },
            (b'F', &[transaction]) => Call::Finish { transaction },
            (b'C', &[transaction]) => Call::Cancel { transaction },
            _ => return None,
        })
    }

    /// Whether a file can say it, and so the reader takes what is written.
    fn is_readable(&self) -> bool {
        let Record { letter, arguments, said } = self;
        let arguments_fit = match letter {
            b'S' => arguments.len() == OBJECTS,
            b'B' | b'F' | b'C' => arguments.len() == 1,
            b'I' => arguments.len() == OPERATE_NUMBERS,
            b'G' => arguments.get(1..).map_or(false, are_batch),
            _ => false,
        };
        let said_fits = match (letter, said) {
            (b'S' | b'B', Said::Ok) | (b'I' | b'G', Said::Wait { .. }) => true,
            (b'I' | b'G', Said::Answers(answers)) => answers.len() == operations_in(arguments) * ANSWER_NUMBERS,
            (b'F', Said::Listed { code: FINISHED..=CIRCLE, list }) => list.len() <= LISTED,
            (b'C', Said::Listed { code: CANCELLED, list }) => list.len() <= LISTED,
            _ => false,
        };
        arguments_fit && said_fits
    }

    /// Bytes that are enough for it, were each of its numbers as long as a number can be.
    fn most_bytes(&self) -> usize {
        let said = match &self.said {
            Said::Ok => 0,
            Said::Wait { owners } => owners.count_ones() as usize,
            Said::Answers(numbers) | Said::Listed { list: numbers, .. } => numbers.len(),
        };
        let counts_and_code = 3;
        1 + GROUPS * (self.arguments.len() + said + counts_and_code)
    }
}

impl Said {
    fn of(reply: Reply, list: &[u8]) -> Said {
        let listed = |code, count| Said::Listed { code, list: numbers_of(&list[..count]) };
        match reply {
            Reply::Ok => Said::Ok,
            Reply::Answer { code, value } => Said::Answers(vec![code, value]),
            Reply::Answers(answers) => {
                Said::Answers(answers.as_slice().iter().flat_map(|answer| [answer.code, answer.value]).collect())
            }
            Reply::Wait { owners, .. } => Said::Wait { owners },
            Reply::Finished => listed(FINISHED, 0),
            Reply::Committed { count } => listed(COMMITTED, count),
            Reply::Circle { count } => listed(CIRCLE, count),
            Reply::Cancelled { count } => listed(CANCELLED, count),
        }
    }
}

/// Operations among the arguments of an operation or a batch: four numbers each, after the transaction.
fn operations_in(arguments: &[u32]) -> usize {
    arguments.len() / OPERATION_WORDS
}

fn numbers_of(bytes: &[u8]) -> Vec<u32> {
    bytes.iter().copied().map(u32::from).collect()
}

/// The bytes of a record.
pub fn write(record: &Record) -> Result<Vec<u8>, Bad> {
    let mut bytes = Vec::new();
    write_into(record, &mut bytes)?;
    Ok(bytes)
}

/// Writes a record after what is there; nothing where it is bad.
pub fn write_into(record: &Record, bytes: &mut Vec<u8>) -> Result<(), Bad> {
    if !record.is_readable() {
        return Err(Bad);
    }
    bytes.reserve(record.most_bytes());
    bytes.push(record.letter);
    let (transaction, rest) = record.arguments.split_at(1);
    put_all(bytes, transaction);
    if record.letter == b'G' {
        put(bytes, operations_in(&record.arguments) as u32);
    }
    put_all(bytes, rest);
    match record.said {
        Said::Ok => {}
        Said::Wait { owners } => {
            put_all(bytes, &[WAIT, owners.count_ones()]);
            members(owners).for_each(|owner| put(bytes, owner as u32));
        }
        Said::Answers(ref answers) => {
            put(bytes, ANSWERED);
            put_all(bytes, answers);
        }
        Said::Listed { code, ref list } => {
            put_all(bytes, &[code, list.len() as u32]);
            put_all(bytes, list);
        }
    }
    Ok(())
}

fn put_all(bytes: &mut Vec<u8>, numbers: &[u32]) {
    numbers.iter().for_each(|&number| put(bytes, number));
}

fn put(bytes: &mut Vec<u8>, number: u32) {
    let mut left = number;
    while left >= u32::from(MORE) {
        bytes.push(left as u8 | MORE);
        left >>= GROUP_BITS;
    }
    bytes.push(left as u8);
}

/// All the records of a file.
pub fn read(bytes: &[u8]) -> Result<Vec<Record>, Damage> {
    let mut records = Vec::new();
    let mut at = 0;
    while let Some((record, end)) = next(bytes, at)? {
        records.push(record);
        at = end;
    }
    Ok(records)
}

/// The record that starts at a place, and the place behind it; none at the end, as which any place beyond it counts.
pub fn next(bytes: &[u8], at: usize) -> Result<Option<(Record, usize)>, Damage> {
    match bytes.get(at) {
        None => Ok(None),
        Some(&letter) => {
            let mut reader = Reader { bytes, at: at + 1 };
            let record = reader.record(letter)?;
            Ok(Some((record, reader.at)))
        }
    }
}

/// Bytes, and the place of the next that is to be read.
struct Reader<'a> {
    bytes: &'a [u8],
    at: usize,
}

impl Reader<'_> {
    /// The record of a letter that has just been read.
    fn record(&mut self, letter: u8) -> Result<Record, Damage> {
        let arguments = match letter {
            b'S' => self.numbers(OBJECTS)?,
            b'B' | b'F' | b'C' => self.numbers(1)?,
            b'I' => self.numbers(OPERATE_NUMBERS)?,
            b'G' => self.batch()?,
            _ => return Err(Damage { cause: Cause::Letter, at: self.at - 1 }),
        };
        let said = match letter {
            b'I' | b'G' => self.answers(operations_in(&arguments))?,
            b'F' => self.listed(FINISHED..=CIRCLE)?,
            b'C' => self.listed(CANCELLED..=CANCELLED)?,
            _ => Said::Ok,
        };
        Ok(Record { letter, arguments, said })
    }

    /// A batch's arguments, without the count of its operations.
    fn batch(&mut self) -> Result<Vec<u32>, Damage> {
        let transaction = self.number()?;
        let words = self.count(BATCH, Cause::Batch)? * OPERATION_WORDS;
        let mut arguments = Vec::with_capacity(1 + words);
        arguments.push(transaction);
        self.numbers_into(&mut arguments, words)?;
        Ok(arguments)
    }

    /// A reply code, and what was said to so many operations.
    fn answers(&mut self, operations: usize) -> Result<Said, Damage> {
        match self.number_in(WAIT..=ANSWERED, Cause::Code)? {
            WAIT => Ok(Said::Wait { owners: self.owners()? }),
            _ => Ok(Said::Answers(self.numbers(operations * ANSWER_NUMBERS)?)),
        }
    }

    fn owners(&mut self) -> Result<u64, Damage> {
        let count = self.count(LISTED, Cause::List)?;
        let (mut owners, mut least) = (0, 0);
        for _ in 0..count {
            let owner = self.number_in(least..=TRANSACTIONS as u32 - 1, Cause::Owners)?;
            owners |= only(owner as usize);
            least = owner + 1;
        }
        Ok(owners)
    }

    /// One of these reply codes, and a list.
    fn listed(&mut self, codes: RangeInclusive<u32>) -> Result<Said, Damage> {
        let code = self.number_in(codes, Cause::Code)?;
        let count = self.count(LISTED, Cause::List)?;
        Ok(Said::Listed { code, list: self.numbers(count)? })
    }

    fn numbers(&mut self, count: usize) -> Result<Vec<u32>, Damage> {
        let mut numbers = Vec::with_capacity(count);
        self.numbers_into(&mut numbers, count)?;
        Ok(numbers)
    }

    fn numbers_into(&mut self, numbers: &mut Vec<u32>, count: usize) -> Result<(), Damage> {
        for _ in 0..count {
            numbers.push(self.number()?);
        }
        Ok(())
    }

    fn count(&mut self, most: usize, cause: Cause) -> Result<usize, Damage> {
        self.number_in(0..=most as u32, cause).map(|count| count as usize)
    }

    /// A number in a range; any other is damage of that cause.
    fn number_in(&mut self, range: RangeInclusive<u32>, cause: Cause) -> Result<u32, Damage> {
        let at = self.at;
        let number = self.number()?;
        if range.contains(&number) {
            Ok(number)
        } else {
            Err(Damage { cause, at })
        }
    }

    #[inline]
    fn number(&mut self) -> Result<u32, Damage> {
        match self.bytes.get(self.at) {
            Some(&group) if group < MORE => {
                self.at += 1;
                Ok(group.into())
            }
            _ => self.long_number(),
        }
    }

    /// A number of several groups, or one that is cut before its first.
    fn long_number(&mut self) -> Result<u32, Damage> {
        let at = self.at;
        let damage = |cause| Damage { cause, at };
        let mut number: u64 = 0;
        for (index, &group) in self.bytes[at..].iter().take(GROUPS).enumerate() {
            number |= u64::from(group & !MORE) << (index * GROUP_BITS);
            if group == 0 {
                return Err(damage(Cause::LongForm));
            }
            if group < MORE {
                self.at = at + index + 1;
                return number.try_into().map_err(|_| damage(Cause::Width));
            }
        }
        let cut = self.bytes.len() - at < GROUPS;
        Err(damage(if cut { Cause::Cut } else { Cause::Width }))
    }
}

/// The script's line of a record, a tab, and what the script prints to it. A code that no call gives has no word and
/// shows as its number.
pub fn line(record: &Record) -> String {
    let mut line = String::from(char::from(record.letter));
    spell(&mut line, record.arguments.iter().copied());
    line.push('\t');
    match record.said {
        Said::Ok => line.push_str("ok"),
        Said::Wait { owners } => {
            line.push_str("wait");
            spell(&mut line, [owners.count_ones()].into_iter().chain(members(owners).map(|owner| owner as u32)));
        }
        Said::Answers(ref answers) => {
            line.push_str("answer");
            spell(&mut line, answers.iter().copied());
        }
        Said::Listed { code, ref list } => {
            match code {
                FINISHED => line.push_str("finished"),
                COMMITTED => line.push_str("committed"),
                CIRCLE => line.push_str("circle"),
                CANCELLED => line.push_str("cancelled"),
                _ => line.push_str(&code.to_string()),
            }
            spell(&mut line, list.iter().copied());
        }
    }
    line
}

/// Adds numbers to a line, each after a space.
fn spell(line: &mut String, numbers: impl Iterator<Item = u32>) {
    for number in numbers {
        write!(line, " {number}").expect("a string takes every write");
    }
}

/// What a journal served again gives.
#[derive(Clone, Debug, PartialEq, Eq)]
pub struct Resumed {
    /// The store after the whole records.
    pub store: Vec<u32>,
    /// The bytes that they take.
    pub length: usize,
    /// Whether a cut record follows.
    pub cut: bool,
}

/// Why a journal can't be served again; what comes first in it is told.
#[derive(Clone, Copy, Debug, PartialEq, Eq)]
pub enum Unserved {
    /// The record that starts there isn't that of its call as served again.
    Differs {
        at: usize,
    },
    Damaged(Damage),
}

/// Serves a journal again from a store of zeros, up to its end or a cut record.
pub fn resume(bytes: &[u8]) -> Result<Resumed, Unserved> {
    let mut resumed = Resumed { store: vec![0; WORDS], length: 0, cut: false };
    loop {
        let at = resumed.length;
        match next(bytes, at) {
            Ok(None) => return Ok(resumed),
            Ok(Some((record, end))) if served_again(&mut resumed.store, &record) => resumed.length = end,
            Ok(Some(_)) => return Err(Unserved::Differs { at }),
            Err(Damage { cause: Cause::Cut, .. }) => return Ok(Resumed { cut: true, ..resumed }),
            Err(damage) => return Err(Unserved::Damaged(damage)),
        }
    }
}

/// Makes the call of a record, and says whether its record is the same.
fn served_again(store: &mut [u32], record: &Record) -> bool {
    let mut list = [0; TRANSACTIONS];
    let again = record.call().and_then(|call| Record::of(&call, call.serve(store, &mut list), &list));
    again.as_ref() == Some(record)
}
