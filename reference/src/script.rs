//! The script program: lines of calls in, lines of replies out.

use std::io::{self, BufWriter, ErrorKind, Read, Write};

use crate::call::Call;
use crate::journal::{self, Record};
use crate::layout::{OBJECTS, TRANSACTIONS, WORDS};
use crate::operations::{are_batch, BATCH, OPERATION_WORDS};
use crate::transactions::{members, TransactionSet};
use crate::{Answers, Outcome, Reply};

/// Bytes read or written at once.
const BLOCK: usize = 1 << 16;
/// Digits of a number, leading zeros among them.
const MOST_DIGITS: usize = 10;
/// The most numbers of a call: a transaction and the operations of a batch.
const MOST_NUMBERS: usize = 1 + BATCH * OPERATION_WORDS;
/// The longest line that is a call: `G` with so many numbers, each after a space.
const LONGEST_CALL: usize = 1 + MOST_NUMBERS * (1 + MOST_DIGITS);

/// The call that a line, without its line feed, stands for; none where it is `unread`.
pub fn parse(line: &[u8]) -> Option<Call> {
    let mut fields = line.split(|&byte| byte == b' ');
    match fields.next()? {
        b"S" => kinds(fields).map(|kinds| Call::SetUp { kinds }),
        b"B" => numbers(fields).map(|[transaction]| Call::Begin { transaction }),
        b"I" => numbers(fields).map(|[transaction, object, operation, key, value]| Call::Operate {
            transaction,
            object,
            operation,
            key,
            value,
        }),
        b"G" => batch(fields),
        b"F" => numbers(fields).map(|[transaction]| Call::Finish { transaction }),
        b"C" => numbers(fields).map(|[transaction]| Call::Cancel { transaction }),
        _ => None,
    }
}

/// Up to 16 kinds; the missing ones are 0.
fn kinds<'a>(fields: impl Iterator<Item = &'a [u8]>) -> Option<Vec<u8>> {
    let mut kinds = vec![0; OBJECTS];
    for (index, field) in fields.enumerate() {
        *kinds.get_mut(index)? = number(field)?.try_into().ok()?;
    }
    Some(kinds)
}

/// A transaction, and up to 16 operations of four numbers each.
fn batch<'a>(mut fields: impl Iterator<Item = &'a [u8]>) -> Option<Call> {
    let transaction = number(fields.next()?)?;
    let operations = fields.take(MOST_NUMBERS).map(number).collect::<Option<Vec<u32>>>()?;
    are_batch(&operations).then_some(Call::Batch { transaction, operations })
}

/// Exactly N numbers.
fn numbers<'a, const N: usize>(mut fields: impl Iterator<Item = &'a [u8]>) -> Option<[u32; N]> {
    let mut numbers = [0; N];
    for place in &mut numbers {
        *place = number(fields.next()?)?;
    }
    fields.next().is_none().then_some(numbers)
}

fn number(field: &[u8]) -> Option<u32> {
    if field.is_empty() || field.len() > MOST_DIGITS || !field.iter().all(u8::is_ascii_digit) {
        return None;
    }
    field.iter().fold(0, |number, digit| number * 10 + u64::from(digit - b'0')).try_into().ok()
}

/// Serves a whole script from a store of zeros: one line out for each line in. What was read is answered before more
/// is waited for.
pub fn run(mut input: impl Read, output: impl Write) -> io::Result<()> {
    let mut interpreter = Interpreter::new(output);
    let mut block = vec![0; BLOCK];
    loop {
        interpreter.output.flush()?;
        match input.read(&mut block) {
            Ok(0) => return interpreter.close(),
            Ok(length) => interpreter.take(&block[..length])?,
            Err(error) if error.kind() == ErrorKind::Interrupted => {}
            Err(error) => return Err(error),
        }
    }
}

/// Serves a whole script from a store of zeros and keeps a journal: what is printed, and the journal's bytes.
pub fn journalled(input: &[u8]) -> (Vec<u8>, Vec<u8>) {
    let (mut store, mut list) = ([0; WORDS], [0; TRANSACTIONS]);
    let (mut output, mut journal) = (Vec::new(), Vec::new());
    for line in input.split_inclusive(|&byte| byte == b'\n') {
        match parse(line.strip_suffix(b"\n").unwrap_or(line)) {
            Some(call) => {
                let outcome = call.serve(&mut store, &mut list);
                print(&mut output, outcome, &list).expect("a vector takes every write");
                if let Some(record) = Record::of(&call, outcome, &list) {
                    journal::write_into(&record, &mut journal).expect("the record of a served call is a good one");
                }
            }
            None => output.extend(b"unread\n"),
        }
    }
    (output, journal)
}

/// A store that answers bytes of a script.
struct Interpreter<W: Write> {
    store: [u32; WORDS],
    list: [u8; TRANSACTIONS],
    line: Line,
    output: BufWriter<W>,
}

impl<W: Write> Interpreter<W> {
    fn new(output: W) -> Interpreter<W> {
        Interpreter {
            store: [0; WORDS],
            list: [0; TRANSACTIONS],
            line: Line::new(),
            output: BufWriter::with_capacity(BLOCK, output),
        }
    }

    /// Answers the lines that end in the block, and keeps what comes after them.
    fn take(&mut self, block: &[u8]) -> io::Result<()> {
        for part in block.split_inclusive(|&byte| byte == b'\n') {
            match part.strip_suffix(b"\n") {
                None => self.line.extend(part),
                Some(line) if self.line.is_empty() => self.answer(line)?,
                Some(end) => {
                    self.line.extend(end);
                    self.answer_kept()?;
                }
            }
        }
        Ok(())
    }

    /// Answers the line that the end of the input ends, if there is one.
    fn close(mut self) -> io::Result<()> {
        if !self.line.is_empty() {
            self.answer_kept()?;
        }
        self.output.flush()
    }

    fn answer_kept(&mut self) -> io::Result<()> {
        let line = std::mem::replace(&mut self.line, Line::new());
        self.answer(line.bytes())
    }

    fn answer(&mut self, line: &[u8]) -> io::Result<()> {
        match parse(line) {
            Some(call) => {
                let outcome = call.serve(&mut self.store, &mut self.list);
                print(&mut self.output, outcome, &self.list)
            }
            None => self.output.write_all(b"unread\n"),
        }
    }
}

/// A line not yet ended: as much of it as tells whether it is too long for a call.
struct Line {
    bytes: [u8; LONGEST_CALL + 1],
    length: usize,
}

impl Line {
    fn new() -> Line {
        Line { bytes: [0; LONGEST_CALL + 1], length: 0 }
    }

    fn is_empty(&self) -> bool {
        self.length == 0
    }

    fn bytes(&self) -> &[u8] {
        &self.bytes[..self.length]
    }

    fn extend(&mut self, bytes: &[u8]) {
        let space = &mut self.bytes[self.length..];
        let taken = bytes.len().min(space.len());
        space[..taken].copy_from_slice(&bytes[..taken]);
        self.length += taken;
    }
}

/// Prints what a call says, with the transactions at the front of the list where the reply counts them.
fn print(output: &mut impl Write, outcome: Outcome, list: &[u8]) -> io::Result<()> {
    let (word, count) = match outcome {
        Err(refusal) => return writeln!(output, "refused {}", refusal.number()),
        Ok(Reply::Answer { code, value }) => return writeln!(output, "answer {code} {value}"),
        Ok(Reply::Answers(answers)) => return print_answers(output, &answers),
        Ok(Reply::Wait { owners, count }) => return print_wait(output, owners, count),
        Ok(Reply::Ok) => ("ok", 0),
        Ok(Reply::Finished) => ("finished", 0),
        Ok(Reply::Committed { count }) => ("committed", count),
        Ok(Reply::Circle { count }) => ("circle", count),
        Ok(Reply::Cancelled { count }) => ("cancelled", count),
    };
    output.write_all(word.as_bytes())?;
    for transaction in &list[..count] {
        write!(output, " {transaction}")?;
    }
    output.write_all(b"\n")
}

/// Prints the code and the value of each answer, all on one line.
fn print_answers(output: &mut impl Write, answers: &Answers) -> io::Result<()> {
    output.write_all(b"answer")?;
    answers.as_slice().iter().try_for_each(|answer| write!(output, " {} {}", answer.code, answer.value))?;
    output.write_all(b"\n")
}

/// Prints a wait with the number of owners, then the owners ascending.
fn print_wait(output: &mut impl Write, owners: TransactionSet, count: u32) -> io::Result<()> {
    write!(output, "wait {count}")?;
    members(owners).try_for_each(|owner| write!(output, " {owner}"))?;
    output.write_all(b"\n")
}
