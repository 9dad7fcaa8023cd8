//! What the tests share: stores written word by word, schedulers led by transcripts, a generator of draws.

#![allow(dead_code)] // each test file uses a part

use std::fmt::Display;
use std::io::Read;

use reference::call::Call;
use reference::{calls, script, Outcome, Reply};

pub mod draws;
pub mod graph;
pub mod protocol;

pub const WORDS: usize = 3937;
pub const LOG: usize = 2145;
pub const LOG_LIMIT: usize = 256;
pub const ROW_LIMIT: usize = 64;
pub const LIST_LENGTH: usize = 64;
/// Operations that a batch may have.
pub const BATCH_LIMIT: usize = 16;
/// The least key that is not reduced.
pub const UNREDUCED: u32 = 16_777_216;
/// What lists hold before calls, to see which bytes are written.
pub const BLANK: u8 = 0xA5;
/// The paper's whole case.
pub const WHOLE_CASE: &str = include_str!("../../../examples/whole_case.txt");
/// Table 1 of section 4.2.1 of the article on recoverability: dependencies as its figure 6 may have them, 4 on 2, 2 on
/// 1, 1 on 5, 1 on 3 and 3 on 4, a stack for each; then the finishes in the table's order. Transaction 5 depends on
/// nobody and commits, where the table says P-C; the others do once 3 has aborted.
pub const TABLE_1: &str = include_str!("../../../examples/table_1.txt");

/// The paper's sample on two stacks, its items different, and the same with items that are equal on each.
pub const TWO_STACKS: &str = include_str!("../../../examples/two_stacks.txt");
pub const EQUAL_ITEMS: &str = include_str!("../../../examples/equal_items.txt");

pub type Entry = [u32; 7];

pub const fn status_word(transaction: usize) -> usize {
    1 + transaction
}

pub const fn kind_word(object: usize) -> usize {
    65 + 130 * object
}

pub const fn row_count_word(object: usize) -> usize {
    kind_word(object) + 1
}

pub const fn row_word(object: usize, row: usize) -> usize {
    kind_word(object) + 2 + 2 * row
}

pub const fn entry_word(entry: usize) -> usize {
    LOG + 7 * entry
}

/// A store written word by word as the paper lays it out, by no call.
#[derive(Clone)]
pub struct Store {
    pub words: Vec<u32>,
}

impl Store {
    pub fn zeros() -> Self {
        Store { words: vec![0; WORDS] }
    }

    pub fn of(kinds: &[u32]) -> Self {
        let mut store = Store::zeros();
        for (object, &kind) in kinds.iter().enumerate() {
            store.words[kind_word(object)] = kind;
        }
        store
    }

    pub fn word(mut self, index: usize, word: u32) -> Self {
        self.words[index] = word;
        self
    }

    pub fn active(self, transactions: &[usize]) -> Self {
        transactions.iter().fold(self, |store, &transaction| store.word(status_word(transaction), 1))
    }

    /// The transactions, ranked in the order given.
    pub fn pseudo_committed(self, transactions: &[usize]) -> Self {
        (2..).zip(transactions).fold(self, |store, (status, &transaction)| store.word(status_word(transaction), status))
    }

    pub fn rows(mut self, object: usize, rows: &[[u32; 2]]) -> Self {
        self.words[row_count_word(object)] = rows.len() as u32;
        let words = rows.concat();
        self.words[row_word(object, 0)..][..words.len()].copy_from_slice(&words);
        self
    }

    /// Enters `entries` after those that are there.
    pub fn log(mut self, entries: &[Entry]) -> Self {
        for entry in entries {
            let start = entry_word(self.words[0] as usize);
            self.words[start..start + 7].copy_from_slice(entry);
            self.words[0] += 1;
        }
        self
    }
}

/// Asserts that two stores are the same, and says where they differ without printing them whole.
pub fn assert_same_words(actual: &[u32], expected: &[u32]) {
    assert_eq!(actual.len(), expected.len(), "length of the store");
    let difference = (0..actual.len()).find(|&index| actual[index] != expected[index]);
    if let Some(index) = difference {
        panic!("word {index} is {} and should be {}", actual[index], expected[index]);
    }
}

/// The sixteen kinds that begin with those given.
pub fn sixteen(kinds: &[u8]) -> Vec<u8> {
    let mut sixteen = kinds.to_vec();
    sixteen.resize(16, 0);
    sixteen
}

/// The call of a well-formed script line.
pub fn call_of(line: &str) -> Call {
    let fields: Vec<u32> = line[1..].split_whitespace().map(|field| field.parse().expect(line)).collect();
    match (&line[..1], &fields[..]) {
        ("S", kinds) => Call::SetUp { kinds: sixteen(&kinds.iter().map(|&kind| kind as u8).collect::<Vec<_>>()) },
        ("B", &[transaction]) => Call::Begin { transaction },
        ("I", &[transaction, object, operation, key, value]) => {
            Call::Operate { transaction, object, operation, key, value }
        }
        ("G", &[transaction, ref operations @ ..]) => Call::Batch { transaction, operations: operations.to_vec() },
        ("F", &[transaction]) => Call::Finish { transaction },
        ("C", &[transaction]) => Call::Cancel { transaction },
        _ => panic!("no call: {line}"),
    }
}

/// A line that begins as given and ends with numbers.
pub fn with_numbers<T: Display>(line: &str, numbers: impl IntoIterator<Item = T>) -> String {
    numbers.into_iter().fold(line.to_string(), |line, number| format!("{line} {number}"))
}

/// The script line of a call.
pub fn line_of(call: &Call) -> String {
    match call {
        Call::SetUp { kinds } => with_numbers("S", kinds),
        Call::Begin { transaction } => format!("B {transaction}"),
        Call::Operate { transaction, object, operation, key, value } => {
            format!("I {transaction} {object} {operation} {key} {value}")
        }
        Call::Batch { transaction, operations } => with_numbers(&format!("G {transaction}"), operations),
        Call::Finish { transaction } => format!("F {transaction}"),
        Call::Cancel { transaction } => format!("C {transaction}"),
    }
}

/// What the script program prints for an outcome.
pub fn shown(outcome: Outcome, list: &[u8]) -> String {
    let with_list = |word: &str, count| with_numbers(word, &list[..count]);
    let members = |set: u64| (0..64).filter(move |transaction| set >> transaction & 1 == 1);
    match outcome {
        Ok(Reply::Ok) => "ok".to_string(),
        Ok(Reply::Answer { code, value }) => format!("answer {code} {value}"),
        Ok(Reply::Wait { owners, count }) => with_numbers(&format!("wait {count}"), members(owners)),
        Ok(Reply::Answers(answers)) => {
            with_numbers("answer", answers.as_slice().iter().flat_map(|answer| [answer.code, answer.value]))
        }
        Ok(Reply::Finished) => "finished".to_string(),
        Ok(Reply::Committed { count }) => with_list("committed", count),
        Ok(Reply::Circle { count }) => with_list("circle", count),
        Ok(Reply::Cancelled { count }) => with_list("cancelled", count),
        Err(refusal) => format!("refused {}", refusal.number()),
    }
}

/// The lines of a transcript written as in the paper: a call, two spaces or more, what is said to it.
pub fn transcript_lines(transcript: &str) -> impl Iterator<Item = (&str, &str)> {
    let lines = transcript.lines().map(str::trim).filter(|line| !line.is_empty());
    lines.map(|line| {
        let (call, reply) = line.split_once("  ").expect("a call and its reply");
        (call, reply.trim_start())
    })
}

/// The input and the output of a transcript.
pub fn columns(transcript: &str) -> (String, String) {
    transcript_lines(transcript).map(|(call, reply)| (format!("{call}\n"), format!("{reply}\n"))).unzip()
}

/// What the script program prints for an input.
pub fn printed(input: impl Read) -> String {
    let mut output = Vec::new();
    script::run(input, &mut output).expect("a vector takes every write");
    String::from_utf8(output).expect("replies are ASCII")
}

/// Asserts what the script program prints for a whole transcript.
pub fn assert_printed(transcript: &str) {
    let (input, expected) = columns(transcript);
    assert_eq!(printed(input.as_bytes()), expected);
}

/// A store and the list lent to finish and cancel.
pub struct Scheduler {
    pub store: Vec<u32>,
    pub list: Vec<u8>,
}

impl Scheduler {
    /// A scheduler set up with the kinds given, the missing ones 0.
    pub fn of(kinds: &[u8]) -> Self {
        let mut scheduler = Scheduler::on(Store::zeros());
        assert_eq!(calls::set_up(&mut scheduler.store, &sixteen(kinds)), Ok(Reply::Ok));
        scheduler
    }

    pub fn on(store: Store) -> Self {
        Scheduler { store: store.words, list: vec![BLANK; LIST_LENGTH] }
    }

    /// Makes the call of a script line and says what the script program would print.
    pub fn say(&mut self, line: &str) -> String {
        let outcome = call_of(line).serve(&mut self.store, &mut self.list);
        shown(outcome, &self.list)
    }

    /// Makes the calls of a transcript and asserts what is said to each.
    pub fn follow(&mut self, transcript: &str) {
        for (number, (line, reply)) in transcript_lines(transcript).enumerate() {
            assert_eq!(self.say(line), reply, "call {} of the transcript: {line}", number + 1);
        }
    }

    /// Has a transaction push items, or insert keys, until the object is full.
    pub fn fill_object(&mut self, transaction: usize, object: usize) {
        let operation = [1, 4, 7][self.store[kind_word(object)] as usize - 1];
        let full = |key| self.say(&format!("I {transaction} {object} {operation} {key} 0")) == "refused 11";
        assert!((0..=ROW_LIMIT).any(full), "more than {ROW_LIMIT} taken");
    }

    /// Has a transaction look at an object until the log is full.
    pub fn fill_log(&mut self, transaction: usize, object: usize) {
        let operation = [3, 6, 9][self.store[kind_word(object)] as usize - 1];
        for _ in self.store[0] as usize..LOG_LIMIT {
            let reply = self.say(&format!("I {transaction} {object} {operation} 9 0"));
            assert!(reply.starts_with("answer "), "{reply}");
        }
    }

    pub fn assert_store(&self, expected: &Store) {
        assert_same_words(&self.store, &expected.words);
    }
}
