//! The serial history: kept from calls and replies alone, and served again from empty objects.
//!
//! The objects here are written straight from the paper's list of operations. They deliberately share nothing with
//! the library's replay, rules and soundness, so that one mistake cannot hide in both.

use std::collections::{btree_map, BTreeMap, BTreeSet};
use std::fmt;

use crate::call::Call;
use crate::layout::OBJECTS;
use crate::{Outcome, Reply};

/// Keys of sets and tables count by their remainder; what is above is the maker's mark.
const KEY_RANGE: u32 = 16_777_216;

/// An answer's code and value.
pub type Answer = (u32, u32);

const YES: Answer = (1, 0);
const NO: Answer = (0, 0);

fn yes_if(condition: bool) -> Answer {
    if condition {
        YES
    } else {
        NO
    }
}

/// An object without limits.
#[derive(Clone, Debug, PartialEq, Eq)]
enum Object {
    Absent,
    Stack(Vec<u32>),
    Set(BTreeSet<u32>),
    Table(BTreeMap<u32, u32>),
}

impl Object {
    fn empty(kind: u8) -> Self {
        match kind {
            1 => Object::Stack(Vec::new()),
            2 => Object::Set(BTreeSet::new()),
            3 => Object::Table(BTreeMap::new()),
            _ => Object::Absent,
        }
    }

    /// The key that `key` stands for, or the item itself.
    fn reduced(&self, key: u32) -> u32 {
        match self {
            Object::Set(_) | Object::Table(_) => key % KEY_RANGE,
            Object::Stack(_) | Object::Absent => key,
        }
    }

    /// Carries out an operation with a reduced key; none where objects of this kind know no such operation.
    fn serve(&mut self, operation: u32, key: u32, value: u32) -> Option<Answer> {
        match self {
            Object::Absent => None,
            Object::Stack(items) => serve_stack(items, operation, key),
            Object::Set(keys) => serve_set(keys, operation, key),
            Object::Table(rows) => serve_table(rows, operation, key, value),
        }
    }

    /// The rows as the book writes them, two words a row.
    fn rows(&self) -> Vec<u32> {
        match self {
            Object::Absent => Vec::new(),
            Object::Stack(items) => items.iter().flat_map(|&item| [item, 0]).collect(),
            Object::Set(keys) => keys.iter().flat_map(|&key| [key, 0]).collect(),
            Object::Table(rows) => rows.iter().flat_map(|(&key, &value)| [key, value]).collect(),
        }
    }
}

fn serve_stack(items: &mut Vec<u32>, operation: u32, item: u32) -> Option<Answer> {
    match operation {
        1 => {
            items.push(item);
            Some(YES)
        }
        2 => Some(items.pop().map_or(NO, |item| (1, item))),
        3 => Some(items.last().map_or(NO, |&item| (1, item))),
        _ => None,
    }
}

fn serve_set(keys: &mut BTreeSet<u32>, operation: u32, key: u32) -> Option<Answer> {
    match operation {
        4 => {
            keys.insert(key);
            Some(YES)
        }
        5 => Some(yes_if(keys.remove(&key))),
        6 => Some(yes_if(keys.contains(&key))),
        _ => None,
    }
}

fn serve_table(rows: &mut BTreeMap<u32, u32>, operation: u32, key: u32, value: u32) -> Option<Answer> {
    match operation {
        7 => match rows.entry(key) {
            btree_map::Entry::Vacant(place) => {
                place.insert(value);
                Some(YES)
            }
            btree_map::Entry::Occupied(_) => Some(NO),
        },
        8 => Some(yes_if(rows.remove(&key).is_some())),
        9 => Some(rows.get(&key).map_or(NO, |&value| (1, value))),
        10 => Some((1, rows.len() as u32)),
        11 => Some(match rows.get_mut(&key) {
            Some(place) => {
                *place = value;
                YES
            }
            None => NO,
        }),
        _ => None,
    }
}

/// The objects of a scheduler.
#[derive(Clone, Debug, PartialEq, Eq)]
pub struct Objects(Vec<Object>);

impl Objects {
    /// Empty objects of the kinds given; kinds that are missing or unknown are none.
    pub fn new(kinds: &[u8]) -> Self {
        Objects((0..OBJECTS).map(|object| Object::empty(kinds.get(object).copied().unwrap_or(0))).collect())
    }

    /// The object's rows as the book writes them, two words a row.
    pub fn rows(&self, object: u32) -> Vec<u32> {
        self.get(object).map_or_else(Vec::new, Object::rows)
    }

    /// Carries out an operation; none where the object's kind knows no such operation.
    pub fn serve(&mut self, object: u32, operation: u32, key: u32, value: u32) -> Option<Answer> {
        let object = self.0.get_mut(object as usize)?;
        object.serve(operation, object.reduced(key), value)
    }

    fn get(&self, object: u32) -> Option<&Object> {
        self.0.get(object as usize)
    }

    fn serve_again<'a>(&mut self, operations: impl Iterator<Item = &'a Answered>) -> Result<(), Altered> {
        for &answered in operations {
            let Answered { object, operation, key, value, answer, .. } = answered;
            let instead = self.serve(object, operation, key, value);
            if instead != Some(answer) {
                return Err(Altered { answered, instead });
            }
        }
        Ok(())
    }
}

/// An operation and the answer it was given.
#[derive(Clone, Copy, Debug, PartialEq, Eq)]
pub struct Answered {
    pub transaction: u32,
    pub object: u32,
    pub operation: u32,
    /// Reduced, where the object is a set or a table.
    pub key: u32,
    pub value: u32,
    pub answer: Answer,
}

/// An operation that gets another answer than it was given when served again.
#[derive(Clone, Copy, Debug, PartialEq, Eq)]
pub struct Altered {
    pub answered: Answered,
    /// None where the object's kind knows no such operation.
    pub instead: Option<Answer>,
}

impl fmt::Display for Altered {
    fn fmt(&self, f: &mut fmt::Formatter<'_>) -> fmt::Result {
        let Answered { transaction, object, operation, key, value, answer } = self.answered;
        write!(f, "I {transaction} {object} {operation} {key} {value} was answered {} {}, ", answer.0, answer.1)?;
        match self.instead {
            Some((code, value)) => write!(f, "but gets {code} {value}"),
            None => write!(f, "but the object knows no such operation"),
        }
    }
}

impl std::error::Error for Altered {}

/// What calls and their replies tell of a scheduler.
#[derive(Clone, Debug)]
pub struct History {
    empty: Objects,
    live: BTreeSet<u32>,
    /// Operations of live transactions, in the order answered.
    uncommitted: Vec<Answered>,
    /// Operations of committed transactions: one transaction after another in commit order, each one's in the order
    /// answered.
    committed: Vec<Answered>,
}

impl History {
    /// The history of a scheduler that was just set up.
    pub fn new(kinds: &[u8]) -> Self {
        History { empty: Objects::new(kinds), live: BTreeSet::new(), uncommitted: Vec::new(), committed: Vec::new() }
    }

    /// Enters a call, what it said, and the list it handed back.
    pub fn record(&mut self, call: &Call, outcome: Outcome, list: &[u8]) {
        let reply = match outcome {
            Ok(reply) => reply,
            Err(_) => return,
        };
        match (call, reply) {
            (Call::SetUp { kinds }, Reply::Ok) => *self = History::new(kinds),
            (&Call::Begin { transaction }, Reply::Ok) => {
                self.live.insert(transaction);
            }
            (&Call::Operate { transaction, object, operation, key, value }, Reply::Answer { code, value: given }) => {
                self.note(transaction, &[object, operation, key, value], (code, given));
            }
            (Call::Batch { transaction, operations }, Reply::Answers(answers)) => {
                for (words, answer) in operations.chunks(4).zip(answers.as_slice()) {
                    self.note(*transaction, words, (answer.code, answer.value));
                }
            }
            (Call::Finish { .. }, Reply::Committed { count }) => self.commit(list, count),
            (&Call::Finish { transaction }, Reply::Circle { count })
            | (&Call::Cancel { transaction }, Reply::Cancelled { count }) => {
                self.end(transaction);
                self.commit(list, count);
            }
            _ => {}
        }
    }

    /// The transactions begun and neither committed nor aborted.
    pub fn live(&self) -> &BTreeSet<u32> {
        &self.live
    }

    /// Serves the committed transactions alone, one after another in commit order, from empty objects.
    pub fn serve_committed(&self) -> Result<Objects, Altered> {
        let mut objects = self.empty.clone();
        objects.serve_again(self.committed.iter())?;
        Ok(objects)
    }

    /// Serves, once the committed transactions are served, the live ones that are not dropped.
    pub fn serve_dropping(&self, committed: &Objects, dropped: &BTreeSet<u32>) -> Result<(), Altered> {
        let kept = self.uncommitted.iter().filter(|operation| !dropped.contains(&operation.transaction));
        committed.clone().serve_again(kept)
    }

    /// Puts an operation, given as its words, last among those of live transactions.
    fn note(&mut self, transaction: u32, words: &[u32], answer: Answer) {
        if let [object, operation, key, value] = *words {
            let key = self.empty.get(object).map_or(key, |object| object.reduced(key));
            self.uncommitted.push(Answered { transaction, object, operation, key, value, answer });
        }
    }

    fn commit(&mut self, list: &[u8], count: usize) {
        for &transaction in list.iter().take(count) {
            let operations = self.end(u32::from(transaction));
            self.committed.extend(operations);
        }
    }

    /// Ends a transaction and takes its operations out of the live ones'.
    fn end(&mut self, transaction: u32) -> Vec<Answered> {
        self.live.remove(&transaction);
        let (own, others) = self.uncommitted.drain(..).partition(|operation| operation.transaction == transaction);
        self.uncommitted = others;
        own
    }
}
