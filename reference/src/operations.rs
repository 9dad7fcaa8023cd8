//! The kinds of object, their operations, and what an operation does to rows and is answered.

use crate::layout::ObjectWords;
use crate::rows::Rows;

/// What keys of sets and tables are reduced by: the eight bits above are the maker's mark.
const KEY_MODULUS: u32 = 1 << 24;

/// Operations that a batch may have.
pub const BATCH: usize = 16;

/// Words that an operation of a batch is lent as: object, operation, key or item, value.
pub const OPERATION_WORDS: usize = 4;

/// Whether words are operations of a batch: whole ones, and no more than it may have.
pub fn are_batch(words: &[u32]) -> bool {
    words.len() <= BATCH * OPERATION_WORDS && words.len() % OPERATION_WORDS == 0
}

/// A key of a set or table as rows and log hold it.
pub fn reduced(key: u32) -> u32 {
    key % KEY_MODULUS
}

/// The kind of an object that has one; the discriminant is the paper's number, and 0 is no kind.
#[derive(Clone, Copy, Debug, PartialEq, Eq)]
pub enum Kind {
    Stack = 1,
    Set = 2,
    Table = 3,
}

impl Kind {
    /// The highest number of a kind.
    pub const HIGHEST: u32 = Kind::Table as u32;

    pub fn from_number(number: u32) -> Option<Kind> {
        [Kind::Stack, Kind::Set, Kind::Table].into_iter().find(|&kind| kind as u32 == number)
    }

    fn first_operation(self) -> Operation {
        match self {
            Kind::Stack => Operation::Push,
            Kind::Set => Operation::SetInsert,
            Kind::Table => Operation::TableInsert,
        }
    }
}

/// An operation; the discriminant is the paper's number.
#[derive(Clone, Copy, Debug, PartialEq, Eq)]
pub enum Operation {
    Push = 1,
    Pop = 2,
    Top = 3,
    SetInsert = 4,
    SetDelete = 5,
    Member = 6,
    TableInsert = 7,
    TableDelete = 8,
    Lookup = 9,
    Size = 10,
    Modify = 11,
}

use Operation::*;

impl Operation {
    /// How many operations there are.
    pub const COUNT: usize = Operation::ALL.len();
    const ALL: [Operation; 11] =
        [Push, Pop, Top, SetInsert, SetDelete, Member, TableInsert, TableDelete, Lookup, Size, Modify];

    /// The most operations that a kind has.
    pub const MOST_OF_A_KIND: usize = 5;

    pub fn from_number(number: u32) -> Option<Operation> {
        Operation::ALL.get((number as usize).wrapping_sub(1)).copied()
    }

    pub const fn number(self) -> u32 {
        self as u32
    }

    pub fn kind(self) -> Kind {
        match self {
            Push | Pop | Top => Kind::Stack,
            SetInsert | SetDelete | Member => Kind::Set,
            TableInsert | TableDelete | Lookup | Size | Modify => Kind::Table,
        }
    }

    /// Its place among the operations of its kind.
    pub fn index(self) -> usize {
        self as usize - self.kind().first_operation() as usize
    }

    /// Whether it counts as a row that may come: pushes and inserts do, whatever they are answered.
    pub fn adds(self) -> bool {
        matches!(self, Push | SetInsert | TableInsert)
    }

    fn uses_key(self) -> bool {
        !matches!(self, Pop | Top | Size)
    }

    fn uses_value(self) -> bool {
        matches!(self, TableInsert | Modify)
    }
}

/// An operation with its arguments as the log holds them.
#[derive(Clone, Copy, Debug, PartialEq, Eq)]
pub struct Request {
    pub operation: Operation,
    /// Key or item.
    pub key: u32,
    pub value: u32,
}

/// What an operation is answered.
#[derive(Clone, Copy, Debug, PartialEq, Eq)]
pub struct Answer {
    pub code: u32,
    pub value: u32,
}

impl Answer {
    const YES: Answer = Answer { code: 1, value: 0 };
    pub(crate) const NO: Answer = Answer { code: 0, value: 0 };

    /// 1 and the value, or 0 0 where there is none.
    fn found(value: Option<u32>) -> Answer {
        value.map_or(Answer::NO, |value| Answer { code: 1, value })
    }

    fn done(done: bool) -> Answer {
        if done {
            Answer::YES
        } else {
            Answer::NO
        }
    }
}

impl Request {
    /// The request for any arguments: keys reduced, and 0 for what the operation doesn't use.
    pub fn new(operation: Operation, key: u32, value: u32) -> Request {
        let key = match (operation.uses_key(), operation.kind()) {
            (false, _) => 0,
            (true, Kind::Stack) => key,
            (true, Kind::Set | Kind::Table) => reduced(key),
        };
        Request { operation, key, value: if operation.uses_value() { value } else { 0 } }
    }

    /// Runs it on an object of its kind that has space for one row more if the operation adds.
    pub fn run(self, object: &mut ObjectWords) -> Answer {
        let Request { operation, key, value } = self;
        let mut rows = Rows::of(object);
        match operation {
            Push => {
                rows.insert(rows.count(), [key, 0]);
                Answer::YES
            }
            Pop => {
                let top = rows.last();
                rows.remove_last();
                Answer::found(top)
            }
            Top => Answer::found(rows.last()),
            SetInsert => {
                rows.add(key, 0);
                Answer::YES
            }
            TableInsert => Answer::done(rows.add(key, value)),
            SetDelete | TableDelete => Answer::done(rows.delete(key)),
            Member => Answer::done(rows.get(key).is_some()),
            Lookup => Answer::found(rows.get(key)),
            Size => Answer::found(Some(rows.count() as u32)),
            Modify => Answer::done(rows.replace(key, value)),
        }
    }
}
