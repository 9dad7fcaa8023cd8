//! A call with its arguments, for programs that keep or make up lists of calls.

use crate::{calls, Outcome};

/// A call that has a letter in scripts.
#[derive(Clone, Debug, PartialEq, Eq)]
pub enum Call {
    SetUp {
        kinds: Vec<u8>,
    },
    Begin {
        transaction: u32,
    },
    Operate {
        transaction: u32,
        object: u32,
        operation: u32,
        key: u32,
        value: u32,
    },
    /// The operations as words, four for each.
    Batch {
        transaction: u32,
        operations: Vec<u32>,
    },
    Finish {
        transaction: u32,
    },
    Cancel {
        transaction: u32,
    },
}

impl Call {
    /// Makes the call on `store`; finish and cancel are lent `list`.
    pub fn serve(&self, store: &mut [u32], list: &mut [u8]) -> Outcome {
        match *self {
            Call::SetUp { ref kinds } => calls::set_up(store, kinds),
            Call::Begin { transaction } => calls::begin(store, transaction),
            Call::Operate { transaction, object, operation, key, value } => {
                calls::operate(store, transaction, object, operation, key, value)
            }
            Call::Batch { transaction, ref operations } => calls::batch(store, transaction, operations),
            Call::Finish { transaction } => calls::finish(store, transaction, list),
            Call::Cancel { transaction } => calls::cancel(store, transaction, list),
        }
    }
}
