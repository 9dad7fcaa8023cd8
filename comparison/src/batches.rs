//! Batches beside their operations made alone.

use reference::{calls, Outcome, Refusal, Reply};

/// Words of an operation.
pub const OPERATION: usize = 4;

/// Whether a batch, made by the second implementation on this store, is over a limit or waits as none of its operations
/// does alone.
pub fn together(store: &[u32], transaction: u32, operations: &[u32], outcome: Outcome) -> bool {
    let alone = |words: &[u32]| {
        let (object, operation, key, value) = (words[0], words[1], words[2], words[3]);
        calls::operate(&mut store.to_vec(), transaction, object, operation, key, value)
    };
    matches!(outcome, Ok(Reply::Wait { .. }) | Err(Refusal::LogFull | Refusal::RowsFull))
        && operations.chunks_exact(OPERATION).all(|words| alone(words) != outcome)
}
