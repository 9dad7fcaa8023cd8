//! The seven calls. Each tries its reasons for saying no in the paper's order, and writes nothing before the last.

use crate::ending::Ending;
use crate::layout::{self, Words, ENTRIES, KIND, OBJECTS, ROWS_START, ROW_COUNT, ROW_WORDS, TRANSACTIONS};
use crate::log::{self, Entry};
use crate::operations::{are_batch, Answer, Kind, Operation, Request, OPERATION_WORDS};
use crate::soundness::{Analysis, Traces};
use crate::transactions::{only, Status};
use crate::{Answers, Outcome, Refusal, Reply};

/// Writes an empty store over any contents.
pub fn set_up(store: &mut [u32], kinds: &[u8]) -> Outcome {
    let store = sized_mut(store)?;
    if kinds.len() != OBJECTS || kinds.iter().any(|&kind| u32::from(kind) > Kind::HIGHEST) {
        return Err(Refusal::Kinds);
    }
    store.fill(0);
    for (object, &kind) in kinds.iter().enumerate() {
        layout::object_mut(store, object)[KIND] = u32::from(kind);
    }
    Ok(Reply::Ok)
}

/// Opens a transaction.
pub fn begin(store: &mut [u32], transaction: u32) -> Outcome {
    let store = sized_mut(store)?;
    analysed(store)?;
    let status = layout::statuses_mut(store).get_mut(transaction as usize).ok_or(Refusal::TransactionNumber)?;
    if *status != Status::Absent.word() {
        return Err(Refusal::Live);
    }
    *status = Status::Active.word();
    Ok(Reply::Ok)
}

/// Answers an operation and enters it in the log, unless it must wait for other transactions to end.
pub fn operate(store: &mut [u32], transaction: u32, object: u32, operation: u32, key: u32, value: u32) -> Outcome {
    let store = sized_mut(store)?;
    let mut traces = Traces::none();
    let analysis = Analysis::with_traces(store, &mut traces).ok_or(Refusal::Unsound)?;
    let transaction = active(&analysis, numbered(transaction)?)?;
    let request = request(store, [object, operation, key, value])?;
    match answered(store, &mut traces, transaction, &[request])? {
        Reply::Answers(answers) => {
            let Answer { code, value } = answers.as_slice()[0];
            Ok(Reply::Answer { code, value })
        }
        wait => Ok(wait),
    }
}

/// Answers operations, lent as four words each, in order and enters them in the log, unless any of them must wait.
pub fn batch(store: &mut [u32], transaction: u32, operations: &[u32]) -> Outcome {
    let store = sized_mut(store)?;
    let mut traces = Traces::none();
    let analysis = Analysis::with_traces(store, &mut traces).ok_or(Refusal::Unsound)?;
    let transaction = numbered(transaction)?;
    if !are_batch(operations) {
        return Err(Refusal::Operations);
    }
    active(&analysis, transaction)?;
    let requests = requests(store, operations)?;
    answered(store, &mut traces, transaction, &requests)
}

/// Commits a transaction that depends on nobody, pseudo-commits one that does, and aborts one on a cycle.
pub fn finish(store: &mut [u32], transaction: u32, list: &mut [u8]) -> Outcome {
    let store = sized_mut(store)?;
    let list = long_enough(list)?;
    let analysis = analysed(store)?;
    let transaction = active(&analysis, numbered(transaction)?)?;
    let Analysis { statuses, dependencies } = &analysis;
    // Without it the pseudo-committed ones form no cycle, so with it every cycle runs through it.
    if dependencies.cyclic(statuses.pseudo_committed | only(transaction)) {
        return Ok(Reply::Circle { count: Ending::new(store, analysis, list).abort(transaction) });
    }
    if dependencies.of(transaction) == 0 {
        return Ok(Reply::Committed { count: Ending::new(store, analysis, list).commit(transaction) });
    }
    layout::statuses_mut(store)[transaction] = Status::PseudoCommitted { rank: statuses.next_rank() }.word();
    Ok(Reply::Finished)
}

/// Aborts a transaction.
pub fn cancel(store: &mut [u32], transaction: u32, list: &mut [u8]) -> Outcome {
    let store = sized_mut(store)?;
    let list = long_enough(list)?;
    let analysis = analysed(store)?;
    let transaction = active(&analysis, numbered(transaction)?)?;
    Ok(Reply::Cancelled { count: Ending::new(store, analysis, list).abort(transaction) })
}

/// The object's rows, two words each; empty where refused.
pub fn contents(store: &[u32], object: u32) -> &[u32] {
    rows(store, object).unwrap_or_default()
}

/// The number of rows that `contents` hands back, or why it hands back none.
pub fn contents_count(store: &[u32], object: u32) -> Result<usize, Refusal> {
    rows(store, object).map(|rows| rows.len() / ROW_WORDS)
}

fn rows(store: &[u32], object: u32) -> Result<&[u32], Refusal> {
    let store = <&Words>::try_from(store).map_err(|_| Refusal::StoreLength)?;
    analysed(store)?;
    let (object, _) = object_with_kind(store, object)?;
    let words = layout::object(store, object);
    Ok(&words[ROWS_START..][..words[ROW_COUNT] as usize * ROW_WORDS])
}

fn sized_mut(store: &mut [u32]) -> Result<&mut Words, Refusal> {
    store.try_into().map_err(|_| Refusal::StoreLength)
}

/// The part of a list that transactions may be written to: there is space for all of them.
fn long_enough(list: &mut [u8]) -> Result<&mut [u8], Refusal> {
    list.get_mut(..TRANSACTIONS).ok_or(Refusal::ListLength)
}

fn analysed(store: &Words) -> Result<Analysis, Refusal> {
    Analysis::of(store).ok_or(Refusal::Unsound)
}

/// A transaction's number that is in range.
fn numbered(transaction: u32) -> Result<usize, Refusal> {
    let transaction = transaction as usize;
    if transaction < TRANSACTIONS {
        Ok(transaction)
    } else {
        Err(Refusal::TransactionNumber)
    }
}

fn active(analysis: &Analysis, transaction: usize) -> Result<usize, Refusal> {
    if analysis.statuses.active & only(transaction) != 0 {
        Ok(transaction)
    } else {
        Err(Refusal::NotActive)
    }
}

/// The requests that words of whole operations stand for, each with its object; the first that is none refuses all.
fn requests(store: &Words, operations: &[u32]) -> Result<Vec<(usize, Request)>, Refusal> {
    let operations = operations.chunks_exact(OPERATION_WORDS);
    operations.map(|words| request(store, words.try_into().expect("words of one operation"))).collect()
}

fn request(store: &Words, words: [u32; OPERATION_WORDS]) -> Result<(usize, Request), Refusal> {
    let [object, operation, key, value] = words;
    let (object, kind) = object_with_kind(store, object)?;
    let operation = Operation::from_number(operation).filter(|operation| operation.kind() == kind);
    let operation = operation.ok_or(Refusal::Operation)?;
    Ok((object, Request::new(operation, key, value)))
}

/// An object that has a kind, and the kind.
fn object_with_kind(store: &Words, object: u32) -> Result<(usize, Kind), Refusal> {
    let object = object as usize;
    let number = if object < OBJECTS { layout::object(store, object)[KIND] } else { 0 };
    Kind::from_number(number).map(|kind| (object, kind)).ok_or(Refusal::Object)
}

/// Answers requests of an active transaction, each with its object, in order and enters them in the log, unless any
/// must wait. Inlined, so that a batch of one costs no more than an operation by itself.
#[inline(always)]
fn answered(store: &mut Words, traces: &mut Traces, transaction: usize, requests: &[(usize, Request)]) -> Outcome {
    if log::length(store) + requests.len() > ENTRIES {
        return Err(Refusal::LogFull);
    }
    let mut answers = Answers::none();
    traces.replays.reserve(requests.len());
    for &(object, request) in requests {
        let replay = traces.replays.of(store, object);
        if !replay.has_room_for(request.operation) {
            return Err(Refusal::RowsFull);
        }
        answers.push(replay.run(request));
    }
    // The traces are those of the log before them, so they don't wait for each other.
    let conflicting = |&(object, request)| traces.conflicting_owners(store, transaction, object, request);
    let owners = requests.iter().map(conflicting).fold(0, |owners, more| owners | more);
    if owners != 0 {
        return Ok(Reply::Wait { owners, count: owners.count_ones() });
    }
    for (&(object, request), &answer) in requests.iter().zip(answers.as_slice()) {
        log::push(store, &Entry { transaction, object, request, answer });
    }
    Ok(Reply::Answers(answers))
}
