//! The protocol in the paper's words, read off a store in the plainest way: what must be said to a call.

use std::collections::BTreeSet;

use reference::call::Call;
use reference::rules::{commutes, recoverable};
use reference::soundness::sound;

use super::{
    entry_word, kind_word, row_count_word, status_word, with_numbers, Entry, BATCH_LIMIT, LIST_LENGTH, LOG_LIMIT,
    ROW_LIMIT, UNREDUCED, WORDS,
};

/// Pairs of transactions, the first of which depends on the second.
type Dependencies = BTreeSet<(u32, u32)>;

/// What the script program must print for a call on any store, but `answer` for every answer.
pub fn expected(store: &[u32], call: &Call, list_length: usize) -> String {
    let refusal = first_refusal(store, call, list_length);
    refusal.map_or_else(|| reply(store, call), |number| format!("refused {number}"))
}

fn first_refusal(store: &[u32], call: &Call, list_length: usize) -> Option<u32> {
    match *call {
        _ if store.len() != WORDS => Some(1),
        Call::Finish { .. } | Call::Cancel { .. } if list_length < LIST_LENGTH => Some(2),
        Call::SetUp { ref kinds } => (kinds.len() != 16 || kinds.iter().any(|&kind| kind > 3)).then_some(3),
        _ if !sound(store) => Some(4),
        Call::Begin { transaction } if transaction > 63 => Some(5),
        Call::Begin { transaction } => (status(store, transaction) != 0).then_some(6),
        Call::Finish { transaction } | Call::Cancel { transaction } => not_active(store, transaction),
        Call::Operate { transaction, object, operation, key, value } => {
            not_active(store, transaction).or_else(|| no_batch(store, &[object, operation, key, value]))
        }
        Call::Batch { transaction, .. } if transaction > 63 => Some(5),
        Call::Batch { ref operations, .. } if operations.len() > 4 * BATCH_LIMIT || operations.len() % 4 > 0 => {
            Some(12)
        }
        Call::Batch { transaction, ref operations } => {
            not_active(store, transaction).or_else(|| no_batch(store, operations))
        }
    }
}

/// What must be said to a call that is not refused.
fn reply(store: &[u32], call: &Call) -> String {
    match *call {
        Call::SetUp { .. } | Call::Begin { .. } => "ok".to_string(),
        Call::Operate { transaction, object, operation, key, value } => {
            answer_or_wait(store, transaction, &[object, operation, key, value])
        }
        Call::Batch { transaction, ref operations } => answer_or_wait(store, transaction, operations),
        Call::Finish { transaction } => finish(store, transaction),
        Call::Cancel { transaction } => with_numbers("cancelled", commits_after(store, transaction)),
    }
}

/// A batch waits if any of its operations would, owners joined.
fn answer_or_wait(store: &[u32], transaction: u32, operations: &[u32]) -> String {
    let mut owners = BTreeSet::new();
    for words in operations.chunks(4) {
        let (object, operation, key) = (words[0], words[1], words[2]);
        let request = (operation, if operation < 4 { key } else { key % UNREDUCED });
        owners.extend(owners_in_the_way(store, transaction, object, request));
    }
    if owners.is_empty() {
        "answer".to_string()
    } else {
        with_numbers(&format!("wait {}", owners.len()), owners)
    }
}

/// The other transactions with an entry on the object that the request isn't recoverable against, ascending.
fn owners_in_the_way(store: &[u32], transaction: u32, object: u32, request: (u32, u32)) -> Vec<u32> {
    let entries = entries_on(store, object);
    let forces_a_wait = |entry: &Entry| !recoverable(request, (entry[2], entry[3]));
    let in_the_way = |&other: &u32| entries.iter().any(|entry| entry[0] == other && forces_a_wait(entry));
    (0..64).filter(|&other| other != transaction).filter(in_the_way).collect()
}

fn finish(store: &[u32], transaction: u32) -> String {
    let dependencies = dependencies(store);
    let commits = commits_after(store, transaction);
    if on_circle(&dependencies, transaction, &pseudo_committed(store)) {
        with_numbers("circle", commits)
    } else if dependencies.iter().any(|&(dependent, _)| dependent == transaction) {
        "finished".to_string()
    } else {
        with_numbers("committed", [vec![transaction], commits].concat())
    }
}

fn not_active(store: &[u32], transaction: u32) -> Option<u32> {
    if transaction > 63 {
        Some(5)
    } else {
        (status(store, transaction) != 1).then_some(7)
    }
}

fn no_batch(store: &[u32], operations: &[u32]) -> Option<u32> {
    let own = operations.chunks(4).find_map(|words| no_operation(store, words[0], words[1]));
    let log_full = || (entries(store).count() + operations.len() / 4 > LOG_LIMIT).then_some(10);
    own.or_else(log_full).or_else(|| rows_full(store, operations).then_some(11))
}

fn no_operation(store: &[u32], object: u32, operation: u32) -> Option<u32> {
    let kind = if object > 15 { 0 } else { store[kind_word(object as usize)] };
    let operations = match kind {
        0 => return Some(8),
        1 => 1..=3,
        2 => 4..=6,
        _ => 7..=11,
    };
    (!operations.contains(&operation)).then_some(9)
}

/// Whether some push or insert finds the rows of its object, the logged pushes and inserts and those before it at 64.
fn rows_full(store: &[u32], operations: &[u32]) -> bool {
    let adds = |operation: u32| [1, 4, 7].contains(&operation);
    operations.chunks(4).enumerate().filter(|(_, words)| adds(words[1])).any(|(index, words)| {
        let rows = store[row_count_word(words[0] as usize)] as usize;
        let logged = entries_on(store, words[0]).iter().filter(|entry| adds(entry[2])).count();
        let before = operations.chunks(4).take(index).filter(|before| before[0] == words[0] && adds(before[1])).count();
        rows + logged + before >= ROW_LIMIT
    })
}

fn status(store: &[u32], transaction: u32) -> u32 {
    store[status_word(transaction as usize)]
}

fn entries(store: &[u32]) -> impl Iterator<Item = Entry> + '_ {
    (0..store[0] as usize).map(|entry| store[entry_word(entry)..entry_word(entry + 1)].try_into().expect("seven words"))
}

fn entries_on(store: &[u32], object: u32) -> Vec<Entry> {
    entries(store).filter(|entry| entry[1] == object).collect()
}

/// An entry's operation, key or item, and value.
fn operation(entry: &Entry) -> (u32, u32, u32) {
    (entry[2], entry[3], entry[4])
}

/// The pseudo-committed transactions, lowest rank first.
pub fn pseudo_committed(store: &[u32]) -> Vec<u32> {
    let mut transactions: Vec<u32> = (0..64).filter(|&transaction| status(store, transaction) > 1).collect();
    transactions.sort_by_key(|&transaction| status(store, transaction));
    transactions
}

fn dependencies(store: &[u32]) -> Dependencies {
    let mut dependencies = Dependencies::new();
    for object in 0..16 {
        let entries = entries_on(store, object);
        for (index, later) in entries.iter().enumerate() {
            let earlier = entries[..index].iter().filter(|earlier| earlier[0] != later[0]);
            let against = earlier.filter(|earlier| !commutes(operation(later), operation(earlier)));
            dependencies.extend(against.map(|earlier| (later[0], earlier[0])));
        }
    }
    dependencies
}

/// Whether a transaction lies on a circle of dependency whose other members are all pseudo-committed.
fn on_circle(dependencies: &Dependencies, transaction: u32, pseudo_committed: &[u32]) -> bool {
    let mut reached = BTreeSet::from([transaction]);
    loop {
        let steps = dependencies.iter().filter(|(dependent, on)| reached.contains(dependent) && !reached.contains(on));
        let next: Vec<u32> = steps.map(|&(_, on)| on).filter(|on| pseudo_committed.contains(on)).collect();
        if next.is_empty() {
            return dependencies.iter().any(|&(dependent, on)| on == transaction && reached.contains(&dependent));
        }
        reached.extend(next);
    }
}

/// Those that commit, in order, once a transaction has ended.
fn commits_after(store: &[u32], ended: u32) -> Vec<u32> {
    let mut dependencies = dependencies(store);
    dependencies.retain(|&(_, on)| on != ended);
    let mut waiting = pseudo_committed(store);
    let mut committed = Vec::new();
    let ready = |waiting: &[u32], dependencies: &Dependencies| {
        waiting.iter().position(|&transaction| dependencies.iter().all(|&(dependent, _)| dependent != transaction))
    };
    while let Some(place) = ready(&waiting, &dependencies) {
        let transaction = waiting.remove(place);
        dependencies.retain(|&(_, on)| on != transaction);
        committed.push(transaction);
    }
    committed
}
