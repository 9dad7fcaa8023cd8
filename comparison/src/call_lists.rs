//! Lists of calls to walk along: random scripts, some of them from a store that is full or has many live.

use reference::call::Call;

use crate::common::draws::Draws;
use crate::common::ROW_LIMIT;
use crate::drawing::{beside, draw, shuffled};
use crate::profiles::Profile;

/// A script's calls; in some lists, after the first, calls that fill objects or make many live.
pub fn call_list(draws: &mut Draws, profile: &Profile, seed: u64) -> Vec<Call> {
    let mut calls: Vec<Call> = draw(profile, seed).lines.into_iter().filter_map(|line| line.call).collect();
    if !calls.is_empty() {
        match draws.below(10) {
            0 => drop(calls.splice(1..1, filling(draws, profile.kinds))),
            1 => drop(calls.splice(1..1, crowding(draws, profile.kinds))),
            _ => {}
        }
    }
    calls
}

/// Calls that commit rows to some objects of these kinds until they are full, or nearly.
fn filling(draws: &mut Draws, kinds: &[u8]) -> Vec<Call> {
    let transaction = draws.below(64) as u32;
    let mut calls = Vec::new();
    for (object, &kind) in (0..).zip(kinds).filter(|&(_, &kind)| kind != 0).take(3) {
        let operation = [1, 4, 7][usize::from(kind) - 1];
        let insert = |key| Call::Operate { transaction, object, operation, key, value: key % 3 };
        calls.push(Call::Begin { transaction });
        calls.extend((0..ROW_LIMIT as u32 - draws.pick(&[0, 0, 1, 2, 5])).map(insert));
        calls.push(Call::Finish { transaction });
    }
    calls
}

/// Calls after which many are pseudo-committed that depend on one another, and on one that may end then.
fn crowding(draws: &mut Draws, kinds: &[u8]) -> Vec<Call> {
    let mut transactions = shuffled(draws, 0..64);
    transactions.truncate(draws.pick(&[3, 8, 32, 63, 64, 64]));
    let object = draws.below(kinds.len());
    let (first, second) = beside(kinds[object].into());
    let ring = kinds[object] > 1 && draws.percent(50);
    let operate = |transaction: u32, operation, key: usize| {
        let key = if kinds[object] > 1 { key as u32 } else { transaction };
        Call::Operate { transaction, object: object as u32, operation, key, value: transaction }
    };
    let mut calls: Vec<Call> = transactions.iter().map(|&transaction| Call::Begin { transaction }).collect();
    if ring {
        for (key, &transaction) in transactions.iter().enumerate() {
            let next = transactions[(key + 1) % transactions.len()];
            calls.extend([operate(transaction, first, key), operate(next, second, key)]);
        }
    } else {
        calls.push(operate(transactions[0], first, 1));
        calls.extend(transactions[1..].iter().map(|&transaction| operate(transaction, second, 1)));
    }
    let finishing = shuffled(draws, transactions[1..].iter().copied());
    calls.extend(finishing.into_iter().map(|transaction| Call::Finish { transaction }));
    let transaction = transactions[0];
    match draws.below(3) {
        0 => calls.push(Call::Finish { transaction }),
        1 => calls.push(Call::Cancel { transaction }),
        _ => {}
    }
    calls
}
