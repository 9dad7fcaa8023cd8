//! The pair rules: as the paper lists them, as it defines them, and as the calls go by them.

mod common;

use common::{assert_same_words, entry_word, status_word, Scheduler};
use reference::history::{Answer, Objects};
use reference::rules::{commutes, recoverable};
use reference::soundness::sound;

/// A kind's pair rules in the paper's words: a row for each requested operation, a letter for each logged one, both
/// in the order of their numbers; `y` always, `n` never, `a` where the keys are apart, `e` where the items are equal,
/// `v` where the keys are apart or the values equal.
struct Listed {
    kind: u8,
    first: u32,
    recoverable: &'static [&'static str],
    commuting: &'static [&'static str],
}

const LISTED: [Listed; 3] = [
    Listed { kind: 1, first: 1, recoverable: &["yyy", "nny", "nny"], commuting: &["enn", "nnn", "nny"] },
    Listed { kind: 2, first: 4, recoverable: &["yyy", "aay", "aay"], commuting: &["yaa", "aaa", "aay"] },
    Listed {
        kind: 3,
        first: 7,
        recoverable: &["aayyy", "aayyy", "aayya", "nnyyy", "aayyy"],
        commuting: &["aaana", "aaana", "aayya", "nnyyy", "aaayv"],
    },
];

/// An operation, its key or item, and its value.
type Operation = (u32, u32, u32);

/// A requested operation and a logged one, and what the paper's lists say of them.
struct Pair {
    kind: u8,
    requested: Operation,
    logged: Operation,
    recoverable: bool,
    commuting: bool,
}

/// The keys or items and the values that operations have.
const ARGUMENTS: [(u32, u32); 4] = [(5, 3), (5, 4), (6, 3), (6, 4)];

/// Every pair of operations of one kind, with equal keys and with keys apart, with equal values and with others.
fn pairs() -> Vec<Pair> {
    let mut pairs = Vec::new();
    for Listed { kind, first, recoverable, commuting } in LISTED {
        let numbers = (first..).take(recoverable.len());
        let operations = numbers.flat_map(|number| ARGUMENTS.map(|(key, value)| (number, key, value)));
        let operations: Vec<Operation> = operations.collect();
        let said = |lists: &[&str], (requested, key, value): Operation, logged: Operation| match lists
            [(requested - first) as usize]
            .as_bytes()[(logged.0 - first) as usize]
        {
            b'y' => true,
            b'a' => key != logged.1,
            b'e' => key == logged.1,
            b'v' => key != logged.1 || value == logged.2,
            _ => false,
        };
        for &requested in &operations {
            pairs.extend(operations.iter().map(|&logged| Pair {
                kind,
                requested,
                logged,
                recoverable: said(recoverable, requested, logged),
                commuting: said(commuting, requested, logged),
            }));
        }
    }
    pairs
}

/// An operation as `recoverable` takes it.
fn without_value((operation, key, _): Operation) -> (u32, u32) {
    (operation, key)
}

#[test]
fn every_pair_is_as_listed() {
    for Pair { requested, logged, recoverable: recovers, commuting, .. } in pairs() {
        let recoverable = recoverable(without_value(requested), without_value(logged));
        assert_eq!(recoverable, recovers, "recoverable: {requested:?} against {logged:?}");
        assert_eq!(commutes(requested, logged), commuting, "commuting: {requested:?} and {logged:?}");
    }
}

/// The states of an object that up to three pushes or inserts reach.
fn states(kind: u8) -> Vec<Objects> {
    let operation = [1, 4, 7][usize::from(kind) - 1];
    let grown = |state: &Objects| ARGUMENTS.map(|(key, value)| served(state.clone(), (operation, key, value)).1);
    let mut states = vec![Objects::new(&[kind])];
    let mut newest = states.clone();
    for _ in 0..3 {
        newest = newest.iter().flat_map(grown).collect();
        states.extend(newest.iter().cloned());
    }
    states
}

/// An operation's answer in a state, and the state after it.
fn served(mut state: Objects, (operation, key, value): Operation) -> (Answer, Objects) {
    let answer = state.serve(0, operation, key, value).expect("an operation of the kind");
    (answer, state)
}

#[test]
fn recoverable_is_the_same_reply_whether_or_not_the_logged_one_ran() {
    let states = [1, 2, 3].map(states);
    for Pair { kind, requested, logged, .. } in pairs() {
        let same_reply = states[usize::from(kind) - 1].iter().all(|state| {
            let (_, after) = served(state.clone(), logged);
            served(after, requested).0 == served(state.clone(), requested).0
        });
        let recoverable = recoverable(without_value(requested), without_value(logged));
        assert_eq!(recoverable, same_reply, "{requested:?} against {logged:?}");
    }
}

/// For every pair that doesn't commute, one of the states shows the difference.
#[test]
fn commuting_is_the_same_replies_and_state_either_way_round() {
    let states = [1, 2, 3].map(states);
    for Pair { kind, requested, logged, .. } in pairs() {
        let either_way = states[usize::from(kind) - 1].iter().all(|state| {
            let (logged_first, state_after) = served(state.clone(), logged);
            let (requested_second, one_way) = served(state_after, requested);
            let (requested_first, state_after) = served(state.clone(), requested);
            let (logged_second, other_way) = served(state_after, logged);
            (requested_second, logged_first, one_way) == (requested_first, logged_second, other_way)
        });
        assert_eq!(commutes(requested, logged), either_way, "{requested:?} and {logged:?}");
    }
}

#[test]
fn commuting_is_symmetric() {
    for Pair { requested, logged, .. } in pairs() {
        assert_eq!(commutes(requested, logged), commutes(logged, requested), "{requested:?} and {logged:?}");
    }
}

/// A maker's mark counts for nothing in keys; an item is another with it.
#[test]
fn calls_wait_and_depend_as_listed() {
    for (Pair { kind, requested, logged, recoverable, commuting }, mark) in
        [0, 7 << 24].into_iter().flat_map(|mark| pairs().into_iter().map(move |pair| (pair, mark)))
    {
        let mut scheduler = Scheduler::of(&[kind]);
        scheduler.follow("B 0  ok\n B 1  ok");
        scheduler.say(&format!("I 0 0 {} {} {}", logged.0, logged.1, logged.2));
        let mut by_batch = Scheduler { store: scheduler.store.clone(), list: scheduler.list.clone() };
        let words = format!("0 {} {} {}", requested.0, requested.1 + mark, requested.2);
        let reply = scheduler.say(&format!("I 1 {words}"));
        let as_listed = if recoverable { reply.starts_with("answer ") } else { reply == "wait 1 0" };
        assert!(as_listed, "{requested:?} against {logged:?}: {reply}");
        assert_eq!(by_batch.say(&format!("G 1 {words}")), reply);
        assert_same_words(&by_batch.store, &scheduler.store);
        let pushes_apart = (requested.0, logged.0) == (1, 1) && mark != 0;
        let expected = if recoverable && (!commuting || pushes_apart) { "finished" } else { "committed 1" };
        assert_eq!(scheduler.say("F 1"), expected, "{requested:?} after {logged:?}");
    }
}

/// One transaction makes both entries, which is always taken; then the second is given to another. If that has
/// pseudo-committed, it must depend on the first.
#[test]
fn stores_are_sound_as_listed() {
    for Pair { kind, requested, logged, recoverable, commuting } in pairs() {
        let mut scheduler = Scheduler::of(&[kind]);
        scheduler.follow("B 0  ok\n B 1  ok");
        scheduler.say(&format!("I 0 0 {} {} {}", logged.0, logged.1, logged.2));
        scheduler.say(&format!("I 0 0 {} {} {}", requested.0, requested.1, requested.2));
        assert!(sound(&scheduler.store));
        scheduler.store[entry_word(1)] = 1;
        assert_eq!(sound(&scheduler.store), recoverable, "{requested:?} after {logged:?}");
        scheduler.store[status_word(1)] = 2;
        assert_eq!(sound(&scheduler.store), recoverable && !commuting, "finished: {requested:?} after {logged:?}");
    }
}
