//! Finish as section 4.2.1 of the article on recoverability tells it: *circle* exactly where PRED and SUCC meet. They
//! are gathered from the words of the store. The library gathers no sets: it takes away those that depend on nobody
//! left, until none such is there.

mod common;

use std::collections::BTreeMap;

use common::draws::Draws;
use common::graph::{Live, FINISHES};
use common::{line_of, shown, status_word, Scheduler};
use reference::call::Call;
use reference::{Outcome, Reply};

const LISTS: u64 = 6000;
const CALLS: usize = 160;
const OFTEN_ENOUGH: u64 = 100;

/// Few, so that they meet.
const TRANSACTIONS: [u32; 8] = [0, 1, 2, 31, 32, 61, 62, 63];
/// Stacks, of which a list uses the first few, a set and a table.
const KINDS: [u8; 10] = [1, 1, 1, 1, 1, 1, 1, 1, 2, 3];
const STACKS: usize = 8;
const SET: u32 = 8;
const TABLE: u32 = 9;
/// Objects and keys that a list uses: the more, the longer are its circles.
const FEWEST_PLACES: usize = 4;

/// Of a hundred calls, before how many it changes whether most finish.
const TURN: usize = 4;

const ABSENT: u32 = 0;
const ACTIVE: u32 = 1;

/// How often each of `FINISHES` occurred.
type Tally = BTreeMap<&'static str, u64>;

/// A call list being made.
struct Run {
    draws: Draws,
    /// Whether now most calls finish; otherwise few do.
    ending: bool,
    /// How many stacks, and how many keys of set and table, are in use.
    places: usize,
    scheduler: Scheduler,
    /// Followed by what is said to the calls.
    live: Live,
}

impl Run {
    fn new(seed: u64) -> Self {
        let mut draws = Draws::new(seed);
        let places = FEWEST_PLACES + draws.below(STACKS - FEWEST_PLACES + 1);
        Run { draws, ending: false, places, scheduler: Scheduler::of(&KINDS), live: Live::default() }
    }

    fn draw_call(&mut self) -> Call {
        self.ending ^= self.draws.percent(TURN);
        match self.draws.weighted(if self.ending { &[0, 8, 90, 2] } else { &[30, 68, 1, 1] }) {
            0 => Call::Begin { transaction: self.draw_transaction(ABSENT) },
            1 => self.draw_operation(),
            2 => Call::Finish { transaction: self.draw_transaction(ACTIVE) },
            _ => Call::Cancel { transaction: self.draw_transaction(ACTIVE) },
        }
    }

    /// A transaction, one of the status given where there is one.
    fn draw_transaction(&mut self, status: u32) -> u32 {
        let store = &self.scheduler.store;
        let fits = |&transaction: &u32| store[status_word(transaction as usize)] == status;
        let fitting: Vec<u32> = TRANSACTIONS.into_iter().filter(fits).collect();
        self.draws.pick(if fitting.is_empty() { &TRANSACTIONS } else { &fitting })
    }

    /// An operation alone, or two in a batch.
    fn draw_operation(&mut self) -> Call {
        let transaction = self.draw_transaction(ACTIVE);
        let [object, operation, key, value] = self.draw_words();
        if self.draws.percent(85) {
            return Call::Operate { transaction, object, operation, key, value };
        }
        Call::Batch { transaction, operations: [[object, operation, key, value], self.draw_words()].concat() }
    }

    /// The words of an operation, mostly one that may run beside others and doesn't commute with them.
    fn draw_words(&mut self) -> [u32; 4] {
        let (place, item) = (self.draws.below(self.places) as u32, self.draws.below(3) as u32);
        let key = place | if self.draws.percent(25) { self.draws.word() << 24 } else { 0 };
        match self.draws.below(20) {
            0 => [place, 3, 0, 0],
            1..=9 => [place, 1, item, 0],
            10..=12 => [SET, self.draws.pick(&[4, 4, 6]), key, 0],
            13 => [TABLE, self.draws.pick(&[9, 10]), key, 0],
            _ => [TABLE, 11, key, item],
        }
    }

    /// Makes a call; what was said to it, and who was live before.
    fn serve(&mut self, call: &Call) -> (Outcome, Live) {
        let before = Live::of(&self.scheduler.store);
        let Scheduler { store, list } = &mut self.scheduler;
        let outcome = call.serve(store, list);
        self.live.record(call, outcome, &list[..listed_count(outcome)]);
        assert_eq!(self.live, Live::of(store), "after {}: {}", line_of(call), shown(outcome, list));
        (outcome, before)
    }
}

/// How many transactions stand in the list.
fn listed_count(outcome: Outcome) -> usize {
    match outcome {
        Ok(Reply::Committed { count } | Reply::Circle { count } | Reply::Cancelled { count }) => count,
        _ => 0,
    }
}

/// Makes a call list, and holds what is said to each finish to the two sets.
fn run_list(seed: u64, tally: &mut Tally) {
    let mut run = Run::new(seed);
    for number in 0..CALLS {
        let call = run.draw_call();
        let (outcome, before) = run.serve(&call);
        if let (Call::Finish { transaction }, Ok(reply)) = (call, outcome) {
            let circle = matches!(reply, Reply::Circle { .. });
            let [pred, succ] = before.graph().sets(transaction);
            let met = !pred.is_disjoint(&succ);
            assert_eq!(circle, met, "list {seed}, call {number}, F {transaction}: PRED {pred:?}, SUCC {succ:?}");
            before.finishes(transaction, circle).for_each(|kind| *tally.entry(kind).or_default() += 1);
        }
    }
}

#[test]
fn circle_is_said_exactly_where_the_two_sets_meet() {
    let mut tally = Tally::new();
    (0..LISTS).for_each(|seed| run_list(seed, &mut tally));
    for kind in FINISHES {
        let times = tally.get(kind).copied().unwrap_or(0);
        assert!(times >= OFTEN_ENOUGH, "{kind} occurred {times} times");
    }
}
