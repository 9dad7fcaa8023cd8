//! The graph of commit dependencies as section 4.2.1 of the article on recoverability has it, and the sets PRED and
//! SUCC that finish gathers there. An edge leads from a transaction to one that it depends on.

use std::collections::BTreeSet;

use reference::call::Call;
use reference::rules::commutes;
use reference::{Outcome, Reply};

use super::{entry_word, status_word, UNREDUCED};

pub type Transactions = BTreeSet<u32>;

/// A finish that is a circle.
pub const CIRCLE: &str = "finish: circle";
/// A circle at which no transaction is both a near predecessor and a near successor.
pub const FAR_CIRCLE: &str = "finish: circle of far ones alone";
/// No circle, though it would be one if all that are active had pseudo-committed.
pub const ACTIVE_BETWEEN: &str = "finish: only a circle through open ones";
/// No circle, though there are both predecessors and successors.
pub const SETS_APART: &str = "finish: two sets that do not meet";
/// What finishes are worth counting, since a wrong test for a circle would go unnoticed without them.
pub const FINISHES: [&str; 4] = [CIRCLE, FAR_CIRCLE, ACTIVE_BETWEEN, SETS_APART];

/// Those that are live, and what they have logged.
#[derive(Clone, Debug, Default, PartialEq, Eq)]
pub struct Live {
    pub active: Transactions,
    pub pseudo_committed: Transactions,
    /// Oldest first.
    pub log: Vec<Logged>,
}

/// An entry's transaction, object, operation, reduced key and value.
pub type Logged = [u32; 5];

/// Whether the operations of two entries on one object commute.
pub fn commuting(one: &Logged, other: &Logged) -> bool {
    commutes((one[2], one[3], one[4]), (other[2], other[3], other[4]))
}

impl Live {
    /// As the words of a sound store say.
    pub fn of(store: &[u32]) -> Live {
        let with = |fits: fn(u32) -> bool| (0..64).filter(move |&t| fits(store[status_word(t as usize)])).collect();
        let entry = |entry| store[entry_word(entry)..][..5].try_into().expect("five words");
        Live {
            active: with(|status| status == 1),
            pseudo_committed: with(|status| status > 1),
            log: (0..store[0] as usize).map(entry).collect(),
        }
    }

    /// Follows a call by what was said to it.
    pub fn record(&mut self, call: &Call, outcome: Outcome, list: &[u8]) {
        match (call, outcome) {
            (Call::SetUp { .. }, Ok(_)) => *self = Live::default(),
            (&Call::Begin { transaction }, Ok(_)) => drop(self.active.insert(transaction)),
            (&Call::Operate { transaction, object, operation, key, value }, Ok(Reply::Answer { .. })) => {
                self.enter(transaction, &[object, operation, key, value]);
            }
            (&Call::Batch { transaction, ref operations }, Ok(Reply::Answers(_))) => {
                operations.chunks(4).for_each(|words| self.enter(transaction, words));
            }
            (&Call::Finish { transaction }, Ok(Reply::Finished)) => {
                self.active.remove(&transaction);
                self.pseudo_committed.insert(transaction);
            }
            (&Call::Finish { transaction } | &Call::Cancel { transaction }, Ok(_)) => {
                self.end(transaction);
                list.iter().for_each(|&committed| self.end(committed.into()));
            }
            _ => {}
        }
    }

    /// Logs an operation by its words; pop, top and size have no key, and only table insert and modify a value.
    fn enter(&mut self, transaction: u32, words: &[u32]) {
        let key = match words[1] {
            2 | 3 | 10 => 0,
            1 => words[2],
            _ => words[2] % UNREDUCED,
        };
        let value = if matches!(words[1], 7 | 11) { words[3] } else { 0 };
        self.log.push([transaction, words[0], words[1], key, value]);
    }

    fn end(&mut self, transaction: u32) {
        self.active.remove(&transaction);
        self.pseudo_committed.remove(&transaction);
        self.log.retain(|entry| entry[0] != transaction);
    }

    /// Every two entries of two transactions on one object, the later one first.
    pub fn pairs(&self) -> impl Iterator<Item = (&Logged, &Logged)> {
        self.log.iter().enumerate().flat_map(|(index, later)| {
            let earlier = self.log[..index].iter().filter(|entry| entry[0] != later[0] && entry[1] == later[1]);
            earlier.map(move |earlier| (later, earlier))
        })
    }

    pub fn graph(&self) -> Graph {
        self.graph_by(commuting)
    }

    /// The graph if such entries commuted.
    pub fn graph_by(&self, commuting: impl Fn(&Logged, &Logged) -> bool) -> Graph {
        let against = self.pairs().filter(|(later, earlier)| !commuting(later, earlier));
        let edges = against.map(|(later, earlier)| (later[0], earlier[0])).collect();
        Graph { pseudo_committed: self.pseudo_committed.clone(), edges }
    }

    /// Which of `FINISHES` the finish of an active transaction is that is a circle or not.
    pub fn finishes(&self, transaction: u32, circle: bool) -> impl Iterator<Item = &'static str> {
        let graph = self.graph();
        let [pred, succ] = graph.sets(transaction);
        let near_meet = meet(&graph.near_pred(transaction), &graph.near_succ(transaction));
        let all_finished = Graph { pseudo_committed: &self.active | &self.pseudo_committed, ..graph };
        let is = [
            circle,
            circle && !near_meet,
            !circle && all_finished.circle(transaction),
            !circle && !pred.is_empty() && !succ.is_empty(),
        ];
        FINISHES.into_iter().zip(is).filter_map(|(kind, is)| is.then_some(kind))
    }
}

pub struct Graph {
    pseudo_committed: Transactions,
    /// Pairs of transactions, the first of which depends on the second.
    edges: BTreeSet<(u32, u32)>,
}

impl Graph {
    /// PRED and SUCC of an active transaction: its pseudo-committed predecessors and successors, near and far, along
    /// ways through pseudo-committed ones only.
    pub fn sets(&self, transaction: u32) -> [Transactions; 2] {
        let pred = self.gathered(transaction, |from| self.near_pred(from));
        let succ = self.gathered(transaction, |from| self.near_succ(from));
        [pred, succ]
    }

    /// Whether the two sets meet.
    pub fn circle(&self, transaction: u32) -> bool {
        let [pred, succ] = self.sets(transaction);
        meet(&pred, &succ)
    }

    /// The pseudo-committed ones that depend on a transaction.
    pub fn near_pred(&self, transaction: u32) -> Transactions {
        let edges = self.edges.iter().filter(|&&(_, on)| on == transaction);
        edges.map(|&(dependent, _)| dependent).filter(|near| self.pseudo_committed.contains(near)).collect()
    }

    /// The pseudo-committed ones that a transaction depends on.
    pub fn near_succ(&self, transaction: u32) -> Transactions {
        let edges = self.edges.iter().filter(|&&(dependent, _)| dependent == transaction);
        edges.map(|&(_, on)| on).filter(|near| self.pseudo_committed.contains(near)).collect()
    }

    /// The near ones, those near to them, and so on.
    fn gathered(&self, transaction: u32, near: impl Fn(u32) -> Transactions) -> Transactions {
        let mut gathered = Transactions::new();
        let mut next = vec![transaction];
        while let Some(from) = next.pop() {
            next.extend(near(from).into_iter().filter(|&found| gathered.insert(found)));
        }
        gathered
    }
}

fn meet(one: &Transactions, other: &Transactions) -> bool {
    !one.is_disjoint(other)
}
