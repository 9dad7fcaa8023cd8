//! The end of a transaction, and of the pseudo-committed ones that then depend on nobody.

use crate::layout::{self, Words};
use crate::log;
use crate::soundness::Analysis;
use crate::transactions::{Dependencies, Status, Statuses};

/// A sound store in which a transaction ends. The log keeps the entries of those that ended until all have.
pub(crate) struct Ending<'a> {
    store: &'a mut Words,
    statuses: Statuses,
    dependencies: Dependencies,
    list: &'a mut [u8],
    count: usize,
}

impl Ending<'_> {
    /// The list has space for every transaction.
    pub fn new<'a>(store: &'a mut Words, analysis: Analysis, list: &'a mut [u8]) -> Ending<'a> {
        let Analysis { statuses, dependencies } = analysis;
        Ending { store, statuses, dependencies, list, count: 0 }
    }

    /// Commits the transaction and those this sets free; returns how many the list names.
    pub fn commit(mut self, transaction: usize) -> usize {
        self.commit_one(transaction);
        self.settle()
    }

    /// Aborts the transaction and commits those this sets free; returns how many the list names.
    pub fn abort(mut self, transaction: usize) -> usize {
        self.end(transaction);
        self.settle()
    }

    /// Commits the pseudo-committed transaction of lowest rank that depends on nobody as long as there is one.
    fn settle(mut self) -> usize {
        while let Some(transaction) = self.ready() {
            self.commit_one(transaction);
        }
        for (rank, transaction) in self.statuses.by_rank().enumerate() {
            let status = Status::PseudoCommitted { rank: rank as u32 };
            layout::statuses_mut(self.store)[transaction] = status.word();
        }
        log::retain(self.store, self.statuses.live());
        self.count
    }

    fn ready(&self) -> Option<usize> {
        self.statuses.by_rank().find(|&transaction| self.dependencies.of(transaction) == 0)
    }

    /// Commits one transaction.
    fn commit_one(&mut self, transaction: usize) {
        log::carry_out(self.store, transaction);
        self.list[self.count] = transaction as u8;
        self.count += 1;
        self.end(transaction);
    }

    fn end(&mut self, transaction: usize) {
        layout::statuses_mut(self.store)[transaction] = Status::Absent.word();
        self.statuses.remove(transaction);
        self.dependencies.forget(transaction);
    }
}
