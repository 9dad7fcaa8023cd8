//! Sets of transactions, their statuses, and which of them depend on which.

use crate::layout::{StatusWords, TRANSACTIONS};

/// A set of transactions: bit n stands for transaction n.
pub type TransactionSet = u64;

/// The set of one transaction.
pub fn only(transaction: usize) -> TransactionSet {
    1 << transaction
}

/// The members of a set, ascending.
pub fn members(set: TransactionSet) -> impl Iterator<Item = usize> {
    let mut left = set;
    std::iter::from_fn(move || {
        let lowest = (left != 0).then(|| left.trailing_zeros() as usize);
        left &= left.wrapping_sub(1);
        lowest
    })
}

/// What a transaction's status word says.
#[derive(Clone, Copy, Debug, PartialEq, Eq)]
pub enum Status {
    Absent,
    /// The paper's open.
    Active,
    /// The paper's finished; `rank` counts from 0 in order of finishing.
    PseudoCommitted {
        rank: u32,
    },
}

impl Status {
    pub fn from_word(word: u32) -> Status {
        match word {
            0 => Status::Absent,
            1 => Status::Active,
            _ => Status::PseudoCommitted { rank: word - 2 },
        }
    }

    pub fn word(self) -> u32 {
        match self {
            Status::Absent => 0,
            Status::Active => 1,
            Status::PseudoCommitted { rank } => 2 + rank,
        }
    }
}

/// The status words as sets.
pub struct Statuses {
    pub active: TransactionSet,
    pub pseudo_committed: TransactionSet,
    /// The pseudo-committed ones by the ranks read, of which there were `ranks`, with those that ended since.
    by_rank: [u8; TRANSACTIONS],
    ranks: usize,
}

impl Statuses {
    /// Reads the words; none unless the ranks are 0, 1, 2 and on, once each.
    pub fn read(words: &StatusWords) -> Option<Statuses> {
        let mut statuses = Statuses { active: 0, pseudo_committed: 0, by_rank: [0; TRANSACTIONS], ranks: 0 };
        let mut ranks: u64 = 0;
        for (transaction, &word) in words.iter().enumerate() {
            match Status::from_word(word) {
                Status::Absent => {}
                Status::Active => statuses.active |= only(transaction),
                Status::PseudoCommitted { rank } => {
                    *statuses.by_rank.get_mut(rank as usize)? = transaction as u8;
                    statuses.pseudo_committed |= only(transaction);
                    ranks |= 1 << rank;
                }
            }
        }
        statuses.ranks = ranks.count_ones() as usize;
        let once_each = ranks.count_ones() == statuses.pseudo_committed.count_ones();
        let without_gap = ranks & ranks.wrapping_add(1) == 0;
        (once_each && without_gap).then_some(statuses)
    }

    pub fn live(&self) -> TransactionSet {
        self.active | self.pseudo_committed
    }

    /// Forgets a transaction that has ended.
    pub fn remove(&mut self, ended: usize) {
        self.active &= !only(ended);
        self.pseudo_committed &= !only(ended);
    }

    /// The rank of the next transaction to pseudo-commit.
    pub fn next_rank(&self) -> u32 {
        self.pseudo_committed.count_ones()
    }

    /// The pseudo-committed transactions, lowest rank first.
    pub fn by_rank(&self) -> impl Iterator<Item = usize> + '_ {
        let ranked = self.by_rank[..self.ranks].iter().map(|&transaction| usize::from(transaction));
        ranked.filter(|&transaction| self.pseudo_committed & only(transaction) != 0)
    }
}

/// The commit dependencies: whom each transaction depends on, by the paper's word.
pub struct Dependencies([TransactionSet; TRANSACTIONS]);

impl Dependencies {
    pub fn none() -> Dependencies {
        Dependencies([0; TRANSACTIONS])
    }

    pub fn of(&self, transaction: usize) -> TransactionSet {
        self.0[transaction]
    }

    pub fn add(&mut self, transaction: usize, on: TransactionSet) {
        self.0[transaction] |= on;
    }

    /// Forgets a transaction that has ended: nobody depends on it any longer.
    pub fn forget(&mut self, ended: usize) {
        self.0[ended] = 0;
        self.0.iter_mut().for_each(|on| *on &= !only(ended));
    }

    /// Whether some of `set` depend on each other in a cycle (the paper's circle), by taking away those that depend
    /// on nobody left until none such is there.
    pub fn cyclic(&self, set: TransactionSet) -> bool {
        let mut left = set;
        loop {
            let free = members(left).filter(|&t| self.of(t) & left == 0).fold(0, |free, t| free | only(t));
            if free == 0 {
                return left != 0;
            }
            left &= !free;
        }
    }
}
