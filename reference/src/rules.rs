//! The pair rules: which operations may run side by side, and which may commit in any order.

use crate::operations::{Operation, Request};

/// When a pair of operations is recoverable, or commutes.
#[derive(Clone, Copy, Debug, PartialEq, Eq)]
pub(crate) enum Rule {
    Always,
    /// Where the reduced keys differ.
    Apart,
    /// Where the reduced keys differ, or the values are equal.
    ApartOrEqual,
    /// Where the items are equal.
    Equal,
    Never,
}

use Rule::{Always, Apart, ApartOrEqual, Equal, Never};

/// A table for each kind, one after the other: a row for each requested operation, in it a rule for each logged one of
/// the kind.
pub(crate) struct PairRules([Row; Operation::COUNT]);

pub(crate) type Row = [Rule; Operation::MOST_OF_A_KIND];

/// A row of a kind that has three operations.
const fn three(rules: [Rule; 3]) -> Row {
    let [first, second, third] = rules;
    [first, second, third, Always, Always]
}

/// The requested operation's reply is the same from every state, whether or not the logged one ran.
#[rustfmt::skip]
pub(crate) const RECOVERABLE: PairRules = PairRules([
    //     push    pop     top
    three([Always, Always, Always]), // push
    three([Never,  Never,  Always]), // pop
    three([Never,  Never,  Always]), // top

    //     insert  delete  member
    three([Always, Always, Always]), // insert
    three([Apart,  Apart,  Always]), // delete
    three([Apart,  Apart,  Always]), // member

    // insert  delete  lookup  size    modify
    [Apart,  Apart,  Always, Always, Always], // insert
    [Apart,  Apart,  Always, Always, Always], // delete
    [Apart,  Apart,  Always, Always, Apart],  // lookup
    [Never,  Never,  Always, Always, Always], // size
    [Apart,  Apart,  Always, Always, Always], // modify
]);

/// Replies and state are the same either way round.
#[rustfmt::skip]
pub(crate) const COMMUTING: PairRules = PairRules([
    //     push    pop     top
    three([Equal,  Never,  Never]),  // push
    three([Never,  Never,  Never]),  // pop
    three([Never,  Never,  Always]), // top

    //     insert  delete  member
    three([Always, Apart,  Apart]),  // insert
    three([Apart,  Apart,  Apart]),  // delete
    three([Apart,  Apart,  Always]), // member

    // insert  delete  lookup  size    modify
    [Apart,  Apart,  Apart,  Never,  Apart],  // insert
    [Apart,  Apart,  Apart,  Never,  Apart],  // delete
    [Apart,  Apart,  Always, Always, Apart],  // lookup
    [Never,  Never,  Always, Always, Always], // size
    [Apart,  Apart,  Apart,  Always, ApartOrEqual], // modify
]);

impl PairRules {
    /// The rules for a requested operation, one for each operation of its kind.
    pub fn row(&self, requested: Operation) -> &Row {
        &self.0[requested.number() as usize - 1]
    }

    /// Whether the pair, requests of one kind, is one the rules say yes to.
    fn allow(&self, requested: Request, logged: Request) -> bool {
        match self.row(requested.operation)[logged.operation.index()] {
            Always => true,
            Apart => requested.key != logged.key,
            ApartOrEqual => requested.key != logged.key || requested.value == logged.value,
            Equal => requested.key == logged.key,
            Never => false,
        }
    }

    /// As `allow`, by operation number, reduced key or item, and value: no unless they are operations of one kind.
    fn allow_numbered(&self, requested: (u32, u32, u32), logged: (u32, u32, u32)) -> bool {
        let request =
            |(number, key, value)| Operation::from_number(number).map(|operation| Request { operation, key, value });
        match (request(requested), request(logged)) {
            (Some(one), Some(other)) if one.operation.kind() == other.operation.kind() => self.allow(one, other),
            _ => false,
        }
    }
}

/// Whether `requested` (operation number and reduced key) is recoverable against `logged`, both of one kind.
pub fn recoverable(requested: (u32, u32), logged: (u32, u32)) -> bool {
    RECOVERABLE.allow_numbered((requested.0, requested.1, 0), (logged.0, logged.1, 0))
}

/// Whether the two operations (number, reduced key or item, value), both of one kind, commute.
pub fn commutes(one: (u32, u32, u32), other: (u32, u32, u32)) -> bool {
    COMMUTING.allow_numbered(one, other)
}
