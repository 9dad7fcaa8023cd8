//! Finishes at which it matters that equal entries commute, by every two entries of the log.

use std::ptr;

use crate::common::graph::{commuting, Live, Logged};

/// Commits at once, though another has made an equal push before.
pub const AFTER_PUSH: &str = "finish: commits after an equal push";
/// The same with modifies.
pub const AFTER_MODIFY: &str = "finish: commits after an equal modify";
/// Depends on others only since each, beside an equal push or modify, has another.
pub const AFTER_ANOTHER: &str = "finish: depends on owners of equal ones";
/// No circle, though it would be one if equal entries had an order.
pub const NO_CIRCLE: &str = "finish: only a circle of equal ones";
/// What finishes are worth counting besides those that tell tests for a circle apart.
pub const FINISHES: [&str; 4] = [AFTER_PUSH, AFTER_MODIFY, AFTER_ANOTHER, NO_CIRCLE];

const PUSH: u32 = 1;
const MODIFY: u32 = 11;

/// Which of `FINISHES` the finish of an active transaction is that commits it at once, is a circle, or neither.
pub fn finishes(live: &Live, transaction: u32, commits: bool, circle: bool) -> impl Iterator<Item = &'static str> {
    let own: Vec<(&Logged, &Logged)> = live.pairs().filter(|(later, _)| later[0] == transaction).collect();
    let after = |operation| own.iter().any(|(later, earlier)| later[2] == operation && equal(later, earlier));
    let against = || own.iter().filter(|(later, earlier)| !commuting(later, earlier));
    let owns_equal = |later: &Logged, owner| {
        own.iter().any(|&(own, earlier)| ptr::eq(own, later) && earlier[0] == owner && equal(own, earlier))
    };
    let by_another = |(later, earlier): &(&Logged, &Logged)| {
        later[2] == earlier[2] && [PUSH, MODIFY].contains(&later[2]) && owns_equal(later, earlier[0])
    };
    let ordered = live.graph_by(|one, other| commuting(one, other) && !equal(one, other));
    let is = [
        commits && after(PUSH),
        commits && after(MODIFY),
        !commits && against().next().is_some() && against().all(by_another),
        !circle && ordered.circle(transaction),
    ];
    FINISHES.into_iter().zip(is).filter_map(|(kind, is)| is.then_some(kind))
}

/// Whether two entries on one object are pushes of one item, or modifies of one key with one value.
fn equal(one: &Logged, other: &Logged) -> bool {
    one[2..] == other[2..] && [PUSH, MODIFY].contains(&one[2])
}
