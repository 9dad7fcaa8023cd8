//! The lending desk, written from the paper alone.
//!
//! A store (the paper's book) is a lent slice of words. Every call but set up first checks that it is sound, and uses
//! what the check has computed: see [`soundness`]. Names are the field's: a transaction is the paper's handout, active
//! its open, pseudo-committed its finished, aborted its cancelled, a cycle its circle.
//!
//! Calls and what was said to them are kept as bytes in a [`journal`], on which a scheduler can start again.

pub mod call;
pub mod calls;
mod ending;
mod footprints;
pub mod history;
pub mod journal;
pub mod layout;
mod log;
mod operations;
pub mod reply;
mod rows;
pub mod rules;
pub mod script;
pub mod soundness;
mod transactions;

pub use operations::Answer;
pub use reply::{Answers, Outcome, Refusal, Reply};
