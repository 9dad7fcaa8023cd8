//! The outside checks: a desk's script program, run as a black box, is held to the second implementation's program and
//! to its own serial history; its library is held to the second implementation word by word. Of the desk under test
//! nothing is known but the paper and the library's header.
//!
//! The desk's program is found at `target/bin/lending_desk` below the repository's root, or where `LENDING_DESK` says;
//! the second implementation's where `cargo build --release` puts it, or where `REFERENCE_DESK` says.

pub mod batches;
pub mod call_lists;
/// What the second implementation's tests share.
#[path = "../../reference/tests/common/mod.rs"]
pub mod common;
pub mod damage;
pub mod difference;
pub mod drawing;
pub mod equals;
pub mod journal;
pub mod profiles;
pub mod program;
pub mod records;
pub mod replies;
pub mod script;
pub mod serial;
pub mod stores;
pub mod tally;
pub mod threads;
pub mod words;
