//! What each call writes, word for word, and what it says.

mod common;

use common::{assert_same_words, row_word, Entry, Scheduler, Store, BLANK, UNREDUCED, WORDS};
use reference::calls::{self, contents, contents_count};
use reference::{Outcome, Refusal, Reply};

const STACK: usize = 0;
const SET: usize = 1;
const TABLE: usize = 2;
const KINDS: [u32; 4] = [1, 2, 3, 1];

/// A scheduler with a stack 0, a set 1, a table 2 and a second stack 3.
fn scheduler() -> Scheduler {
    Scheduler::of(&[1, 2, 3, 1])
}

/// The store of such a scheduler, when empty.
fn empty() -> Store {
    Store::of(&KINDS)
}

/// A scheduler on which transaction 0 is active.
fn begun() -> Scheduler {
    let mut scheduler = scheduler();
    scheduler.follow("B 0  ok");
    scheduler
}

#[test]
fn set_up_writes_an_empty_store_over_anything() {
    let kinds: Vec<u8> = (0..16).map(|object| object % 4).collect();
    let mut store = vec![u32::MAX; WORDS];
    assert_eq!(calls::set_up(&mut store, &kinds), Ok(Reply::Ok));
    assert_same_words(&store, &Store::of(&kinds.iter().map(|&kind| u32::from(kind)).collect::<Vec<_>>()).words);
}

#[test]
fn begin_writes_the_status() {
    let mut scheduler = scheduler();
    scheduler.follow("B 63  ok\n B 0  ok");
    scheduler.assert_store(&empty().active(&[0, 63]));
}

/// Asserts the replies to operations of transaction 0, alone at an empty scheduler, and the log they leave.
fn assert_entered(operations: &str, entries: &[Entry]) {
    let mut scheduler = begun();
    scheduler.follow(operations);
    scheduler.assert_store(&empty().active(&[0]).log(entries));
}

#[test]
fn stack_operations_are_entered_with_unused_arguments_zero() {
    assert_entered(
        "I 0 0 1 4294967295 9   answer 1 0
         I 0 0 3 8 9            answer 1 4294967295
         I 0 0 2 8 9            answer 1 4294967295
         I 0 0 2 8 9            answer 0 0
         I 0 0 3 8 9            answer 0 0",
        &[
            [0, 0, 1, u32::MAX, 0, 1, 0],
            [0, 0, 3, 0, 0, 1, u32::MAX],
            [0, 0, 2, 0, 0, 1, u32::MAX],
            [0, 0, 2, 0, 0, 0, 0],
            [0, 0, 3, 0, 0, 0, 0],
        ],
    );
}

#[test]
fn set_operations_are_entered_with_unused_arguments_zero() {
    assert_entered(
        "I 0 1 4 4 9   answer 1 0
         I 0 1 4 4 9   answer 1 0
         I 0 1 6 4 9   answer 1 0
         I 0 1 5 4 9   answer 1 0
         I 0 1 5 4 9   answer 0 0
         I 0 1 6 4 9   answer 0 0",
        &[
            [0, 1, 4, 4, 0, 1, 0],
            [0, 1, 4, 4, 0, 1, 0],
            [0, 1, 6, 4, 0, 1, 0],
            [0, 1, 5, 4, 0, 1, 0],
            [0, 1, 5, 4, 0, 0, 0],
            [0, 1, 6, 4, 0, 0, 0],
        ],
    );
}

#[test]
fn table_operations_are_entered_with_unused_arguments_zero() {
    assert_entered(
        "I 0 2 11 5 1            answer 0 0
         I 0 2 7 5 4294967295    answer 1 0
         I 0 2 7 5 2             answer 0 0
         I 0 2 9 5 9             answer 1 4294967295
         I 0 2 11 5 3            answer 1 0
         I 0 2 9 5 9             answer 1 3
         I 0 2 10 8 9            answer 1 1
         I 0 2 8 5 9             answer 1 0
         I 0 2 8 5 9             answer 0 0
         I 0 2 9 5 9             answer 0 0
         I 0 2 10 8 9            answer 1 0",
        &[
            [0, 2, 11, 5, 1, 0, 0],
            [0, 2, 7, 5, u32::MAX, 1, 0],
            [0, 2, 7, 5, 2, 0, 0],
            [0, 2, 9, 5, 0, 1, u32::MAX],
            [0, 2, 11, 5, 3, 1, 0],
            [0, 2, 9, 5, 0, 1, 3],
            [0, 2, 10, 0, 0, 1, 1],
            [0, 2, 8, 5, 0, 1, 0],
            [0, 2, 8, 5, 0, 0, 0],
            [0, 2, 9, 5, 0, 0, 0],
            [0, 2, 10, 0, 0, 1, 0],
        ],
    );
}

#[test]
fn keys_are_reduced_and_items_are_not() {
    assert_entered(
        "I 0 0 1 16777221 0       answer 1 0
         I 0 1 4 16777221 0       answer 1 0
         I 0 1 6 4278190085 0     answer 1 0
         I 0 2 7 4294967295 6     answer 1 0
         I 0 2 9 16777215 0       answer 1 6
         I 0 2 11 33554431 8      answer 1 0",
        &[
            [0, 0, 1, UNREDUCED + 5, 0, 1, 0],
            [0, 1, 4, 5, 0, 1, 0],
            [0, 1, 6, 5, 0, 1, 0],
            [0, 2, 7, UNREDUCED - 1, 6, 1, 0],
            [0, 2, 9, UNREDUCED - 1, 0, 1, 6],
            [0, 2, 11, UNREDUCED - 1, 8, 1, 0],
        ],
    );
}

/// Asserts the rows of an object once transaction 0, alone at the scheduler, has made the operations and committed.
fn assert_committed_rows(object: usize, before: &[[u32; 2]], operations: &str, after: &[[u32; 2]]) {
    let mut scheduler = Scheduler::on(empty().rows(object, before).active(&[0]));
    scheduler.follow(&format!("{operations}\n F 0  committed 0"));
    scheduler.assert_store(&empty().rows(object, after));
}

#[test]
fn commit_of_pushes() {
    assert_committed_rows(
        STACK,
        &[[7, 0]],
        "I 0 0 1 9 0            answer 1 0
         I 0 0 1 4294967295 0   answer 1 0",
        &[[7, 0], [9, 0], [u32::MAX, 0]],
    );
}

#[test]
fn commit_of_pops_zeroes_the_rows() {
    assert_committed_rows(
        STACK,
        &[[7, 0], [8, 0], [9, 0]],
        "I 0 0 2 0 0  answer 1 9
         I 0 0 2 0 0  answer 1 8",
        &[[7, 0]],
    );
}

#[test]
fn commit_of_more_pops_than_items() {
    assert_committed_rows(
        STACK,
        &[[7, 0]],
        "I 0 0 2 0 0  answer 1 7
         I 0 0 2 0 0  answer 0 0
         I 0 0 1 6 0  answer 1 0",
        &[[6, 0]],
    );
}

#[test]
fn commit_of_top_changes_no_row() {
    assert_committed_rows(STACK, &[[7, 0]], "I 0 0 3 0 0  answer 1 7", &[[7, 0]]);
}

#[test]
fn commit_of_set_inserts_keeps_keys_ascending() {
    assert_committed_rows(
        SET,
        &[[4, 0], [8, 0]],
        "I 0 1 4 6 0  answer 1 0
         I 0 1 4 2 0  answer 1 0
         I 0 1 4 9 0  answer 1 0
         I 0 1 4 8 0  answer 1 0",
        &[[2, 0], [4, 0], [6, 0], [8, 0], [9, 0]],
    );
}

#[test]
fn commit_of_set_deletes_closes_up_and_zeroes() {
    assert_committed_rows(
        SET,
        &[[2, 0], [4, 0], [6, 0], [8, 0]],
        "I 0 1 5 4 0  answer 1 0
         I 0 1 5 8 0  answer 1 0
         I 0 1 5 5 0  answer 0 0",
        &[[2, 0], [6, 0]],
    );
}

#[test]
fn commit_of_member_changes_no_row() {
    assert_committed_rows(SET, &[[4, 0]], "I 0 1 6 4 0  answer 1 0\n I 0 1 6 5 0  answer 0 0", &[[4, 0]]);
}

#[test]
fn commit_of_table_inserts_keeps_keys_ascending_and_old_values() {
    assert_committed_rows(
        TABLE,
        &[[4, 40], [8, 80]],
        "I 0 2 7 6 60  answer 1 0
         I 0 2 7 8 81  answer 0 0
         I 0 2 7 2 20  answer 1 0
         I 0 2 7 9 90  answer 1 0",
        &[[2, 20], [4, 40], [6, 60], [8, 80], [9, 90]],
    );
}

#[test]
fn commit_of_table_deletes_closes_up_and_zeroes() {
    assert_committed_rows(
        TABLE,
        &[[2, 20], [4, 40], [6, 60], [8, 80]],
        "I 0 2 8 4 0  answer 1 0
         I 0 2 8 8 0  answer 1 0
         I 0 2 8 5 0  answer 0 0",
        &[[2, 20], [6, 60]],
    );
}

#[test]
fn commit_of_modify_replaces_the_value() {
    assert_committed_rows(
        TABLE,
        &[[2, 20], [4, 40]],
        "I 0 2 11 4 41  answer 1 0
         I 0 2 11 5 51  answer 0 0",
        &[[2, 20], [4, 41]],
    );
}

#[test]
fn commit_of_lookup_and_size_changes_no_row() {
    assert_committed_rows(TABLE, &[[2, 20]], "I 0 2 9 2 0  answer 1 20\n I 0 2 10 0 0  answer 1 1", &[[2, 20]]);
}

#[test]
fn commit_fills_and_empties_all_64_rows() {
    for object in [STACK, SET, TABLE] {
        let mut scheduler = begun();
        scheduler.fill_object(0, object);
        scheduler.follow("F 0  committed 0");
        let full: Vec<[u32; 2]> = (0..64).map(|key| [key, 0]).collect();
        scheduler.assert_store(&empty().rows(object, &full));

        scheduler.follow("B 0  ok");
        let removal = [2, 5, 8][object];
        for key in 0..64 {
            assert!(scheduler.say(&format!("I 0 {object} {removal} {key} 0")).starts_with("answer 1 "));
        }
        scheduler.follow("F 0  committed 0");
        scheduler.assert_store(&empty());
    }
}

#[test]
fn cancel_closes_the_log_up() {
    let mut scheduler = scheduler();
    scheduler.follow(
        "B 0           ok
         B 1           ok
         B 2           ok
         I 0 0 1 7 0   answer 1 0
         I 1 0 1 8 0   answer 1 0
         I 2 0 1 9 0   answer 1 0
         I 1 2 7 5 50  answer 1 0
         I 0 1 4 4 0   answer 1 0
         C 1           cancelled",
    );
    let left = [[0, 0, 1, 7, 0, 1, 0], [2, 0, 1, 9, 0, 1, 0], [0, 1, 4, 4, 0, 1, 0]];
    scheduler.assert_store(&empty().active(&[0, 2]).log(&left));
}

#[test]
fn commit_carries_rows_and_keeps_later_entries() {
    let mut scheduler = scheduler();
    scheduler.follow(
        "B 0           ok
         B 1           ok
         I 0 0 1 7 0   answer 1 0
         I 1 0 1 8 0   answer 1 0
         I 0 2 7 5 50  answer 1 0
         I 1 2 7 4 40  answer 1 0
         F 0           committed 0",
    );
    let left = [[1, 0, 1, 8, 0, 1, 0], [1, 2, 7, 4, 40, 1, 0]];
    scheduler.assert_store(&empty().rows(STACK, &[[7, 0]]).rows(TABLE, &[[5, 50]]).active(&[1]).log(&left));
}

#[test]
fn cancel_keeps_what_others_entered_since() {
    let mut scheduler = scheduler();
    scheduler.follow(
        "B 0           ok
         I 0 0 1 7 0   answer 1 0
         B 1           ok
         I 1 2 7 5 50  answer 1 0
         F 1           committed 1
         C 0           cancelled",
    );
    scheduler.assert_store(&empty().rows(TABLE, &[[5, 50]]));
}

#[test]
fn finished_writes_the_rank_alone() {
    let mut scheduler = scheduler();
    scheduler.follow(
        "B 9          ok
         B 5          ok
         B 3          ok
         I 9 0 1 1 0  answer 1 0
         I 5 0 1 2 0  answer 1 0
         I 3 0 1 3 0  answer 1 0
         F 5          finished
         F 3          finished",
    );
    let log = [[9, 0, 1, 1, 0, 1, 0], [5, 0, 1, 2, 0, 1, 0], [3, 0, 1, 3, 0, 1, 0]];
    scheduler.assert_store(&empty().active(&[9]).pseudo_committed(&[5, 3]).log(&log));
    assert_eq!(scheduler.list, [BLANK; 64]);
}

#[test]
fn ready_transactions_commit_by_rank_and_not_by_number() {
    let mut scheduler = scheduler();
    scheduler.follow(
        "B 9          ok
         B 5          ok
         B 3          ok
         I 9 0 1 1 0  answer 1 0
         I 9 3 1 1 0  answer 1 0
         I 5 0 1 2 0  answer 1 0
         I 3 3 1 3 0  answer 1 0
         F 5          finished
         F 3          finished
         F 9          committed 9 5 3",
    );
    scheduler.assert_store(&empty().rows(STACK, &[[1, 0], [2, 0]]).rows(3, &[[1, 0], [3, 0]]));
}

/// 0, of rank 0, depends on 1, of rank 1, which depends on 9 as 2, of rank 2, does: once 1 has committed, 0 is ready
/// before 2.
#[test]
fn readiness_is_tried_again_from_the_lowest_rank_after_each_commit() {
    let mut scheduler = Scheduler::of(&[1, 1, 1]);
    scheduler.follow(
        "B 0          ok
         B 1          ok
         B 2          ok
         B 9          ok
         I 1 0 1 1 0  answer 1 0
         I 0 0 1 0 0  answer 1 0
         I 9 1 1 9 0  answer 1 0
         I 1 1 1 1 0  answer 1 0
         I 9 2 1 9 0  answer 1 0
         I 2 2 1 2 0  answer 1 0
         F 0          finished
         F 1          finished
         F 2          finished
         F 9          committed 9 1 0 2",
    );
    let rows = [[[1, 0], [0, 0]], [[9, 0], [1, 0]], [[9, 0], [2, 0]]];
    scheduler.assert_store(&Store::of(&[1, 1, 1]).rows(0, &rows[0]).rows(1, &rows[1]).rows(2, &rows[2]));
}

#[test]
fn ranks_close_up() {
    let mut scheduler = Scheduler::of(&[1, 1]);
    scheduler.follow(
        "B 10           ok
         B 11           ok
         B 2            ok
         B 1            ok
         B 0            ok
         I 10 0 1 10 0  answer 1 0
         I 11 1 1 11 0  answer 1 0
         I 2 0 1 2 0    answer 1 0
         I 1 1 1 1 0    answer 1 0
         I 0 0 1 0 0    answer 1 0
         F 2            finished
         F 1            finished
         F 0            finished
         C 11           cancelled 1",
    );
    let log = [[10, 0, 1, 10, 0, 1, 0], [2, 0, 1, 2, 0, 1, 0], [0, 0, 1, 0, 0, 1, 0]];
    scheduler.assert_store(&Store::of(&[1, 1]).rows(1, &[[1, 0]]).active(&[10]).pseudo_committed(&[2, 0]).log(&log));
}

#[test]
fn all_64_transactions_commit_by_one_call() {
    let mut scheduler = scheduler();
    for transaction in 0..64 {
        scheduler.follow(&format!("B {transaction}  ok"));
    }
    for transaction in (0..64).rev() {
        scheduler.follow(&format!("I {transaction} 0 1 {transaction} 0  answer 1 0"));
    }
    for transaction in 0..63 {
        scheduler.follow(&format!("F {transaction}  finished"));
    }
    let descending: Vec<u8> = (0..64).rev().collect();
    assert_eq!(scheduler.say("F 63").split(' ').count(), 65);
    assert_eq!(scheduler.list, descending);
    scheduler.assert_store(&empty().rows(STACK, &(0..64).rev().map(|item| [item, 0]).collect::<Vec<_>>()));
}

#[test]
fn pseudo_committed_ones_are_never_aborted_by_the_end_of_another() {
    let mut scheduler = scheduler();
    scheduler.follow(
        "B 0          ok
         B 1          ok
         I 0 0 1 7 0  answer 1 0
         I 1 0 1 9 0  answer 1 0
         F 1          finished
         C 0          cancelled 1",
    );
    scheduler.assert_store(&empty().rows(STACK, &[[9, 0]]));
}

#[test]
fn cancel_lists_none_where_others_still_depend() {
    let mut scheduler = Scheduler::of(&[1, 1]);
    scheduler.follow(
        "B 0          ok
         B 1          ok
         B 2          ok
         I 0 0 1 7 0  answer 1 0
         I 1 0 1 8 0  answer 1 0
         I 2 0 1 9 0  answer 1 0
         F 2          finished
         C 0          cancelled
         C 1          cancelled 2",
    );
    scheduler.assert_store(&Store::of(&[1, 1]).rows(0, &[[9, 0]]));
}

#[test]
fn finish_depends_on_earlier_entries_only() {
    let mut scheduler = scheduler();
    scheduler.follow(
        "B 0          ok
         B 1          ok
         I 0 0 1 7 0  answer 1 0
         I 1 0 1 9 0  answer 1 0
         F 0          committed 0
         F 1          committed 1",
    );
}

#[test]
fn operations_on_other_objects_never_depend() {
    begun().follow(
        "B 1          ok
         I 0 0 1 7 0  answer 1 0
         I 1 3 1 9 0  answer 1 0
         F 1          committed 1",
    );
}

#[test]
fn own_entries_never_count() {
    begun().follow(
        "I 0 0 1 7 0   answer 1 0
         I 0 0 2 0 0   answer 1 7
         I 0 0 3 0 0   answer 0 0
         I 0 1 4 4 0   answer 1 0
         I 0 1 5 4 0   answer 1 0
         I 0 2 7 5 50  answer 1 0
         I 0 2 10 0 0  answer 1 1
         I 0 2 9 5 0   answer 1 50
         F 0           committed 0",
    );
}

#[test]
fn own_entries_do_not_hide_those_of_others() {
    begun().follow(
        "B 1          ok
         I 0 0 1 7 0  answer 1 0
         I 1 0 1 8 0  answer 1 0
         I 1 0 2 0 0  wait 1 0",
    );
}

/// In the log the owners neither ascend nor descend; 0 has inserted another key, and the same key elsewhere.
#[test]
fn wait_names_all_owners_of_entries_in_conflict() {
    let mut scheduler = scheduler();
    scheduler.follow(
        "B 0          ok
         B 1          ok
         B 2          ok
         B 3          ok
         B 5          ok
         I 0 1 6 6 0  answer 0 0
         I 2 1 4 4 0  answer 1 0
         I 5 1 4 4 0  answer 1 0
         I 1 1 4 4 0  answer 1 0
         I 0 1 4 5 0  answer 1 0
         I 0 2 7 4 0  answer 1 0",
    );
    let before = scheduler.store.clone();
    scheduler.follow("I 3 1 5 4 0  wait 3 1 2 5");
    assert_same_words(&scheduler.store, &before);
    scheduler.follow(
        "F 2          committed 2
         I 3 1 5 4 0  wait 2 1 5
         C 1          cancelled
         I 3 1 5 4 0  wait 1 5
         F 5          committed 5
         I 3 1 5 4 0  answer 1 0",
    );
}

/// All touch the table, and each request is recoverable against entries of some.
#[test]
fn wait_names_owners_of_entries_in_conflict_alone() {
    begun().follow(
        "B 1           ok
         B 2           ok
         B 3           ok
         B 4           ok
         I 0 2 9 5 0   answer 0 0
         I 1 2 11 5 1  answer 0 0
         I 2 2 7 6 60  answer 1 0
         I 3 2 8 7 0   answer 0 0
         I 4 2 10 0 0  wait 2 2 3
         I 4 2 9 5 0   wait 1 1
         I 4 2 9 6 0   wait 1 2
         I 4 2 7 7 70  wait 1 3
         I 4 2 7 5 50  answer 1 0
         I 0 2 10 0 0  wait 3 2 3 4
         I 0 2 9 5 0   wait 2 1 4",
    );
}

#[test]
fn wait_counts_owners_and_not_entries() {
    begun().follow(
        "B 1          ok
         B 2          ok
         I 0 1 4 4 0  answer 1 0
         I 0 1 4 4 0  answer 1 0
         I 0 1 5 4 0  answer 1 0
         I 2 1 6 4 0  wait 1 0
         I 1 1 4 4 0  answer 1 0
         I 1 1 4 4 0  answer 1 0
         I 0 1 4 4 0  answer 1 0
         I 2 1 6 4 0  wait 2 0 1",
    );
}

#[test]
fn wait_never_names_the_transaction_itself() {
    begun().follow(
        "B 1          ok
         B 2          ok
         I 1 0 1 5 0  answer 1 0
         I 0 0 1 6 0  answer 1 0
         I 1 0 1 7 0  answer 1 0
         I 2 0 1 8 0  answer 1 0
         I 1 0 1 9 0  answer 1 0
         I 0 0 2 0 0  wait 2 1 2
         I 1 0 2 0 0  wait 2 0 2
         I 2 0 3 0 0  wait 2 0 1
         C 0          cancelled
         C 2          cancelled
         I 1 0 2 0 0  answer 1 9",
    );
}

#[test]
fn wait_is_for_pseudo_committed_ones_too() {
    begun().follow(
        "B 1          ok
         B 2          ok
         I 0 0 1 7 0  answer 1 0
         I 1 0 1 8 0  answer 1 0
         I 1 1 4 4 0  answer 1 0
         F 1          finished
         I 2 1 6 4 0  wait 1 1
         I 2 0 3 0 0  wait 2 0 1
         F 0          committed 0 1
         I 2 0 3 0 0  answer 1 8",
    );
}

/// Between the two stand entries of a third that the request is recoverable against, as many as the log takes.
#[test]
fn wait_is_for_the_owners_of_the_oldest_and_the_newest_entry() {
    let others = "I 0 1 6 5 0  answer 0 0\n".repeat(253);
    begun().follow(&format!(
        "B 1          ok
         B 2          ok
         B 3          ok
         I 2 1 4 4 0  answer 1 0
         {others}
         I 1 1 4 4 0  answer 1 0
         I 3 1 6 4 0  wait 2 1 2
         C 1          cancelled
         C 2          cancelled
         I 3 1 6 4 0  answer 0 0",
    ));
}

/// What a scheduler says to a transaction that asks whether key 4 is a member of the set.
fn said_to_member_4(scheduler: &mut Scheduler, transaction: u32) -> Outcome {
    calls::operate(&mut scheduler.store, transaction, SET as u32, 6, 4, 0)
}

#[test]
fn wait_has_a_bit_for_each_owner() {
    for owner in 0..64 {
        let other = (owner + 1) % 64;
        let store = empty().active(&[owner, other]).log(&[[owner as u32, SET as u32, 4, 4, 0, 1, 0]]);
        let reply = said_to_member_4(&mut Scheduler::on(store), other as u32);
        assert_eq!(reply, Ok(Reply::Wait { owners: 1 << owner, count: 1 }), "owner {owner}");
    }
}

#[test]
fn wait_is_for_all_63_others_at_once() {
    let mut scheduler = scheduler();
    for transaction in 0..64 {
        scheduler.follow(&format!("B {transaction}  ok\n I {transaction} 1 4 4 0  answer 1 0"));
    }
    for transaction in 0..64 {
        let reply = said_to_member_4(&mut scheduler, transaction);
        assert_eq!(reply, Ok(Reply::Wait { owners: !(1 << transaction), count: 63 }), "transaction {transaction}");
    }
}

#[test]
fn wait_is_for_63_pseudo_committed_ones_at_once() {
    let mut scheduler = scheduler();
    for transaction in 0..64 {
        scheduler.follow(&format!("B {transaction}  ok\n I {transaction} 0 1 {transaction} 0  answer 1 0"));
    }
    for transaction in 1..64 {
        scheduler.follow(&format!("F {transaction}  finished"));
    }
    let reply = calls::operate(&mut scheduler.store, 0, STACK as u32, 2, 0, 0);
    assert_eq!(reply, Ok(Reply::Wait { owners: !1, count: 63 }));
}

#[test]
fn wait_ends_with_the_owner() {
    begun().follow(
        "B 1           ok
         I 0 2 7 5 50  answer 1 0
         I 1 2 7 6 60  answer 1 0
         I 0 2 7 6 61  wait 1 1
         F 1           committed 1
         I 0 2 7 6 61  answer 0 0
         I 0 2 10 0 0  answer 1 2",
    );
}

#[test]
fn modifies_of_one_key_commit_in_the_order_entered() {
    let mut scheduler = Scheduler::on(empty().rows(TABLE, &[[5, 50]]));
    scheduler.follow(
        "B 0            ok
         B 1            ok
         I 0 2 11 5 51  answer 1 0
         I 1 2 11 5 52  answer 1 0
         I 1 2 9 5 0    wait 1 0
         F 1            finished
         I 0 2 9 5 0    wait 1 1
         F 0            committed 0 1",
    );
    scheduler.assert_store(&empty().rows(TABLE, &[[5, 52]]));
}

/// Two desks put back spares of one class, and the second doesn't wait to commit.
#[test]
fn equal_pushes_commit_in_any_order() {
    let mut scheduler = scheduler();
    scheduler.follow(
        "B 0          ok
         B 1          ok
         I 0 0 1 7 0  answer 1 0
         I 1 0 1 7 0  answer 1 0
         F 1          committed 1",
    );
    scheduler.assert_store(&empty().rows(STACK, &[[7, 0]]).active(&[0]).log(&[[0, 0, 1, 7, 0, 1, 0]]));
    scheduler.follow("F 0  committed 0");
    scheduler.assert_store(&empty().rows(STACK, &[[7, 0], [7, 0]]));
}

/// The maker's mark counts for nothing.
#[test]
fn equal_modifies_commit_in_any_order() {
    let mut scheduler = Scheduler::on(empty().rows(TABLE, &[[12, 2]]));
    scheduler.follow(
        "B 0                  ok
         B 1                  ok
         I 0 2 11 12 3        answer 1 0
         I 1 2 11 16777228 3  answer 1 0
         F 1                  committed 1",
    );
    scheduler.assert_store(&empty().rows(TABLE, &[[12, 3]]).active(&[0]).log(&[[0, 2, 11, 12, 3, 1, 0]]));
    scheduler.follow("C 0  cancelled");
    scheduler.assert_store(&empty().rows(TABLE, &[[12, 3]]));
}

#[test]
fn items_and_values_are_compared_whole() {
    let (item, value) = (UNREDUCED + 7, UNREDUCED + 3);
    for [one, other] in [["0 1 7 0", &format!("0 1 {item} 0")], ["2 11 5 3", &format!("2 11 5 {value}")]] {
        let mut scheduler = begun();
        scheduler.follow("B 1  ok");
        scheduler.say(&format!("I 0 {one}"));
        scheduler.say(&format!("I 1 {other}"));
        scheduler.follow("F 1  finished");
    }
}

/// Asserts that 1, which makes some operations after others of 0, pseudo-commits, as it depends on one of those.
fn assert_finished(of_0: &[&str], of_1: &[&str]) {
    let mut scheduler = begun();
    scheduler.follow("B 1  ok");
    for (transaction, operations) in [(0, of_0), (1, of_1)] {
        for operation in operations {
            assert!(scheduler.say(&format!("I {transaction} {operation}")).starts_with("answer "), "{operation}");
        }
    }
    assert_eq!(scheduler.say("F 1"), "finished", "{of_1:?} after {of_0:?}");
    scheduler.follow("F 0  committed 0 1");
}

#[test]
fn equal_entry_does_not_hide_another_of_the_same_owner() {
    for [equal, other] in [["0 1 7 0", "0 1 8 0"], ["2 11 5 3", "2 11 5 4"]] {
        assert_finished(&[equal, other], &[equal]);
        assert_finished(&[other, equal], &[equal]);
        assert_finished(&[equal, other, equal], &[equal]);
        assert_finished(&[equal], &[equal, other]);
        assert_finished(&[equal], &[other, equal]);
        assert_finished(&[equal, other], &[equal, other]);
    }
    assert_finished(&["0 1 7 0", "0 2 0 0"], &["0 1 7 0"]);
    assert_finished(&["2 9 5 0", "2 11 5 3"], &["2 11 5 3"]);
}

/// 1 has both items, 0 and 2 one each: only who pushes another after it depends on 1.
#[test]
fn owner_of_two_items_is_depended_on_by_those_who_follow() {
    scheduler().follow(
        "B 0          ok
         B 1          ok
         B 2          ok
         I 0 0 1 7 0  answer 1 0
         I 1 0 1 7 0  answer 1 0
         I 2 0 1 7 0  answer 1 0
         I 1 0 1 8 0  answer 1 0
         F 2          committed 2
         F 1          finished
         F 0          committed 0 1",
    );
}

#[test]
fn equal_modifies_of_another_key_do_not_count() {
    begun().follow(
        "B 1           ok
         I 0 2 11 5 3  answer 0 0
         I 0 2 11 6 4  answer 0 0
         I 1 2 11 6 3  answer 0 0
         F 1           finished
         C 0           cancelled 1",
    );
}

#[test]
fn number_is_used_again_as_a_new_transaction() {
    let mut scheduler = scheduler();
    scheduler.follow(
        "B 0          ok
         B 1          ok
         I 0 0 1 7 0  answer 1 0
         I 1 0 1 8 0  answer 1 0
         C 0          cancelled
         B 0          ok
         F 1          committed 1
         F 0          committed 0
         B 0          ok
         I 0 0 3 0 0  answer 1 8",
    );
    scheduler.assert_store(&empty().rows(STACK, &[[8, 0]]).active(&[0]).log(&[[0, 0, 3, 0, 0, 1, 8]]));
}

/// Has transactions push in the order given, each pair on a stack of its own: the second comes to depend on the first.
fn scheduler_with_dependencies(dependencies: &[(u32, u32)]) -> Scheduler {
    let mut scheduler = Scheduler::of(&[1; 16]);
    for transaction in 0..10 {
        scheduler.follow(&format!("B {transaction}  ok"));
    }
    for (stack, &(dependent, on)) in dependencies.iter().enumerate() {
        scheduler.follow(&format!(
            "I {on} {stack} 1 {on} 0  answer 1 0\n I {dependent} {stack} 1 {dependent} 0  answer 1 0"
        ));
    }
    scheduler
}

#[test]
fn cycle_of_two_is_a_circle_only_when_the_other_is_pseudo_committed() {
    scheduler_with_dependencies(&[(0, 1), (1, 0)]).follow(
        "F 0  finished
         F 1  circle 0",
    );
}

#[test]
fn cycle_of_three_aborts_the_last_to_finish() {
    scheduler_with_dependencies(&[(0, 1), (1, 2), (2, 0)]).follow(
        "F 0  finished
         F 1  finished
         F 2  circle 1 0",
    );
}

#[test]
fn cycle_through_an_active_one_is_no_circle() {
    scheduler_with_dependencies(&[(0, 1), (1, 2), (2, 0)]).follow(
        "F 0  finished
         F 2  finished
         C 1  cancelled 0 2",
    );
}

#[test]
fn depending_on_a_cycle_is_no_circle() {
    scheduler_with_dependencies(&[(0, 1), (1, 0), (2, 0)]).follow(
        "F 0  finished
         F 2  finished
         F 1  circle 0 2",
    );
}

#[test]
fn being_depended_on_by_a_cycle_is_no_circle() {
    scheduler_with_dependencies(&[(0, 1), (1, 0), (0, 2), (2, 3)]).follow(
        "F 0  finished
         F 2  finished
         F 1  circle
         F 3  committed 3 2 0",
    );
}

#[test]
fn circle_where_one_of_two_cycles_is_through_an_active_one() {
    scheduler_with_dependencies(&[(0, 1), (1, 0), (0, 2), (2, 0)]).follow(
        "F 0  finished
         F 1  circle
         F 2  circle 0",
    );
}

#[test]
fn long_cycle_is_found() {
    let mut cycle: Vec<(u32, u32)> = (0..9).map(|transaction| (transaction, transaction + 1)).collect();
    cycle.push((9, 0));
    let mut scheduler = scheduler_with_dependencies(&cycle);
    for transaction in [4, 8, 0, 2, 6, 1, 3, 7, 5] {
        scheduler.follow(&format!("F {transaction}  finished"));
    }
    scheduler.follow("F 9  circle 8 7 6 5 4 3 2 1 0");
}

#[test]
fn circle_strikes_out_what_it_did() {
    let mut scheduler = Scheduler::of(&[1, 1]);
    scheduler.follow(
        "B 0          ok
         B 1          ok
         I 0 0 1 1 0  answer 1 0
         I 1 0 1 2 0  answer 1 0
         I 1 1 1 3 0  answer 1 0
         I 0 1 1 4 0  answer 1 0
         F 1          finished
         F 0          circle 1",
    );
    scheduler.assert_store(&Store::of(&[1, 1]).rows(0, &[[2, 0]]).rows(1, &[[3, 0]]));
}

#[test]
fn list_keeps_its_bytes_past_the_count() {
    for length in [64, 65, 80] {
        for (call, expected) in [("F 9", [9, 1, 2]), ("C 9", [1, 2, BLANK])] {
            let mut scheduler = scheduler_with_dependencies(&[(1, 9), (2, 9)]);
            scheduler.follow("F 1  finished\n F 2  finished");
            scheduler.list = vec![BLANK; length];
            scheduler.say(call);
            assert_eq!(scheduler.list[..3], expected);
            assert_eq!(scheduler.list[3..], vec![BLANK; length - 3]);
        }
    }
}

#[test]
fn circle_writes_the_front_of_the_list_alone() {
    let mut scheduler = scheduler_with_dependencies(&[(0, 1), (1, 0)]);
    scheduler.follow("F 0  finished");
    scheduler.list = (100..180).collect();
    scheduler.follow("F 1  circle 0");
    assert_eq!(scheduler.list[0], 0);
    assert_eq!(scheduler.list[1..], (101..180).collect::<Vec<u8>>());
}

#[test]
fn contents_hands_back_the_rows_in_the_store_itself() {
    let rows = [[4, 40], [8, 80]];
    let store = empty().rows(STACK, &[[7, 0], [6, 0]]).rows(SET, &[[3, 0]]).rows(TABLE, &rows).words;
    for (object, expected) in [(STACK, &[7, 0, 6, 0][..]), (SET, &[3, 0]), (TABLE, &[4, 40, 8, 80]), (3, &[])] {
        let part = contents(&store, object as u32);
        assert_eq!(part, expected);
        assert_eq!(part.as_ptr(), store[row_word(object, 0)..].as_ptr());
        assert_eq!(contents_count(&store, object as u32), Ok(expected.len() / 2));
    }
}

#[test]
fn contents_shows_what_is_committed_alone() {
    let mut scheduler = begun();
    scheduler.follow(
        "B 1          ok
         I 1 0 1 7 0  answer 1 0
         I 0 0 1 8 0  answer 1 0
         F 0          finished",
    );
    assert_eq!(contents(&scheduler.store, 0), []);
    assert_eq!(contents_count(&scheduler.store, 0), Ok(0));
    scheduler.follow("F 1  committed 1 0");
    assert_eq!(contents(&scheduler.store, 0), [7, 0, 8, 0]);
    assert_eq!(contents_count(&scheduler.store, 0), Ok(2));
}

#[test]
fn contents_of_64_rows() {
    let rows: Vec<[u32; 2]> = (0..64).map(|key| [key, 100 + key]).collect();
    let store = empty().rows(TABLE, &rows).words;
    assert_eq!(contents(&store, 2), rows.concat());
    assert_eq!(contents_count(&store, 2), Ok(64));
}

#[test]
fn last_object_is_15() {
    let mut scheduler = Scheduler::of(&[]);
    assert_eq!(contents_count(&scheduler.store, 15), Err(Refusal::Object));
    assert_eq!(calls::set_up(&mut scheduler.store, &[1; 16]), Ok(Reply::Ok));
    scheduler.follow(
        "B 0           ok
         I 0 15 1 7 0  answer 1 0
         I 0 14 1 8 0  answer 1 0
         F 0           committed 0",
    );
    scheduler.assert_store(&Store::of(&[1; 16]).rows(14, &[[8, 0]]).rows(15, &[[7, 0]]));
}
