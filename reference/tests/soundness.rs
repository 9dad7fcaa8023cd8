//! Soundness: each clause of the paper's list broken by hand, and stores at the limits.
//!
//! Each broken store breaks one clause alone, as far as the clauses are independent.

mod common;

use common::{
    assert_same_words, entry_word, kind_word, row_count_word, row_word, sixteen, status_word, Entry, Scheduler, Store,
    BLANK, LIST_LENGTH, UNREDUCED, WORDS,
};
use reference::call::Call;
use reference::calls::{self, contents, contents_count};
use reference::soundness::sound;
use reference::{Refusal, Reply};

/// Objects 3, 4 and 5 have rows but no entries, object 6 has no kind; 0 depends on 1, and 4 on 3.
const KINDS: [u8; 6] = [1, 2, 3, 1, 2, 3];
const STACK: usize = 3;
const SET: usize = 4;
const TABLE: usize = 5;
const NONE: usize = 6;

const ACTIVE: [usize; 3] = [1, 2, 3];
const PSEUDO_COMMITTED: [usize; 2] = [0, 4];
const ABSENT: u32 = 5;

const RICH_LOG: [Entry; 10] = [
    [1, 0, 1, 7, 0, 1, 0],
    [0, 0, 1, 9, 0, 1, 0],
    [2, 1, 4, 8, 0, 1, 0],
    [3, 1, 6, 4, 0, 1, 0],
    [3, 1, 5, 6, 0, 1, 0],
    [3, 2, 11, 5, 55, 1, 0],
    [4, 2, 7, 7, 70, 1, 0],
    [4, 2, 8, 5, 0, 1, 0],
    [2, 2, 9, 6, 0, 1, 60],
    [1, 1, 6, 9, 0, 0, 0],
];

/// A store with rows and entries on objects of every kind, and transactions of every status.
fn rich() -> Store {
    Store::of(&KINDS.map(u32::from))
        .active(&ACTIVE)
        .pseudo_committed(&PSEUDO_COMMITTED)
        .rows(0, &[[7, 0], [8, 0]])
        .rows(1, &[[4, 0], [6, 0]])
        .rows(2, &[[5, 50], [6, 60]])
        .rows(STACK, &[[1, 0], [2, 0]])
        .rows(SET, &[[10, 0], [20, 0]])
        .rows(TABLE, &[[10, 1], [20, 2]])
        .log(&RICH_LOG)
}

/// Rows that do for every kind, as many as there may be.
fn full_rows() -> Vec<[u32; 2]> {
    (0..64).map(|key| [key, 0]).collect()
}

/// The rich store with an entry more.
fn rich_with(entry: Entry) -> Store {
    rich().log(&[entry])
}

#[test]
fn rich_store_is_what_calls_write() {
    let mut scheduler = Scheduler::of(&KINDS);
    scheduler.follow(
        "B 9            ok
         I 9 0 1 7 0    answer 1 0
         I 9 0 1 8 0    answer 1 0
         I 9 1 4 4 0    answer 1 0
         I 9 1 4 6 0    answer 1 0
         I 9 2 7 5 50   answer 1 0
         I 9 2 7 6 60   answer 1 0
         I 9 3 1 1 0    answer 1 0
         I 9 3 1 2 0    answer 1 0
         I 9 4 4 10 0   answer 1 0
         I 9 4 4 20 0   answer 1 0
         I 9 5 7 10 1   answer 1 0
         I 9 5 7 20 2   answer 1 0
         F 9            committed 9
         B 0            ok
         B 1            ok
         B 2            ok
         B 3            ok
         B 4            ok
         I 1 0 1 7 0    answer 1 0
         I 0 0 1 9 0    answer 1 0
         I 2 1 4 8 0    answer 1 0
         I 3 1 6 4 0    answer 1 0
         I 3 1 5 6 0    answer 1 0
         I 3 2 11 5 55  answer 1 0
         I 4 2 7 7 70   answer 1 0
         I 4 2 8 5 0    answer 1 0
         F 0            finished
         F 4            finished
         I 2 2 9 6 0    answer 1 60
         I 1 1 6 9 0    answer 0 0",
    );
    scheduler.assert_store(&rich());
    assert!(sound(&scheduler.store));
}

/// Asserts that a store is not sound, that every call but set up refuses it so, and that set up takes it.
#[track_caller]
fn assert_unsound(store: Store) {
    let mut words = store.words;
    assert!(!sound(&words), "sound");
    assert_refused_as_unsound(&mut words);
    assert_eq!(calls::set_up(&mut words, &sixteen(&KINDS)), Ok(Reply::Ok));
    assert_same_words(&words, &Store::of(&KINDS.map(u32::from)).words);
}

#[track_caller]
fn assert_refused_as_unsound(words: &mut [u32]) {
    let before = words.to_vec();
    let mut list = [BLANK; LIST_LENGTH];
    for call in [
        Call::Begin { transaction: ABSENT },
        Call::Operate { transaction: 1, object: 0, operation: 1, key: 7, value: 0 },
        Call::Batch { transaction: 1, operations: vec![] },
        Call::Batch { transaction: 1, operations: vec![0, 1, 7, 0] },
        Call::Finish { transaction: 1 },
        Call::Cancel { transaction: 1 },
    ] {
        assert_eq!(call.serve(words, &mut list), Err(Refusal::Unsound), "{call:?}");
        assert_same_words(words, &before);
        assert_eq!(list, [BLANK; LIST_LENGTH]);
    }
    assert_eq!(contents(words, 0), []);
    assert_eq!(contents_count(words, 0), Err(Refusal::Unsound));
}

/// Asserts that each of the stores is not sound.
#[track_caller]
fn assert_all_unsound(stores: impl IntoIterator<Item = Store>) {
    for store in stores {
        assert_unsound(store);
    }
}

/// Asserts that the rich store with an entry more is not sound, whichever of the entries given it is.
#[track_caller]
fn assert_no_entry(entries: &[Entry]) {
    assert_all_unsound(entries.iter().map(|&entry| rich_with(entry)));
}

// Ranges and zeros.

#[test]
fn log_count_above_256() {
    let full = Store::of(&[1]).active(&[0]).log(&[[0, 0, 3, 0, 0, 0, 0]; 256]);
    assert!(sound(&full.words));
    assert_all_unsound([257, 65_792, u32::MAX].map(|count| full.clone().word(0, count)));
}

#[test]
fn log_count_above_the_entries() {
    assert_unsound(rich().word(0, 11));
}

/// The last ones would do but for their high bits.
#[test]
fn status_above_the_range() {
    assert_all_unsound([66, 67, 258, u32::MAX].map(|status| rich().word(status_word(63), status)));
    assert_all_unsound([64, 256, 1 << 31].map(|high| rich().word(status_word(4), 3 + high)));
}

#[test]
fn kind_above_3() {
    assert_all_unsound([4, 257, u32::MAX].map(|kind| rich().word(kind_word(NONE), kind)));
    assert_unsound(rich().word(kind_word(15), 4));
}

/// The words past a stack's last row are kind and row count of the next object, and would do as a row.
#[test]
fn row_count_above_64() {
    for kind in 1..=3 {
        let full = Store::of(&[kind, 1]).rows(0, &full_rows());
        assert!(sound(&full.words));
        assert_all_unsound([65, 320, u32::MAX].map(|count| full.clone().word(row_count_word(0), count)));
    }
}

#[test]
fn kind_0_with_rows() {
    assert_unsound(rich().word(row_count_word(NONE), 1));
}

#[test]
fn words_past_the_rows_not_zero() {
    for object in [STACK, SET, TABLE, NONE, 15] {
        let count = rich().words[row_count_word(object)] as usize;
        for row in [count, 63] {
            assert_all_unsound([0, 1].map(|word| rich().word(row_word(object, row) + word, 30)));
        }
    }
}

#[test]
fn words_past_the_log_not_zero() {
    for entry in [RICH_LOG.len(), 255] {
        assert_all_unsound((0..7).map(|word| rich().word(entry_word(entry) + word, 1)));
    }
}

#[test]
fn entries_past_the_count() {
    assert_unsound(rich().word(0, 9));
}

#[test]
fn second_word_of_a_stack_row_not_zero() {
    assert_all_unsound([0, 1].map(|row| rich().word(row_word(STACK, row) + 1, 1)));
}

#[test]
fn second_word_of_a_set_row_not_zero() {
    assert_all_unsound([0, 1].map(|row| rich().word(row_word(SET, row) + 1, 1)));
}

#[test]
fn row_key_not_reduced() {
    assert_all_unsound([SET, TABLE].map(|object| rich().word(row_word(object, 1), UNREDUCED)));
    assert_all_unsound([SET, TABLE].map(|object| rich().word(row_word(object, 1), u32::MAX)));
}

#[test]
fn row_keys_equal() {
    assert_all_unsound([SET, TABLE].map(|object| rich().word(row_word(object, 1), 10)));
}

#[test]
fn row_keys_descending() {
    assert_all_unsound([SET, TABLE].map(|object| rich().word(row_word(object, 1), 9)));
}

#[test]
fn row_keys_descending_at_the_end_of_64() {
    let mut rows: Vec<[u32; 2]> = (0..64).map(|key| [key, 0]).collect();
    rows[63] = [61, 0];
    assert_all_unsound([2, 3].map(|kind| Store::of(&[kind]).rows(0, &rows)));
}

// Each entry belongs to a live transaction and fits its object's kind.

#[test]
fn entry_of_an_absent_transaction() {
    assert_no_entry(&[[ABSENT, 0, 1, 1, 0, 1, 0], [63, 0, 1, 1, 0, 1, 0]]);
}

/// The word past the last status is the kind of object 0, here 1 as is the status of active transactions.
#[test]
fn entry_of_a_transaction_above_63() {
    assert_no_entry(&[[64, 0, 1, 1, 0, 1, 0], [257, 0, 1, 1, 0, 1, 0], [u32::MAX, 0, 1, 1, 0, 1, 0]]);
}

/// The words past the last object are the first entry's transaction and object, and would do as those of a stack.
#[test]
fn entry_on_an_object_above_15() {
    assert_no_entry(&[[1, 16, 1, 1, 0, 1, 0], [1, 256, 1, 1, 0, 1, 0], [1, u32::MAX, 1, 1, 0, 1, 0]]);
}

#[test]
fn entry_on_an_object_of_kind_0() {
    for operation in 0..=12 {
        assert_no_entry(&[[1, NONE as u32, operation, 0, 0, 0, 0], [1, NONE as u32, operation, 0, 0, 1, 0]]);
    }
}

#[test]
fn operation_of_another_kind_or_none() {
    for (object, own) in [(STACK, 1..=3), (SET, 4..=6), (TABLE, 7..=11)] {
        let foreign = (0..=12).chain([257, 260, 263, u32::MAX]).filter(|operation| !own.contains(operation));
        for operation in foreign {
            assert_no_entry(&[[1, object as u32, operation, 30, 0, 0, 0], [1, object as u32, operation, 30, 0, 1, 0]]);
        }
    }
}

#[test]
fn entry_key_not_reduced() {
    let key = UNREDUCED + 30;
    assert_no_entry(&[
        [1, SET as u32, 4, key, 0, 1, 0],
        [1, SET as u32, 5, key, 0, 0, 0],
        [1, SET as u32, 6, key, 0, 0, 0],
        [1, TABLE as u32, 7, key, 0, 1, 0],
        [1, TABLE as u32, 8, key, 0, 0, 0],
        [1, TABLE as u32, 9, key, 0, 0, 0],
        [1, TABLE as u32, 11, key, 0, 0, 0],
    ]);
}

#[test]
fn unused_argument_of_a_stack_operation_not_zero() {
    assert_no_entry(&[
        [1, STACK as u32, 1, 30, 1, 1, 0],
        [1, STACK as u32, 2, 1, 0, 1, 2],
        [1, STACK as u32, 2, 0, 1, 1, 2],
        [1, STACK as u32, 3, 1, 0, 1, 2],
        [1, STACK as u32, 3, 0, 1, 1, 2],
    ]);
}

#[test]
fn unused_argument_of_a_set_operation_not_zero() {
    assert_no_entry(&[
        [1, SET as u32, 4, 30, 1, 1, 0],
        [1, SET as u32, 5, 10, 1, 1, 0],
        [1, SET as u32, 6, 10, 1, 1, 0],
    ]);
}

#[test]
fn unused_argument_of_a_table_operation_not_zero() {
    assert_no_entry(&[
        [1, TABLE as u32, 8, 10, 1, 1, 0],
        [1, TABLE as u32, 9, 10, 1, 1, 1],
        [1, TABLE as u32, 10, 1, 0, 1, 2],
        [1, TABLE as u32, 10, 0, 1, 1, 2],
    ]);
}

// Recoverability; the whole of the pair rules is tried in tests/rules.rs.

/// Asserts that entries of active transactions on one empty object are unsound, and sound without the first.
#[track_caller]
fn assert_unrecoverable(kind: u32, entries: &[Entry]) {
    let store = Store::of(&[kind]).active(&[0, 1, 2]);
    assert!(sound(&store.clone().log(&entries[1..]).words), "without the first");
    assert_unsound(store.log(entries));
}

#[test]
fn pop_after_a_push_that_is_not_the_newest_entry() {
    assert_unrecoverable(1, &[[0, 0, 1, 7, 0, 1, 0], [1, 0, 1, 8, 0, 1, 0], [1, 0, 2, 0, 0, 1, 8]]);
}

#[test]
fn member_after_an_insert_that_is_not_the_newest_entry() {
    assert_unrecoverable(2, &[[0, 0, 4, 4, 0, 1, 0], [2, 0, 4, 4, 0, 1, 0], [2, 0, 6, 4, 0, 1, 0]]);
}

#[test]
fn delete_after_a_delete_with_another_transaction_between() {
    assert_unrecoverable(2, &[[0, 0, 5, 4, 0, 0, 0], [1, 0, 6, 9, 0, 0, 0], [2, 0, 5, 4, 0, 0, 0]]);
}

#[test]
fn size_after_an_insert_with_another_transaction_between() {
    let size_with_insert: [Entry; 3] = [[0, 0, 7, 5, 1, 1, 0], [1, 0, 9, 9, 0, 0, 0], [2, 0, 10, 0, 0, 1, 1]];
    assert_unsound(Store::of(&[3]).active(&[0, 1, 2]).log(&size_with_insert));
}

#[test]
fn lookup_after_a_modify_of_its_key() {
    let lookup_after_modify: [Entry; 2] = [[0, 0, 11, 5, 51, 1, 0], [1, 0, 9, 5, 0, 1, 51]];
    assert_unsound(Store::of(&[3]).rows(0, &[[5, 50]]).active(&[0, 1]).log(&lookup_after_modify));
}

#[test]
fn unrecoverable_against_a_pseudo_committed_one() {
    assert_no_entry(&[[1, 2, 10, 0, 0, 1, 2]]);
}

// Answers.

#[test]
fn answer_code_wrong() {
    for (entry, words) in RICH_LOG.iter().enumerate() {
        assert_unsound(rich().word(entry_word(entry) + 5, 1 - words[5]));
        assert_unsound(rich().word(entry_word(entry) + 5, words[5] + 2));
    }
}

#[test]
fn answer_value_wrong() {
    for (entry, words) in RICH_LOG.iter().enumerate() {
        assert_unsound(rich().word(entry_word(entry) + 6, words[6] + 1));
    }
}

#[test]
fn answers_that_rows_belie() {
    let pop = rich_with([1, STACK as u32, 2, 0, 0, 1, 2]);
    let member = rich_with([1, SET as u32, 6, 20, 0, 1, 0]);
    let lookup = rich_with([1, TABLE as u32, 9, 20, 0, 1, 2]);
    assert!([&pop, &member, &lookup].iter().all(|store| sound(&store.words)));
    assert_all_unsound([
        pop.word(row_word(STACK, 1), 3),
        member.word(row_word(SET, 1), 21),
        lookup.word(row_word(TABLE, 1) + 1, 3),
    ]);
}

// Rows plus logged pushes and inserts.

/// Asserts that 64 rows and entries with one push or insert are unsound, but sound once a row is gone.
#[track_caller]
fn assert_above_64(kind: u32, entries: &[Entry]) {
    let with_rows = |rows: &[[u32; 2]]| Store::of(&[kind]).rows(0, rows).active(&[0, 1]).log(entries);
    assert!(sound(&with_rows(&full_rows()[1..]).words), "63 rows");
    assert_unsound(with_rows(&full_rows()));
}

#[test]
fn rows_and_pushes_above_64_though_a_pop_makes_room() {
    assert_above_64(1, &[[0, 0, 2, 0, 0, 1, 63], [0, 0, 1, 9, 0, 1, 0]]);
}

#[test]
fn rows_and_set_inserts_above_64_though_the_key_is_there() {
    assert_above_64(2, &[[0, 0, 4, 9, 0, 1, 0]]);
}

#[test]
fn rows_and_table_inserts_above_64_though_the_key_is_there() {
    assert_above_64(3, &[[0, 0, 7, 9, 5, 0, 0]]);
}

#[test]
fn logged_pushes_and_inserts_alone_above_64() {
    let cases: [(u32, &[Entry]); 3] = [
        (1, &[[0, 0, 1, 9, 0, 1, 0]]),
        (2, &[[0, 0, 4, 9, 0, 1, 0]]),
        (3, &[[0, 0, 7, 9, 0, 1, 0], [0, 0, 8, 9, 0, 1, 0]]),
    ];
    for (kind, entries) in cases {
        let full = Store::of(&[kind]).active(&[0]).log(&entries.repeat(64));
        assert!(sound(&full.words), "kind {kind}");
        assert_unsound(full.log(entries));
    }
}

#[test]
fn pushes_and_inserts_of_all_transactions_count() {
    assert_above_64(2, &[[0, 0, 5, 9, 0, 1, 0], [1, 0, 4, 8, 0, 1, 0]]);
    let rows = &full_rows()[..62];
    let store = |entries: &[Entry]| Store::of(&[1]).rows(0, rows).active(&[0, 1]).log(entries);
    let pushes: [Entry; 3] = [[0, 0, 1, 9, 0, 1, 0], [1, 0, 1, 9, 0, 1, 0], [0, 0, 1, 9, 0, 1, 0]];
    assert!(sound(&store(&pushes[..2]).words));
    assert_unsound(store(&pushes));
}

// Ranks, cycles, dependencies.

/// Transactions that push their numbers on stacks: each pair's first comes to depend on its second.
fn with_dependencies(dependencies: &[(u32, u32)]) -> Store {
    (0..).zip(dependencies).fold(Store::of(&[1; 16]), |store, (stack, &(dependent, on))| {
        store.log(&[[on, stack, 1, on, 0, 1, 0], [dependent, stack, 1, dependent, 0, 1, 0]])
    })
}

#[test]
fn ranks_with_a_gap() {
    assert_unsound(rich().word(status_word(4), 4));
}

#[test]
fn ranks_twice_the_same() {
    assert_unsound(rich().word(status_word(4), 2));
}

#[test]
fn ranks_not_from_0() {
    let store = with_dependencies(&[(0, 1)]).active(&[1]);
    assert!(sound(&store.clone().pseudo_committed(&[0]).words));
    assert_all_unsound([3, 65].map(|status| store.clone().word(status_word(0), status)));
    assert_unsound(rich().word(status_word(0), 4));
}

#[test]
fn pseudo_committed_ones_on_a_cycle() {
    let store = with_dependencies(&[(0, 1), (1, 0)]);
    assert!(sound(&store.clone().pseudo_committed(&[0]).active(&[1]).words));
    assert_unsound(store.pseudo_committed(&[0, 1]));
}

#[test]
fn pseudo_committed_ones_on_a_cycle_that_depends_on_an_active_one() {
    let store = with_dependencies(&[(0, 1), (1, 2), (2, 0), (0, 3), (1, 3), (2, 3)]).active(&[3]);
    assert!(sound(&store.clone().pseudo_committed(&[0, 1]).active(&[2]).words));
    assert_unsound(store.pseudo_committed(&[0, 1, 2]));
}

#[test]
fn pseudo_committed_ones_on_a_cycle_of_sixteen() {
    let cycle: Vec<(u32, u32)> = (0..16).map(|transaction| (transaction, (transaction + 1) % 16)).collect();
    let store = with_dependencies(&cycle);
    let members: Vec<usize> = (0..16).collect();
    assert!(sound(&store.clone().pseudo_committed(&members[1..]).active(&[0]).words));
    assert_unsound(store.pseudo_committed(&members));
}

#[test]
fn pseudo_committed_one_without_entries() {
    assert_unsound(rich().word(status_word(ABSENT as usize), 4));
    assert_unsound(Store::zeros().pseudo_committed(&[63]));
}

#[test]
fn pseudo_committed_one_that_others_depend_on_but_not_it_on_them() {
    let store = with_dependencies(&[(0, 1)]);
    assert_unsound(store.active(&[0]).pseudo_committed(&[1]));
}

#[test]
fn pseudo_committed_one_whose_entries_commute_with_all_earlier_ones() {
    let entries: [Entry; 2] = [[1, 0, 4, 4, 0, 1, 0], [0, 0, 4, 4, 0, 1, 0]];
    let store = Store::of(&[2]).active(&[1]).log(&entries);
    assert!(sound(&store.clone().active(&[0]).words));
    assert_unsound(store.pseudo_committed(&[0]));
}

/// A push of an item on stack 0, and a modify of a key of table 1 that isn't there.
fn push(transaction: u32, item: u32) -> Entry {
    [transaction, 0, 1, item, 0, 1, 0]
}
fn modify(transaction: u32, key: u32, value: u32) -> Entry {
    [transaction, 1, 11, key, value, 0, 0]
}

/// Whether the store with these entries of 0, pseudo-committed, and 1, active, is sound.
#[track_caller]
fn assert_depends(entries: &[Entry], depends: bool) {
    let store = Store::of(&[1, 3]).active(&[1]).log(entries);
    assert!(sound(&store.clone().active(&[0]).words), "both active");
    assert_eq!(sound(&store.pseudo_committed(&[0]).words), depends, "{entries:?}");
}

#[test]
fn pseudo_committed_one_with_pushes_equal_to_all_earlier_ones() {
    assert_depends(&[push(1, 7), push(0, 7)], false);
    assert_depends(&[push(1, 7), push(1, 7), push(0, 7), push(0, 7), push(1, 8)], false);
    assert_depends(&[push(1, 7), push(0, 8)], true);
    assert_depends(&[push(1, 7), push(0, UNREDUCED + 7)], true);
    assert_depends(&[[1, 0, 3, 0, 0, 0, 0], push(0, 0)], true);
}

#[test]
fn pseudo_committed_one_with_modifies_equal_to_all_earlier_ones() {
    assert_depends(&[modify(1, 5, 3), modify(0, 5, 3)], false);
    assert_depends(&[modify(1, 5, 3), modify(1, 6, 4), modify(0, 5, 3), modify(0, 6, 4), modify(1, 5, 4)], false);
    assert_depends(&[modify(1, 5, 3), modify(0, 5, 4)], true);
    assert_depends(&[modify(1, 5, 3), modify(0, 5, UNREDUCED + 3)], true);
    assert_depends(&[modify(1, 5, 3), modify(1, 6, 4), modify(0, 5, 4), modify(0, 6, 4)], true);
}

#[test]
fn pseudo_committed_one_after_an_equal_entry_and_another_of_the_same_owner() {
    for others in [[7, 8], [8, 7]] {
        assert_depends(&[push(1, others[0]), push(1, others[1]), push(0, 7)], true);
        assert_depends(&[push(1, 7), push(0, others[0]), push(0, others[1])], true);
        assert_depends(&[modify(1, 5, others[0]), modify(1, 5, others[1]), modify(0, 5, 7)], true);
        assert_depends(&[modify(1, 5, 7), modify(0, 5, others[0]), modify(0, 5, others[1])], true);
    }
}

/// On two stacks; each depends on 2 as well.
#[test]
fn pseudo_committed_ones_on_no_cycle_since_pushes_are_equal() {
    let on_stacks = |items: [u32; 4]| {
        let [first, second, third, fourth] = items;
        let pushes = [[0, 0, first], [1, 0, second], [1, 1, third], [0, 1, fourth]];
        let entries = pushes.map(|[transaction, stack, item]| [transaction, stack, 1, item, 0, 1, 0]);
        let store = Store::of(&[1, 1, 1]).active(&[2]).pseudo_committed(&[0, 1]).log(&entries);
        store.log(&[[2, 2, 1, 5, 0, 1, 0], [0, 2, 1, 6, 0, 1, 0], [1, 2, 1, 6, 0, 1, 0]])
    };
    assert_all_unsound([on_stacks([1, 2, 3, 4])]);
    for items in [[1, 1, 3, 4], [1, 2, 3, 3], [1, 1, 3, 3]] {
        assert!(sound(&on_stacks(items).words), "{items:?}");
    }
}

#[test]
fn store_of_another_length() {
    for length in [0, 1, 64, 65, 2145, WORDS - 1] {
        assert!(!sound(&vec![0; length]), "{length} words");
    }
    assert!(!sound(&vec![0; WORDS + 1]));
    assert!(!sound(&[rich().words, vec![0]].concat()));
}

// Sound stores.

#[test]
fn zeros_are_sound() {
    assert!(sound(&Store::zeros().words));
}

#[test]
fn limits_are_sound() {
    let rows: Vec<[u32; 2]> = (0..64).map(|row| [UNREDUCED - 64 + row, u32::MAX]).collect();
    let keys: Vec<[u32; 2]> = rows.iter().map(|&[key, _]| [key, 0]).collect();
    let looks = [
        [63, 0, 3, 0, 0, 1, u32::MAX],
        [63, 1, 6, UNREDUCED - 1, 0, 1, 0],
        [63, 15, 9, UNREDUCED - 1, 0, 1, u32::MAX],
        [63, 15, 10, 0, 0, 1, 64],
    ];
    let kinds = [1, 2, 0, 0, 0, 0, 0, 0, 0, 0, 0, 0, 0, 0, 0, 3];
    let store = Store::of(&kinds).rows(0, &[[u32::MAX, 0]; 64]).rows(1, &keys).rows(15, &rows).active(&[63]);
    assert!(sound(&store.log(&looks.repeat(64)).words));
}

#[test]
fn rank_62_is_sound() {
    let entries: Vec<Entry> = (0..64).rev().map(|transaction| [transaction, 0, 1, transaction, 0, 1, 0]).collect();
    let members: Vec<usize> = (0..63).collect();
    let store = Store::of(&[1]).active(&[63]).pseudo_committed(&members).log(&entries);
    assert!(sound(&store.words));
    assert_unsound(store.word(status_word(63), 65));
}

#[test]
fn values_that_nothing_logged_reads_are_free() {
    assert!(sound(&rich().word(row_word(TABLE, 0) + 1, u32::MAX).words));
    assert!(sound(&rich().word(row_word(2, 0) + 1, 0).words));
    assert!(sound(&rich().word(row_word(STACK, 0), u32::MAX).words));
}

#[test]
fn active_transactions_without_entries_are_sound() {
    assert!(sound(&Store::zeros().active(&(0..64).collect::<Vec<_>>()).words));
}
