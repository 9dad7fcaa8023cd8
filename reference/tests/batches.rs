//! Batches: answered entirely or not at all, their limits counted together, their owners joined.

mod common;

use common::{assert_same_words, with_numbers, Entry, Scheduler, Store, BATCH_LIMIT, LOG_LIMIT, ROW_LIMIT};
use reference::calls::{self, batch};
use reference::{Answer, Answers, Outcome, Refusal, Reply};

const KINDS: [u8; 4] = [1, 2, 3, 1];

/// A scheduler with a stack 0, a set 1, a table 2 and a second stack 3, on which transactions 0 to 2 are active.
fn begun() -> Scheduler {
    let mut scheduler = Scheduler::of(&KINDS);
    scheduler.follow("B 0  ok\n B 1  ok\n B 2  ok");
    scheduler
}

/// The store of such a scheduler.
fn empty() -> Store {
    Store::of(&KINDS.map(u32::from)).active(&[0, 1, 2])
}

/// The reply that gives these answers.
fn answered(answers: &[(u32, u32)]) -> Outcome {
    let mut reply = Answers::none();
    answers.iter().for_each(|&(code, value)| reply.push(Answer { code, value }));
    Ok(Reply::Answers(reply))
}

/// The script line of a batch that has an operation so many times.
fn line(transaction: u32, operation: [u32; 4], times: usize) -> String {
    with_numbers(&format!("G {transaction}"), operation.repeat(times))
}

/// Asserts what is said to a line, and that nothing is changed by it.
#[track_caller]
fn assert_unchanged(scheduler: &mut Scheduler, line: &str, reply: &str) {
    let (store, list) = (scheduler.store.clone(), scheduler.list.clone());
    assert_eq!(scheduler.say(line), reply, "{line}");
    assert_same_words(&scheduler.store, &store);
    assert_eq!(scheduler.list, list);
}

#[test]
fn operations_are_entered_in_order_with_keys_reduced_and_unused_arguments_zero() {
    let mut scheduler = begun();
    scheduler
        .follow("G 1 0 1 16777221 9 1 4 16777221 9 2 7 16777221 9 2 10 8 9 0 3 8 9  answer 1 0 1 0 1 0 1 1 1 16777221");
    scheduler.assert_store(&empty().log(&[
        [1, 0, 1, 16_777_221, 0, 1, 0],
        [1, 1, 4, 5, 0, 1, 0],
        [1, 2, 7, 5, 9, 1, 0],
        [1, 2, 10, 0, 0, 1, 1],
        [1, 0, 3, 0, 0, 1, 16_777_221],
    ]));
}

#[test]
fn answers_come_back_by_value_in_order() {
    let mut store = begun().store;
    let words = [0, 1, 7, 0, 0, 1, 8, 0, 0, 2, 0, 0, 0, 2, 0, 0, 0, 2, 0, 0, 1, 4, 3, 0];
    let outcome = batch(&mut store, 0, &words);
    assert_eq!(outcome, answered(&[(1, 0), (1, 0), (1, 8), (1, 7), (0, 0), (1, 0)]));
    store.fill(0);
    assert_eq!(outcome, answered(&[(1, 0), (1, 0), (1, 8), (1, 7), (0, 0), (1, 0)]));
    assert_ne!(answered(&[(0, 0)]), answered(&[]));
    assert_ne!(answered(&[(0, 0)]), answered(&[(0, 0), (0, 0)]));
}

#[test]
fn each_operation_sees_those_before_it() {
    let mut scheduler = Scheduler::on(empty().rows(0, &[[6, 0]]).rows(1, &[[4, 0]]).rows(2, &[[5, 50]]));
    scheduler.follow(
        "G 0 0 2 0 0 0 3 0 0 0 1 7 0 0 3 0 0                      answer 1 6 0 0 1 0 1 7
         G 0 1 5 4 0 1 6 4 0 1 5 4 0 1 4 4 0 1 6 4 0              answer 1 0 0 0 0 0 1 0 1 0
         G 0 2 11 5 51 2 9 5 0 2 7 5 52 2 8 5 0 2 9 5 0 2 10 0 0  answer 1 0 1 51 0 0 1 0 0 0 1 0
         G 0 2 7 5 53 0 2 0 0 2 9 5 0 0 2 0 0                     answer 1 0 1 7 1 53 0 0
         F 0                                                      committed 0",
    );
    let rows = Store::of(&KINDS.map(u32::from)).active(&[1, 2]).rows(1, &[[4, 0]]).rows(2, &[[5, 53]]);
    scheduler.assert_store(&rows);
}

#[test]
fn operations_see_entries_of_others_and_of_earlier_calls() {
    begun().follow(
        "I 0 0 1 7 0                   answer 1 0
         I 1 1 4 4 0                   answer 1 0
         I 2 0 1 8 0                   answer 1 0
         C 2                           cancelled
         G 0 0 3 0 0 0 1 9 0 0 2 0 0   answer 1 7 1 0 1 9
         I 0 0 2 0 0                   answer 1 7
         G 0 0 2 0 0                   answer 0 0",
    );
}

#[test]
fn batch_of_one_says_and_writes_what_operate_does() {
    let mut scheduler = begun();
    scheduler.follow("I 1 1 4 4 0  answer 1 0\n I 2 1 4 4 0  answer 1 0\n I 0 0 1 7 0  answer 1 0");
    for object in [0, 1, 2, 4] {
        for operation in 0..=12 {
            let (mut single, mut one) = (scheduler.store.clone(), scheduler.store.clone());
            let singly = calls::operate(&mut single, 0, object, operation, 16_777_220, 3);
            let expected = match singly {
                Ok(Reply::Answer { code, value }) => answered(&[(code, value)]),
                other => other,
            };
            assert_eq!(batch(&mut one, 0, &[object, operation, 16_777_220, 3]), expected, "{operation} on {object}");
            assert_same_words(&one, &single);
        }
    }
}

#[test]
fn sixteen_operations_are_taken_and_seventeen_refused() {
    let mut scheduler = begun();
    let push = [0, 1, 7, 0];
    let store = scheduler.store.clone();
    for count in [17, 18, 32, 64, 1000] {
        assert_eq!(batch(&mut scheduler.store, 0, &push.repeat(count)), Err(Refusal::Operations), "{count}");
        assert_same_words(&scheduler.store, &store);
    }
    assert_eq!(batch(&mut scheduler.store, 0, &push.repeat(16)), answered(&[(1, 0); 16]));
    scheduler.assert_store(&empty().log(&[[0, 0, 1, 7, 0, 1, 0]; 16]));
}

#[test]
fn part_of_an_operation_at_the_end_is_too_much() {
    let mut scheduler = begun();
    let store = scheduler.store.clone();
    for words in (0..80).filter(|words| words % 4 != 0) {
        let operations = [0, 1, 7, 0].repeat(20);
        assert_eq!(batch(&mut scheduler.store, 0, &operations[..words]), Err(Refusal::Operations), "{words} words");
        assert_same_words(&scheduler.store, &store);
    }
}

#[test]
fn empty_batch_is_answered_with_no_replies_and_changes_nothing() {
    let mut scheduler = begun();
    assert_eq!(batch(&mut scheduler.store, 0, &[]), answered(&[]));
    scheduler.assert_store(&empty());
    scheduler.fill_object(1, 1);
    scheduler.fill_log(1, 1);
    assert_unchanged(&mut scheduler, "G 0", "answer");
    assert_unchanged(&mut scheduler, "G 0 1 6 9 0", "refused 10");
    assert_unchanged(&mut scheduler, "G 3", "refused 7");
    assert_unchanged(&mut scheduler, "G 63", "refused 7");
    assert_unchanged(&mut scheduler, "G 64", "refused 5");
}

#[test]
fn empty_batch_of_a_pseudo_committed_one_is_refused() {
    let mut scheduler = begun();
    scheduler.follow("I 0 0 1 7 0  answer 1 0\n I 1 0 1 8 0  answer 1 0\n F 1  finished");
    assert_unchanged(&mut scheduler, "G 1", "refused 7");
    assert_unchanged(&mut scheduler, "G 0", "answer");
}

#[test]
fn empty_batch_never_waits() {
    let mut scheduler = begun();
    scheduler.follow("G 1 0 1 7 0 1 4 4 0 2 7 5 0 3 1 7 0  answer 1 0 1 0 1 0 1 0\n G 0 0 3 0 0  wait 1 1");
    assert_unchanged(&mut scheduler, "G 0", "answer");
}

#[test]
fn log_limit_counts_the_batch_together() {
    for space in 0..=BATCH_LIMIT {
        let log = vec![[1, 1, 6, 9, 0, 0, 0]; LOG_LIMIT - space];
        for count in 0..=BATCH_LIMIT {
            let mut scheduler = Scheduler::on(empty().log(&log));
            let line = line(0, [0, 3, 0, 0], count);
            if count > space {
                assert_unchanged(&mut scheduler, &line, "refused 10");
            } else {
                assert_eq!(scheduler.say(&line), with_numbers("answer", vec![0; 2 * count]));
                scheduler.assert_store(&empty().log(&log).log(&vec![[0, 0, 3, 0, 0, 0, 0]; count]));
            }
        }
    }
}

/// The operation that adds to an object of `begun`, with a key apart from those in rows and log.
fn addition(object: u32) -> [u32; 4] {
    [object, [1, 4, 7, 1][object as usize], 1000, 0]
}

/// An empty store with so many rows in an object, and pushes or inserts of another transaction in the log.
fn store_with(object: u32, rows: usize, logged: usize) -> Store {
    let rows: Vec<[u32; 2]> = (0..rows as u32).map(|key| [key, 0]).collect();
    let [_, operation, ..] = addition(object);
    let entries: Vec<Entry> = (0..logged as u32).map(|key| [1, object, operation, 100 + key, 0, 1, 0]).collect();
    empty().rows(object as usize, &rows).log(&entries)
}

#[test]
fn row_limit_counts_rows_log_and_batch_together() {
    for object in 0..3 {
        for (rows, logged) in
            [(64, 0), (0, 64), (63, 0), (0, 63), (50, 5), (48, 0), (0, 48), (47, 1), (1, 48), (24, 24)]
        {
            for count in 1..=BATCH_LIMIT {
                let mut scheduler = Scheduler::on(store_with(object, rows, logged));
                let line = line(0, addition(object), count);
                if rows + logged + count > ROW_LIMIT {
                    assert_unchanged(&mut scheduler, &line, "refused 11");
                } else {
                    assert!(scheduler.say(&line).starts_with("answer 1 0"), "{line}");
                }
            }
        }
    }
}

#[test]
fn row_limit_is_that_of_each_object() {
    let full_but_eight = |store: Store, object: usize| store.rows(object, &[[7, 0]; 56]);
    let store = full_but_eight(full_but_eight(empty(), 0), 3);
    let pushes = |on_0: usize, on_3: usize| [[0, 1, 7, 0].repeat(on_0), [3, 1, 7, 0].repeat(on_3)].concat();
    for (on_0, on_3, taken) in [(8, 8, true), (9, 7, false), (7, 9, false), (9, 0, false), (0, 9, false), (8, 0, true)]
    {
        let mut words = store.words.clone();
        let outcome = batch(&mut words, 0, &pushes(on_0, on_3));
        assert_eq!(outcome.is_ok(), taken, "{on_0} and {on_3}");
        assert!(taken || outcome == Err(Refusal::RowsFull), "{on_0} and {on_3}");
    }
}

#[test]
fn row_limit_counts_pushes_and_inserts_whatever_becomes_of_them() {
    let mut scheduler = Scheduler::on(store_with(0, 63, 0));
    assert_unchanged(&mut scheduler, "G 0 0 2 0 0 0 2 0 0 0 1 7 0 0 1 8 0", "refused 11");
    scheduler.follow("G 0 0 2 0 0 0 2 0 0 0 1 7 0 0 2 0 0  answer 1 62 1 61 1 0 1 7");
    for (object, insert, delete) in [(1, 4, 5), (2, 7, 8)] {
        let mut scheduler = Scheduler::on(store_with(object, 63, 0));
        let line = format!("G 0 {object} {insert} 3 0 {object} {insert} 3 0");
        assert_unchanged(&mut scheduler, &line, "refused 11");
        let line = format!("G 0 {object} {insert} 90 0 {object} {delete} 90 0 {object} {insert} 91 0");
        assert_unchanged(&mut scheduler, &line, "refused 11");
        let line = format!("G 0 {object} {delete} 3 0 {object} {insert} 90 0 {object} {delete} 90 0");
        assert_eq!(scheduler.say(&line), "answer 1 0 1 0 1 0");
    }
}

#[test]
fn row_limit_holds_for_pushes_and_inserts_alone() {
    for (object, look) in [(0, 3), (1, 6), (2, 9)] {
        let mut scheduler = Scheduler::on(store_with(object, 64, 0));
        assert!(scheduler.say(&line(0, [object, look, 5, 0], 16)).starts_with("answer 1 "));
        assert_unchanged(&mut scheduler, &line(0, addition(object), 1), "refused 11");
    }
}

#[test]
fn sixteen_batches_fill_the_log() {
    let mut scheduler = begun();
    for transaction in (0..16).map(|number| number % 2) {
        let reply = scheduler.say(&line(transaction, [1, 6, 9, 0], 16));
        assert_eq!(reply, with_numbers("answer", [0; 32]));
    }
    assert_unchanged(&mut scheduler, "G 0 1 6 9 0", "refused 10");
    scheduler.follow("F 0  committed 0\n G 1 1 6 9 0  answer 0 0");
}

#[test]
fn operations_of_a_batch_never_wait_for_each_other() {
    begun().follow(
        "G 0 0 1 7 0 0 2 0 0 0 3 0 0                     answer 1 0 1 7 0 0
         G 0 1 4 4 0 1 6 4 0 1 5 4 0 1 5 4 0             answer 1 0 1 0 1 0 0 0
         G 0 2 7 5 50 2 10 0 0 2 9 5 0 2 11 5 1 2 8 5 0  answer 1 0 1 1 1 50 1 0 1 0
         F 0                                             committed 0",
    );
}

#[test]
fn wait_joins_the_owners_of_all_operations() {
    let mut scheduler = begun();
    scheduler.follow(
        "B 9           ok
         B 63          ok
         I 63 0 1 7 0  answer 1 0
         I 9 1 4 4 0   answer 1 0
         I 2 1 4 5 0   answer 1 0
         I 9 2 7 5 0   answer 1 0
         I 0 3 1 7 0   answer 1 0",
    );
    for (operations, reply) in [
        ("0 2 0 0", "wait 1 63"),
        ("1 6 4 0", "wait 1 9"),
        ("0 2 0 0 1 6 4 0", "wait 2 9 63"),
        ("1 6 4 0 0 2 0 0", "wait 2 9 63"),
        ("1 6 5 0 1 6 4 0", "wait 2 2 9"),
        ("1 6 4 0 2 10 0 0 1 5 4 0", "wait 1 9"),
        ("1 6 6 0 0 1 8 0 3 2 0 0", "answer 0 0 1 0 1 7"),
        ("1 6 6 0 0 1 8 0 3 2 0 0 1 6 5 0", "wait 1 2"),
        ("1 6 5 0 1 6 6 0 0 1 8 0 3 2 0 0", "wait 1 2"),
        ("2 9 5 0 1 6 5 0 0 3 0 0 1 6 6 0", "wait 3 2 9 63"),
    ] {
        let mut copy = Scheduler { store: scheduler.store.clone(), list: scheduler.list.clone() };
        if reply.starts_with("wait") {
            assert_unchanged(&mut copy, &format!("G 0 {operations}"), reply);
        } else {
            assert_eq!(copy.say(&format!("G 0 {operations}")), reply);
        }
    }
}

#[test]
fn wait_joins_63_owners_of_one_operation_each() {
    let mut scheduler = Scheduler::of(&[2]);
    for transaction in 0..64 {
        scheduler.follow(&format!("B {transaction}  ok\n I {transaction} 0 4 {} 0  answer 1 0", transaction % 16));
    }
    let members: Vec<u32> = (0..16).flat_map(|key| [0, 6, key, 0]).collect();
    for transaction in 0..64 {
        let reply = batch(&mut scheduler.store, transaction, &members);
        assert_eq!(reply, Ok(Reply::Wait { owners: !(1 << transaction), count: 63 }), "transaction {transaction}");
    }
}

#[test]
fn own_entries_and_operations_do_not_hide_those_of_others() {
    let mut scheduler = begun();
    scheduler.follow("I 0 0 1 7 0  answer 1 0\n I 1 0 1 8 0  answer 1 0");
    assert_unchanged(&mut scheduler, "G 1 0 1 9 0 0 2 0 0", "wait 1 0");
    assert_unchanged(&mut scheduler, "G 0 0 1 9 0 0 2 0 0", "wait 1 1");
    scheduler.follow("C 0  cancelled\n G 1 0 1 9 0 0 2 0 0  answer 1 0 1 9");
}

#[test]
fn nothing_is_changed_where_the_last_operation_waits_or_is_refused() {
    let mut scheduler = begun();
    scheduler.follow("I 1 1 4 4 0  answer 1 0");
    let before = with_numbers("G 0", [0, 1, 7, 0].repeat(15));
    for (last, reply) in [("1 6 4 0", "wait 1 1"), ("4 1 7 0", "refused 8"), ("0 4 7 0", "refused 9")] {
        assert_unchanged(&mut scheduler, &format!("{before} {last}"), reply);
    }
    scheduler.follow(&format!("C 1  cancelled\n{before} 1 6 4 0  {} 0 0", with_numbers("answer", [1, 0].repeat(15))));
}

#[test]
fn wait_of_a_batch_ends_with_the_last_owner() {
    begun().follow(
        "I 1 0 1 7 0           answer 1 0
         I 2 1 4 4 0           answer 1 0
         G 0 0 3 0 0 1 6 4 0   wait 2 1 2
         F 1                   committed 1
         G 0 0 3 0 0 1 6 4 0   wait 1 2
         C 2                   cancelled
         G 0 0 3 0 0 1 6 4 0   answer 1 7 0 0",
    );
}

#[test]
fn batches_order_commitment_as_their_operations_would() {
    let mut scheduler = begun();
    scheduler.follow(
        "G 0 0 1 1 0             answer 1 0
         G 1 0 1 2 0 3 1 3 0     answer 1 0 1 0
         G 2 1 4 4 0 1 4 5 0     answer 1 0 1 0
         F 2                     committed 2
         G 0 3 1 4 0 0 1 5 0     answer 1 0 1 0
         F 0                     finished
         F 1                     circle 0",
    );
    let rows = Store::of(&KINDS.map(u32::from)).rows(0, &[[1, 0], [5, 0]]).rows(1, &[[4, 0], [5, 0]]);
    scheduler.assert_store(&rows.rows(3, &[[4, 0]]));
}

#[test]
fn cancelled_batch_leaves_nothing() {
    let mut scheduler = begun();
    scheduler.follow(
        "G 0 0 1 7 0 1 4 4 0 2 7 5 50   answer 1 0 1 0 1 0
         G 1 0 1 8 0 1 4 4 0            answer 1 0 1 0
         C 0                            cancelled
         F 1                            committed 1",
    );
    let rows = Store::of(&KINDS.map(u32::from)).active(&[2]).rows(0, &[[8, 0]]).rows(1, &[[4, 0]]);
    scheduler.assert_store(&rows);
}

#[test]
fn batch_touches_all_sixteen_objects() {
    let mut scheduler = Scheduler::of(&[1; 16]);
    scheduler.follow("B 5  ok");
    let pushes: Vec<u32> = (0..16).rev().flat_map(|object| [object, 1, 100 + object, 0]).collect();
    assert_eq!(batch(&mut scheduler.store, 5, &pushes), answered(&[(1, 0); 16]));
    let pops: Vec<u32> = (0..16).flat_map(|object| [object, 2, 0, 0]).collect();
    let items: Vec<(u32, u32)> = (100..116).map(|item| (1, item)).collect();
    assert_eq!(batch(&mut scheduler.store, 5, &pops), answered(&items));
    scheduler.follow("F 5  committed 5");
    scheduler.assert_store(&Store::of(&[1; 16]));
}
