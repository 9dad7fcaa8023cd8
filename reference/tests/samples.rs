//! The paper's whole case and samples, through the script program; and table 1 of the article on recoverability.

mod common;

use common::graph::{Live, Transactions};
use common::{assert_printed, printed, transcript_lines, Scheduler, EQUAL_ITEMS, TABLE_1, TWO_STACKS, WHOLE_CASE};
use reference::rules::{commutes, recoverable};

const PUSH: u32 = 1;
const INSERT: u32 = 7;
const LOOKUP: u32 = 9;
const SIZE: u32 = 10;
const MODIFY: u32 = 11;

#[test]
fn whole_case() {
    assert_printed(WHOLE_CASE);
}

/// Asserts what one transaction's operations are answered, on an empty stack 0, set 1 and table 2.
fn assert_answers(operations: &str) {
    assert_printed(&format!("S 1 2 3  ok\n B 0  ok\n {operations}"));
}

#[test]
fn p1_pop_of_an_empty_stack() {
    assert_answers("I 0 0 2 0 0  answer 0 0");
}

#[test]
fn p2_push_then_top() {
    assert_answers(
        "I 0 0 1 7 0  answer 1 0
         I 0 0 3 0 0  answer 1 7",
    );
}

#[test]
fn p3_set_insert_twice() {
    assert_answers(
        "I 0 1 4 4 0  answer 1 0
         I 0 1 4 4 0  answer 1 0",
    );
}

#[test]
fn p4_set_delete_of_an_absent_key() {
    assert_answers("I 0 1 5 4 0  answer 0 0");
}

#[test]
fn p5_table_insert_twice() {
    assert_answers(
        "I 0 2 7 5 1  answer 1 0
         I 0 2 7 5 2  answer 0 0",
    );
}

#[test]
fn p6_modify_of_an_absent_key() {
    assert_answers("I 0 2 11 5 1  answer 0 0");
}

#[test]
fn p7_keys_are_reduced() {
    assert_answers(
        "I 0 2 7 16777221 3  answer 1 0
         I 0 2 9 5 0         answer 1 3",
    );
}

#[test]
fn p8_size_against_modify_and_insert() {
    assert!(recoverable((SIZE, 0), (MODIFY, 5)));
    assert!(!recoverable((SIZE, 0), (INSERT, 5)));
    assert_printed(
        "S 3             ok
         B 0             ok
         B 1             ok
         I 0 0 11 5 1    answer 0 0
         I 1 0 10 0 0    answer 1 0
         I 0 0 7 6 1     answer 1 0
         I 1 0 10 0 0    wait 1 0",
    );
}

#[test]
fn p9_lookup_against_modify() {
    assert!(recoverable((LOOKUP, 5), (MODIFY, 6)));
    assert!(!recoverable((LOOKUP, 5), (MODIFY, 5)));
    assert_printed(
        "S 3             ok
         B 0             ok
         B 1             ok
         I 0 0 11 6 1    answer 0 0
         I 1 0 9 5 0     answer 0 0
         I 1 0 9 6 0     wait 1 0",
    );
}

#[test]
fn p10_push_against_push() {
    assert!(recoverable((PUSH, 7), (PUSH, 9)));
    assert!(!commutes((PUSH, 7, 0), (PUSH, 9, 0)));
    assert_printed(
        "S 1             ok
         B 0             ok
         B 1             ok
         I 0 0 1 7 0     answer 1 0
         I 1 0 1 9 0     answer 1 0
         F 1             finished",
    );
}

#[test]
fn p10_push_against_push_of_an_equal_item() {
    assert!(recoverable((PUSH, 7), (PUSH, 7)));
    assert!(commutes((PUSH, 7, 0), (PUSH, 7, 0)));
    assert_printed(
        "S 1             ok
         B 0             ok
         B 1             ok
         I 0 0 1 7 0     answer 1 0
         I 1 0 1 7 0     answer 1 0
         F 1             committed 1",
    );
}

#[test]
fn transaction_63_is_taken_and_64_refused() {
    assert_printed(
        "S      ok
         B 63   ok
         B 64   refused 5",
    );
}

/// Asserts that a line is taken so many times and then refused, after a set up of one stack and a begin.
fn assert_taken(line: &str, times: usize, answer: &str, refusal: &str) {
    let input = format!("S 1\nB 0\n{}", format!("{line}\n").repeat(times + 1));
    let expected = format!("ok\nok\n{}{refusal}\n", format!("{answer}\n").repeat(times));
    assert_eq!(printed(input.as_bytes()), expected);
}

#[test]
fn log_takes_256_entries() {
    assert_taken("I 0 0 3 0 0", 256, "answer 0 0", "refused 10");
}

#[test]
fn stack_takes_64_pushes() {
    assert_taken("I 0 0 1 7 0", 64, "answer 1 0", "refused 11");
}

#[test]
fn circle_over_two_stacks() {
    assert_printed(TWO_STACKS);
}

#[test]
fn equal_items_on_two_stacks() {
    assert_printed(EQUAL_ITEMS);
}

#[test]
fn table_1() {
    assert_printed(TABLE_1);
}

/// The sets before each finish of table 1, as its first phase collects them: transaction, SUCC, PRED. Of PRED(T3) it
/// prints 1 alone; since 2 depends on 1 and 4 on 2, both are in it by the definition. Its second phase has no
/// counterpart here, where no sets are kept.
const SETS_OF_TABLE_1: [(u32, &[u32], &[u32]); 5] =
    [(4, &[], &[]), (1, &[], &[]), (2, &[1], &[4]), (5, &[], &[1, 2, 4]), (3, &[4, 2, 1], &[1, 2, 4])];

#[test]
fn sets_of_table_1() {
    let mut scheduler = Scheduler::of(&[]);
    let mut sets = Vec::new();
    for (line, reply) in transcript_lines(TABLE_1) {
        if let Some(transaction) = line.strip_prefix("F ") {
            let transaction = transaction.parse().expect("a number");
            let [pred, succ] = Live::of(&scheduler.store).graph().sets(transaction);
            sets.push((transaction, succ, pred));
        }
        assert_eq!(scheduler.say(line), reply, "{line}");
    }
    let set = |transactions: &[u32]| transactions.iter().copied().collect::<Transactions>();
    assert_eq!(sets, SETS_OF_TABLE_1.map(|(transaction, succ, pred)| (transaction, set(succ), set(pred))));
}
